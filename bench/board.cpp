// How many jobs a board of the cabinet's size takes, with the numbers 0 to n - 1 in every month. A line for each n:
//
//     n, the jobs from January 2026 on in rising order until the first refusal, its code, month and year, and
//     how many whole years an array takes: the least over four first years, each in rising order and with the jobs of
//     each year in a random one. More than 64 years are not tried.
#include "../bindings/c/month_board.h"

#include <algorithm>
#include <cstdio>
#include <random>
#include <vector>

namespace {

using word = std::uint64_t;

constexpr word depth = 12, segments = 4032, last_year = 9999, most_years = 64;
constexpr const char *months[] = {"Jan", "Feb", "Mar", "Apr", "May", "Jun", "Jul", "Aug", "Sep", "Oct", "Nov", "Dec"};

struct Job {
    word year, month, number;
};

class Board {
  public:
    Board() : words(PAGE_INDEX_WORDS(depth, segments)) {
        page_index_format(words.data(), words.size(), depth, segments, PAGE_INDEX_ALL);
    }
    std::uint32_t set(const Job &job) {
        return month_board_set(words.data(), words.size(), job.year, job.month, job.number, 1, PAGE_INDEX_ALL).code;
    }

  private:
    std::vector<word> words;
};

// The jobs of a year, in rising order.
std::vector<Job> jobs_of(word year, word numbers) {
    std::vector<Job> jobs;
    for (word month = 1; month <= 12; month++)
        for (word number = 0; number < numbers; number++) jobs.push_back({year, month, number});
    return jobs;
}

// Sets year after year from 2026 on, and says when a job is refused for the first time.
void say_first_refusal(word numbers) {
    Board board;
    word set = 0;
    for (word year = 2026; year <= last_year; year++)
        for (const Job &job : jobs_of(year, numbers)) {
            if (std::uint32_t code = board.set(job)) {
                std::printf("%lu %lu %u %s %lu", numbers, set, code, months[job.month - 1], job.year);
                return;
            }
            set++;
        }
}

// The whole years from this one on that an array takes, at most so many. For the seed 0 jobs rise.
word whole_years(word first, word numbers, unsigned seed, word most) {
    Board board;
    std::mt19937_64 random(seed);
    for (word year = first; year < first + most; year++) {
        std::vector<Job> jobs = jobs_of(year, numbers);
        if (seed) std::shuffle(jobs.begin(), jobs.end(), random);
        for (const Job &job : jobs)
            if (board.set(job)) return year - first;
    }
    return most;
}

}  // namespace

int main() {
    for (word numbers : {50, 100, 128, 200, 256, 300, 500, 1000, 2000, 4096}) {
        say_first_refusal(numbers);
        word least = most_years;
        for (word first = 2026; first < 2030; first++)
            for (unsigned seed : {1, 0}) least = std::min(least, whole_years(first, numbers, seed, least));
        std::printf(" %lu\n", least);
    }
    return 0;
}
