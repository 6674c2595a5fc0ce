// A run as the bureau would have it (document 02, wish 6). An index is filled to the first refusal, nine of ten pages
// are removed, blocks are merged until none can be, and it is filled again: one of the cabinet's size with running
// numbers, and one of a quarter of it with random keys. The library and the twin do it on an array each, at the same
// time; every answer, and every word after each phase, must agree, and every lookup must find what was put.
#include "../../bindings/c/page_index.h"
#include "../twin/twin.hpp"

#include <algorithm>
#include <cstdio>
#include <future>
#include <random>
#include <set>
#include <vector>

namespace {

using twin::word;
using Words = std::vector<word>;

constexpr std::uint32_t all = 0xffffffff;

// More pages than two fills put, and more passes than a block can be merged in.
constexpr std::size_t most_pages = 500000;
constexpr word most_passes = 100;

// What an index is made for: its largest depth and segments, and the keys of the pages 1, 2, 3 and so on.
struct Cabinet {
    word depth, segments;
    Words keys;

    std::size_t size() const { return (std::size_t(2) << depth) + 128 * segments; }
};

// The library, called as the twin is.
class Library {
  public:
    Library(word *words, std::size_t length) : w(words), n(length) {}

    twin::Answer format(word d, word s, std::uint32_t most) { return answer(page_index_format(w, n, d, s, most)); }
    twin::Answer get(word key) const { return answer(page_index_get(w, n, key)); }
    twin::Answer put(word key, word value, std::uint32_t most) { return answer(page_index_put(w, n, key, value, most)); }
    twin::Answer remove(word key, std::uint32_t most) { return answer(page_index_remove(w, n, key, most)); }
    twin::Answer merge(word key, std::uint32_t most) { return answer(page_index_merge(w, n, key, most)); }

  private:
    word *w;
    std::size_t n;

    static twin::Answer answer(const page_index_reply &r) { return {r.code, r.stores, r.value}; }
};

// A key that leads to this entry of a directory of depth g.
word key_at(std::size_t entry, unsigned g) {
    word bits = 1;
    for (unsigned b = 0; b < g; b++) bits |= (entry >> (g - 1 - b) & 1) << (4 + b);
    return twin::unfolded(bits);
}

// What is printed of a run. The two counts of refusals are those of the last pass.
struct Figures {
    word filled, filled_code, named, free, left, merges, no_buddy, both_live, passes, stores, free_merged;
    word refilled, refilled_code, free_refilled, lookups, wrong;
};

// One run, with all that was answered and left.
template <class Index>
class Run {
  public:
    Words answers;
    std::vector<Words> after;
    Figures f{};

    explicit Run(const Cabinet &cabinet)
        : cabinet(cabinet), kept(most_pages), words(cabinet.size()), index(words.data(), words.size()) {
        note(index.format(cabinet.depth, cabinet.segments, all));
        f.filled_code = fill();
        f.filled = pages;
        f.named = named();
        f.free = cabinet.segments - f.named;
        remove_most();
        merge_all();
        f.free_merged = cabinet.segments - named();
        look_up();
        f.refilled_code = fill();
        f.refilled = pages - f.filled;
        f.free_refilled = cabinet.segments - named();
        look_up();
    }

  private:
    const Cabinet &cabinet;
    std::vector<bool> kept;
    std::size_t pages = 0;
    Words words;
    Index index;

    twin::Answer note(const twin::Answer &a) {
        answers.insert(answers.end(), {a.code, a.stores, a.value});
        return a;
    }

    static word place_of(std::size_t page) { return 3 * page; }

    // Puts the next pages; answers the code of the first refusal.
    word fill() {
        for (;;) {
            std::size_t page = pages + 1;
            word code = note(index.put(cabinet.keys.at(page), place_of(page), all)).code;
            if (code != twin::done) {
                after.push_back(words);
                return code;
            }
            kept[page] = true;
            pages = page;
        }
    }

    // Keeps every tenth page.
    void remove_most() {
        for (std::size_t page = 1; page <= pages; page++) {
            if (page % 10 == 0) continue;
            note(index.remove(cabinet.keys[page], all));
            kept[page] = false;
        }
        f.left = pages / 10;
        after.push_back(words);
    }

    // One call for every block, from the left; answers how many merges were done.
    word merge_pass() {
        unsigned g = words[0] & 255;
        const word *entries = &words[std::size_t(1) << g];
        word done = 0;
        f.no_buddy = f.both_live = 0;
        for (std::size_t i = 0; i < std::size_t(1) << g;) {
            twin::Answer a = note(index.merge(key_at(i, g), all));
            done += a.code == twin::done;
            f.no_buddy += a.code == twin::no_buddy;
            f.both_live += a.code == twin::both_live;
            f.stores += a.stores;
            // Behind the block that is there now; after a merge it may begin before i.
            std::size_t width = std::size_t(1) << (g - unsigned(entries[i] >> 32));
            i = (i & ~(width - 1)) + width;
        }
        return done;
    }

    void merge_all() {
        word done = 1;
        while (done && f.passes < most_passes) {
            done = merge_pass();
            f.merges += done;
            f.passes++;
        }
        after.push_back(words);
    }

    // Every page: one that is kept is found with its place, any other is absent.
    void look_up() {
        for (std::size_t page = 1; page <= pages; page++) {
            twin::Answer a = note(index.get(cabinet.keys[page]));
            f.wrong += kept[page] ? a.code != twin::done || a.value != place_of(page) : a.code != twin::absent;
            f.lookups++;
        }
    }

    // How many segments the directory names.
    word named() const {
        std::size_t count = std::size_t(1) << (words[0] & 255);
        std::set<std::uint32_t> numbers;
        for (std::size_t i = 0; i < count; i++) numbers.insert(std::uint32_t(words[count + i]));
        return numbers.size();
    }
};

// The run by both. Whether they agree, no lookup was wrong, and each merge has made one segment free.
bool passes(const char *name, const Cabinet &cabinet, Figures &figures) {
    auto by_twin = std::async(std::launch::async, [&cabinet] { return Run<twin::Index<>>(cabinet); });
    Run<Library> ours(cabinet);
    Run<twin::Index<>> theirs = by_twin.get();
    figures = ours.f;
    bool answers = ours.answers == theirs.answers, words = ours.after == theirs.after;
    std::printf("%s: answers %zu%s, words after each of %zu phases%s, lookups %lu, wrong %lu\n", name,
                ours.answers.size() / 3, answers ? "" : " THAT DIFFER", ours.after.size(), words ? "" : " THAT DIFFER",
                figures.lookups, figures.wrong);
    return answers && words && figures.wrong == 0 && figures.free_merged == figures.free + figures.merges;
}

void print_row(const char *name, word left, word right) { std::printf("%-44s%16lu%16lu\n", name, left, right); }

void print_table(const Figures &a, const Figures &b) {
    std::printf("%-44s%16s%16s\n", "", "running numbers", "random keys");
    print_row("pages until the first refusal", a.filled, b.filled);
    print_row("code of that refusal", a.filled_code, b.filled_code);
    print_row("segments that the directory names", a.named, b.named);
    print_row("free segments", a.free, b.free);
    print_row("pages left after the removes", a.left, b.left);
    print_row("merges done", a.merges, b.merges);
    print_row("merges refused with 14, in the last pass", a.no_buddy, b.no_buddy);
    print_row("merges refused with 15, in the last pass", a.both_live, b.both_live);
    print_row("passes over the directory", a.passes, b.passes);
    print_row("stores made by merges", a.stores, b.stores);
    print_row("free segments after merging", a.free_merged, b.free_merged);
    print_row("pages put in the second fill", a.refilled, b.refilled);
    print_row("code of the refusal that ends it", a.refilled_code, b.refilled_code);
    print_row("free segments at its end", a.free_refilled, b.free_refilled);
}

}  // namespace

int main() {
    Cabinet running{12, 4032, Words(most_pages)}, scattered{10, 1008, Words(most_pages)};
    std::mt19937_64 random(20261101);
    for (std::size_t page = 0; page < most_pages; page++) running.keys[page] = page;
    std::generate(scattered.keys.begin(), scattered.keys.end(), [&random] { return std::max<word>(random(), 1); });
    Figures a, b;
    bool sound = passes("running numbers", running, a);
    sound &= passes("random keys", scattered, b);
    print_table(a, b);
    return sound ? 0 : 1;
}
