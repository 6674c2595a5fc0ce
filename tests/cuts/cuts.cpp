// Power cuts for real. A child process makes calls of the index and of the month board on an index in a
// memory-mapped file and notes each call before it begins and after it was answered. The parent kills it at
// a random moment and maps the file again. It checks every key and the lines of a year against the answered
// calls, mends, with a mend that is cut off first, and checks them again, and the listing block by block; the
// call in flight has happened only if all its stores were made, and no answer may change with a mend. After a
// merge that was cut, the directory must be that of the whole merge, or the old one. Built with -DFAULT=NAME
// it runs the twin with that fault in the place of the library, and must find pages lost or invented, or an
// index that cannot be mended.
//
//     cuts FILE SEED
#include "../../bindings/c/month_board.h"
#include "../twin/twin.hpp"

#include <fcntl.h>
#include <sched.h>
#include <signal.h>
#include <sys/mman.h>
#include <sys/wait.h>
#include <unistd.h>

#include <algorithm>
#include <atomic>
#include <cstdio>
#include <cstdlib>
#include <cstring>
#include <ctime>
#include <map>
#include <new>
#include <random>
#include <string>
#include <vector>

namespace {

using twin::word;
using Words = std::vector<word>;

constexpr word depth = 12, segments = 64;
constexpr std::size_t size = (2u << depth) + 128 * segments;
constexpr std::uint32_t all = 0xffffffff;
constexpr int wanted_kills = 3000, wanted_inside = 200, wanted_by_board = 100, wanted_mends = 50, most_kills = 20000;
constexpr int wanted_finished = 50, wanted_undone = 50;

void fail(const char *what) {
    std::perror(what);
    std::exit(2);
}

// Keeps the process on one of the processors that it may use, so that the parent does not take the
// child's while it waits.
void stay_on(int which) {
    cpu_set_t may, one;
    if (sched_getaffinity(0, sizeof may, &may) != 0) fail("sched_getaffinity");
    int skip = which % CPU_COUNT(&may);
    for (int cpu = 0; cpu < CPU_SETSIZE; cpu++) {
        if (!CPU_ISSET(cpu, &may) || skip-- > 0) continue;
        CPU_ZERO(&one);
        CPU_SET(cpu, &one);
        sched_setaffinity(0, sizeof one, &one);
        return;
    }
}

// One call of the child.
struct Call {
    word kind, key, value;
};

// A put, a remove and a merge of the index, a put and a remove of a job by the board, and a print of its year.
constexpr word put = 1, take = 2, merge = 3, set_job = 4, take_job = 5, print = 6;

bool by_board(const Call &c) { return c.kind >= set_job; }

bool is_job(word key) { return twin::refusal_of(twin::job_of(key)) == twin::done; }

// Room for the lines of a year.
unsigned char lines[1 << 16];

// The call by the twin.
template <class Log, twin::Fault fault>
void make_by_twin(word *words, const Call &c, Log log) {
    twin::Index<Log, fault> index(words, size, log);
    twin::Board<Log, fault> board(words, size, log);
    if (c.kind == put) index.put(c.key, c.value, all);
    if (c.kind == take) index.remove(c.key, all);
    if (c.kind == merge) index.merge(c.key, all);
    if (c.kind == set_job) board.set(twin::job_of(c.key), c.value, all);
    if (c.kind == take_job) board.remove(twin::job_of(c.key), all);
    if (c.kind == print) board.print(twin::job_of(c.key).year, lines, sizeof lines);
}

#ifdef FAULT
void make(word *words, const Call &c) { make_by_twin<twin::NoLog, twin::Fault::FAULT>(words, c, {}); }
#else
void make(word *words, const Call &c) {
    twin::Job job = twin::job_of(c.key);
    if (c.kind == put) page_index_put(words, size, c.key, c.value, all);
    if (c.kind == take) page_index_remove(words, size, c.key, all);
    if (c.kind == merge) page_index_merge(words, size, c.key, all);
    if (c.kind == set_job) month_board_set(words, size, job.year, job.month, job.number, c.value, all);
    if (c.kind == take_job) month_board_remove(words, size, job.year, job.month, job.number, all);
    if (c.kind == print) month_board_print(words, size, job.year, lines, sizeof lines);
}
#endif

// The stores of a call, in order, by the twin.
using Stores = std::vector<std::pair<std::size_t, word>>;

struct Log {
    Stores *stores;
    void store(std::size_t at, word value) { stores->emplace_back(at, value); }
};

Stores stores_of(Words words, const Call &c) {
    Stores stores;
    make_by_twin<Log, twin::Fault::none>(words.data(), c, Log{&stores});
    return stores;
}

using Table = std::map<word, word>;

// The year whose lines are looked at.
constexpr word year = 2026;

// An index to begin from, what it holds, the jobs that split its segments, and how often a child merges these again.
struct Scene {
    Words image = Words(size, 0);
    Table table;
    std::vector<word> splitting, jobs;
    int merges = 0;
    double longest = 0;
    cpu_set_t processors;

    void add(word key, word value) {
        if (page_index_put(image.data(), size, key, value, all).code != PAGE_INDEX_DONE) fail("prepare");
        table[key] = value;
    }

    // Adds keys of each bucket, whose values rise with the bucket.
    void add_segment(const std::array<word, 64> &keys, word first) {
        for (word key : keys) add(key, first + twin::folded(key) % 16);
    }

    // The job that has this folded key splits a segment.
    void add_splitting(word bits) {
        splitting.push_back(twin::unfolded(bits));
        if (!is_job(splitting.back())) fail("no job");
    }

    // One segment, full of keys whose directory bits are 1.
    Scene() {
        if (sched_getaffinity(0, sizeof processors, &processors) != 0) fail("sched_getaffinity");
        page_index_format(image.data(), size, depth, segments, all);
        add_segment(twin::before_worst, 1000);
    }

    // A directory of depth 12 with one block at each smaller depth: the block of depth k + 1 has the
    // keys whose directory bits begin with k ones and a zero.
    void deepen() { add(twin::worst_key, 7); }

    // All of these blocks made one again.
    void merge_all() {
        auto prepared = [](page_index_reply reply) {
            if (reply.code != PAGE_INDEX_DONE) fail("prepare");
        };
        prepared(page_index_remove(image.data(), size, twin::worst_key, all));
        table.erase(twin::worst_key);
        for (word l = depth; l > 0; l--) prepared(page_index_merge(image.data(), size, twin::worst_key, all));
    }

    void add_jobs() {
        for (word month = 1; month <= 12; month++) {
            jobs.push_back(twin::key_of(twin::job_with(year, month, 0x1f0 + month)));
            add(jobs.back(), 100 * month);
        }
    }
};

// Wide blocks full of keys that share twelve directory bits: one more key makes a put of many splits.
Scene many_splits() {
    Scene scene;
    scene.deepen();
    scene.add_jobs();
    for (int k = 0; k < 5; k++) {
        word bits = 0xfff0 - (16u << k);
        scene.add_segment(twin::keys_of_segment(bits), 100 * k);
        scene.add_splitting(5 * 65536 + bits - 0x8000);
    }
    return scene;
}

// Wide blocks full of keys that part at the next bit: one more key makes a put of one split, most of
// whose stores are those of the entries.
Scene one_split() {
    Scene scene;
    scene.deepen();
    scene.add_jobs();
    for (int k = 0; k < 2; k++) {
        word bits = 16 * 65536 + 4096 + (16u << k) - 16;
        for (word h = 0; h < 4; h++)
            for (word b = 0; b < 16; b++) scene.add(twin::unfolded(bits + (h << (k + 5)) + b), 100 * k + b);
        scene.add_splitting(bits + (4u << (k + 5)));
    }
    return scene;
}

// One block, full: one more key splits it into two, the right one with all the pages, and once that key is removed
// they can be merged again. In a directory of depth 12 most stores are those of entries, in one of depth 1 those
// of records.
Scene split_and_merge(bool deep) {
    Scene scene;
    if (deep) {
        scene.deepen();
        scene.merge_all();
    }
    scene.merges = deep ? 12 : 200;
    scene.add_splitting(5 * 65536 + 4096);
    return scene;
}

std::vector<word> keys_of(const Table &table) {
    std::vector<word> keys;
    for (const auto &[key, value] : table) keys.push_back(key);
    return keys;
}

// The calls of one child: those that split, in some order, by the index or by the board, each with smaller
// calls behind it.
constexpr std::size_t group = 7;

std::vector<Call> splitting_work(const Scene &scene, std::mt19937_64 &random) {
    std::vector<word> keys = keys_of(scene.table), order = scene.splitting;
    std::shuffle(order.begin(), order.end(), random);
    std::vector<Call> calls;
    for (word key : order) {
        word known = scene.jobs[random() % 12];
        calls.push_back({random() % 2 ? put : set_job, key, random()});
        calls.push_back({put, keys[random() % keys.size()], random()});
        calls.push_back({take, keys[random() % keys.size()], 0});
        calls.push_back({put, twin::unfolded(3 + 16 * (random() % 512)), random()});
        calls.push_back({set_job, twin::key_of({year, 1 + random() % 12, random() % 4096}), random()});
        calls.push_back({take_job, scene.jobs[random() % 12], 0});
        calls.push_back({random() % 8 ? set_job : print, known, random()});
    }
    return calls;
}

// The calls of a child that splits the one block and merges it again, some times. A page gets another value in
// between, or is removed and put again, so that the left segment differs from what the merge stores there.
std::vector<Call> merging_work(const Scene &scene, std::mt19937_64 &random) {
    std::vector<word> keys = keys_of(scene.table);
    std::vector<Call> calls;
    word key = scene.splitting[0];
    for (int round = 0; round < scene.merges; round++) {
        word page = keys[random() % keys.size()], board = random() % 2, removed = random() % 4 == 0;
        calls.push_back({board ? set_job : put, key, random()});
        calls.push_back({board ? take_job : take, key, 0});
        calls.push_back({removed ? take : put, page, random()});
        calls.push_back({merge, random() % 2 ? key : page, 0});
        if (removed) calls.push_back({put, page, random()});
    }
    return calls;
}

word *map_file(int fd) {
    void *at = mmap(nullptr, size * sizeof(word), PROT_READ | PROT_WRITE, MAP_SHARED, fd, 0);
    if (at == MAP_FAILED) fail("mmap");
    return static_cast<word *>(at);
}

// How many calls a child has begun and how many were answered, in memory that the parent sees. A system call in
// place of these stores would be where nearly every kill takes effect.
struct Progress {
    std::atomic<std::size_t> begun, answered;
};

Progress *shared_progress() {
    void *at = mmap(nullptr, sizeof(Progress), PROT_READ | PROT_WRITE, MAP_SHARED | MAP_ANONYMOUS, -1, 0);
    if (at == MAP_FAILED) fail("mmap");
    return new (at) Progress;
}

[[noreturn]] void child(int fd, Progress &progress, const std::vector<Call> &calls) {
    word *words = map_file(fd);
    // Every page is touched first, and the first call is made on a copy, so that the calls take their usual time.
    for (std::size_t i = 0; i < size; i += 512) {
        volatile word *page = words + i;
        *page = *page;
    }
    Words copy(words, words + size);
    make(copy.data(), calls[0]);
    for (const Call &c : calls) {
        progress.begun++;
        make(words, c);
        progress.answered++;
    }
    _exit(0);
}

double now() {
    timespec t;
    clock_gettime(CLOCK_MONOTONIC, &t);
    return t.tv_sec + t.tv_nsec * 1e-9;
}

// Lookups, and where they differ from the table: pages lost, invented, and printed years with other lines.
struct Lookups {
    long made = 0, lost = 0, invented = 0, other_lines = 0;
    long wrong() const { return lost + invented; }
};

struct Counts {
    int kills = 0, in_call = 0, inside = 0, mends = 0, inside_board = 0, inside_merge = 0, finished = 0, undone = 0;
    int cut_mends = 0, other_mends = 0;
    long answered = 0, by_board = 0, other_stores = 0, unmendable = 0;
    long other_directories = 0, other_listings = 0, changed_answers = 0, unmended_lookups = 0;
    Lookups before_mend, after_mend;

    bool reached() const {
        return kills >= wanted_kills && inside >= wanted_inside && inside_board >= wanted_by_board &&
               mends >= wanted_mends && finished >= wanted_finished && undone >= wanted_undone;
    }

    // What a user would notice, and all that differs.
    long harm() const { return before_mend.wrong() + after_mend.wrong() + unmendable; }
    long differences() const {
        return harm() + before_mend.other_lines + after_mend.other_lines + other_stores + other_directories +
               other_listings + other_mends + changed_answers;
    }
};

// Whether the file holds what some number of the call's stores leave, whether that is some but not all, and whether it
// is all.
struct Prefix {
    bool holds, inside, whole;
};

Prefix prefix_of(const Words &before, const word *file, const Call &c) {
    auto stores = stores_of(before, c);
    Words words = before;
    std::size_t wrong = 0;
    for (std::size_t i = 0; i < size; i++) wrong += words[i] != file[i];
    std::size_t made = 0;
    for (; wrong != 0 && made < stores.size(); made++) {
        auto [at, value] = stores[made];
        wrong -= words[at] != file[at];
        words[at] = value;
        wrong += words[at] != file[at];
    }
    bool holds = wrong == 0, whole = holds && made == stores.size();
    return {holds, holds && 0 < made && !whole, whole};
}

void record(Table &table, const Call &c) {
    if (c.kind == put || c.kind == set_job) table[c.key] = c.value;
    if (c.kind == take || c.kind == take_job) table.erase(c.key);
}

// A job is looked up by the board.
page_index_reply look_up(const word *file, word key) {
    twin::Job job = twin::job_of(key);
    return is_job(key) ? month_board_read(file, size, job.year, job.month, job.number) : page_index_get(file, size, key);
}

// The lines of the year, from a table whose keys rise.
std::string lines_of(const Table &table) {
    static const char *const names[] = {"Jan", "Feb", "Mar", "Apr", "May", "Jun", "Jul", "Aug", "Sep", "Oct", "Nov", "Dec"};
    std::string text;
    for (const auto &[key, pages] : table) {
        twin::Job job = twin::job_of(key);
        if (job.year != year || !is_job(key)) continue;
        text += std::string(names[job.month - 1]) + '\t' + std::to_string(job.number) + '\t' + std::to_string(pages) + '\n';
    }
    return text;
}

// The pages of the index, listed block by block with 128 words. No table has page 0: it stands for a refusal, and for
// a page that comes twice.
Table listed_blocks(const word *file) {
    Table found;
    word records[128], index = 0;
    do {
        page_index_reply got = page_index_list_block(file, size, index, records, 128, &index);
        if (got.code != PAGE_INDEX_DONE) return {{0, got.code}};
        for (word i = 0; i < got.value; i++)
            if (!found.emplace(records[2 * i], records[2 * i + 1]).second) found[0] = records[2 * i];
    } while (index != 0);
    return found;
}

// What lookups say of every key that was ever used, and the lines of the year that a print has written.
struct Answers {
    std::map<word, page_index_reply> of;
    std::string lines;
};

Answers look_up_all(const word *file, const Table &used) {
    Answers answers;
    for (const auto &[key, unused] : used) {
        (void)unused;
        answers.of[key] = look_up(file, key);
    }
    page_index_reply got = month_board_print(file, size, year, lines, sizeof lines);
    answers.lines = got.code == PAGE_INDEX_DONE ? std::string(reinterpret_cast<char *>(lines), got.value) : "refused";
    return answers;
}

bool says(const page_index_reply &got, const Table &table, word key) {
    auto at = table.find(key);
    if (at == table.end()) return got.code == PAGE_INDEX_ABSENT;
    return got.code == PAGE_INDEX_DONE && got.value == at->second;
}

// The tables of which lookups may say one or the other.
struct Either {
    const Table &one, &other;
};

void check(const Answers &answers, const Either &tables, Lookups &lookups) {
    for (const auto &[key, got] : answers.of) {
        lookups.made++;
        if (says(got, tables.one, key) || says(got, tables.other, key)) continue;
        (tables.one.count(key) ? lookups.lost : lookups.invented)++;
    }
    lookups.other_lines += answers.lines != lines_of(tables.one) && answers.lines != lines_of(tables.other);
}

// How many answers differ.
long changed(const Answers &x, const Answers &y) {
    long count = x.lines != y.lines;
    for (const auto &[key, got] : x.of) {
        const page_index_reply &other = y.of.at(key);
        count += got.code != other.code || got.value != other.value;
    }
    return count;
}

// Which call has begun some time before the kill: the first where calls are short, else mostly one that splits.
std::size_t target(const Scene &scene, std::size_t calls, std::mt19937_64 &random) {
    if (scene.merges) return 0;
    return random() % 4 ? random() % scene.splitting.size() * group : random() % calls;
}

// Runs a child that makes the calls and kills it; false where it had ended before.
bool killed(int fd, const Scene &scene, const std::vector<Call> &calls, std::mt19937_64 &random, Progress &progress) {
    progress.begun = progress.answered = 0;
    pid_t pid = fork();
    if (pid < 0) fail("fork");
    if (pid == 0) {
        sched_setaffinity(0, sizeof scene.processors, &scene.processors);
        stay_on(1);
        child(fd, progress, calls);
    }
    std::size_t awaited = target(scene, calls.size(), random);
    double patience = now() + 60;
    while (progress.begun <= awaited)
        if (now() > patience) fail("no call begins");
    double until = now() + scene.longest * (random() % 1000000) / 1e6;
    while (now() < until) {
    }
    kill(pid, SIGKILL);
    int status;
    waitpid(pid, &status, 0);
    if (WIFSIGNALED(status) && WTERMSIG(status) != SIGKILL) fail("child");
    return WIFSIGNALED(status);
}

// The number of words before the segments.
constexpr std::size_t directory_end = 2u << depth;

// Mends the file that a kill within a merge has left. Where the first entry was stored, the directory must be that
// of the whole merge then, else the old one.
page_index_reply mend_merge(const Words &before, word *file, const Call &c, Counts &counts) {
    Stores stores = stores_of(before, c);
    auto in_directory = [](const auto &store) { return store.first < directory_end; };
    auto [at, entry] = *std::find_if(stores.begin(), stores.end(), in_directory);
    bool begun = file[at] == entry;
    Words whole = before;
    make_by_twin<twin::NoLog, twin::Fault::none>(whole.data(), c, {});
    page_index_reply mended = page_index_mend(file, size, all);
    counts.inside_merge++;
    (begun ? counts.finished : counts.undone)++;
    counts.other_directories += !std::equal(file, file + directory_end, begun ? whole.data() : before.data());
    return mended;
}

// Where a mend has something to do, makes one that is cut off at a random store, and looks every key up again.
void cut_mend(word *file, const Answers &early, const Table &used, std::mt19937_64 &random, Counts &counts) {
    Words copy(file, file + size);
    std::uint32_t due = page_index_mend(copy.data(), size, all).stores;
    if (due == 0) return;
    counts.cut_mends++;
    counts.other_mends += page_index_mend(file, size, std::uint32_t(random() % due)).code != PAGE_INDEX_CUT_OFF;
    counts.changed_answers += changed(early, look_up_all(file, used));
}

// Looks at the file that a kill has left, checks it, mends it, and checks it again.
void examine(word *file, const Scene &scene, const std::vector<Call> &calls, const Progress &progress,
             std::mt19937_64 &random, Counts &counts) {
    Words before = scene.image;
    Table told = scene.table, used = scene.table;
    for (const Call &c : calls) used[c.key] = 0;
    for (std::size_t i = 0; i < progress.answered; i++) {
        make(before.data(), calls[i]);
        record(told, calls[i]);
    }
    bool in_flight = progress.begun > progress.answered;
    const Call flying = in_flight ? calls[progress.answered] : Call{};
    // With no call in flight there is no store, and the file must be as the answered calls have left it.
    Prefix made = prefix_of(before, file, flying);
    Table happened = told;
    record(happened, flying);
    // Where the stores made are not the defined ones, the call in flight may have happened or not.
    const Table &table = made.whole ? happened : told;
    const Either tables{table, made.holds ? table : happened};
    counts.other_stores += !made.holds;
    counts.in_call += in_flight;
    counts.inside += made.inside;
    counts.inside_board += made.inside && by_board(flying);
    Answers early = look_up_all(file, used);
    check(early, tables, counts.before_mend);
    cut_mend(file, early, used, random, counts);
    bool in_merge = made.inside && flying.kind == merge;
    page_index_reply mended = in_merge ? mend_merge(before, file, flying, counts) : page_index_mend(file, size, all);
    counts.mends += mended.stores > 0 && !in_merge;
    counts.unmendable += mended.code != PAGE_INDEX_DONE;
    counts.unmended_lookups += mended.stores > 0 ? long(early.of.size()) : 0;
    Answers late = look_up_all(file, used);
    check(late, tables, counts.after_mend);
    counts.changed_answers += changed(early, late);
    Table listed = listed_blocks(file);
    counts.other_listings += listed != tables.one && listed != tables.other;
}

// One child, one kill, one look at the file.
void cut(int fd, const Scene &scene, std::mt19937_64 &random, Progress &progress, Counts &counts) {
    word *words = map_file(fd);
    std::memcpy(words, scene.image.data(), size * sizeof(word));
    munmap(words, size * sizeof(word));
    std::vector<Call> calls = scene.merges ? merging_work(scene, random) : splitting_work(scene, random);
    if (!killed(fd, scene, calls, random, progress)) return;
    counts.kills++;
    counts.answered += long(progress.answered);
    counts.by_board += std::count_if(calls.begin(), calls.begin() + long(progress.answered), by_board);
    words = map_file(fd);
    examine(words, scene, calls, progress, random, counts);
    munmap(words, size * sizeof(word));
}

// How long a put that splits takes, or all calls of a child that merges, and somewhat more.
double measure(const Scene &scene, std::mt19937_64 &random) {
    std::vector<Call> calls;
    for (word key : scene.splitting) calls.push_back({put, key, 1});
    double parts = double(calls.size());
    if (scene.merges) calls = merging_work(scene, random);
    Words words = scene.image;
    double start = now();
    for (const Call &c : calls) make(words.data(), c);
    return 1.3 * (now() - start) / parts;
}

void print_lookups(const char *when, const Lookups &l) {
    std::printf("lookups %s the mend %ld: pages lost %ld, invented %ld; printed years that differ %ld\n", when, l.made,
                l.lost, l.invented, l.other_lines);
}

void print_counts(const char *seed, const Counts &c) {
    std::printf("seed %s, kills %d, during a call %d, between its first and last store %d, mends that made a store %d\n",
                seed, c.kills, c.in_call, c.inside, c.mends + c.finished);
    std::printf("answered calls %ld, not mendable %ld, stores out of order %ld; mends cut off first %d, answered otherwise %d\n",
                c.answered, c.unmendable, c.other_stores, c.cut_mends, c.other_mends);
    print_lookups("before", c.before_mend);
    print_lookups("after", c.after_mend);
    std::printf("of those before it %ld where the mend then made a store; answers that a mend, cut off or whole, changed %ld; "
                "listings block by block that differ after it %ld\n",
                c.unmended_lookups, c.changed_answers, c.other_listings);
    std::printf("by the board: answered calls %ld, kills between the first and last store %d\n", c.by_board,
                c.inside_board);
    std::printf("in merges: kills between the first and last store %d, finished by the mend %d, left undone %d; "
                "other directories %ld\n", c.inside_merge, c.finished, c.undone, c.other_directories);
}

}  // namespace

int main(int count, char **arguments) {
    if (count != 3) return std::fputs("cuts FILE SEED\n", stderr), 2;
    std::mt19937_64 random(std::stoull(arguments[2]));
    int fd = open(arguments[1], O_RDWR | O_CREAT | O_TRUNC, 0600);
    if (fd < 0 || ftruncate(fd, size * sizeof(word)) != 0) fail(arguments[1]);
    Scene scenes[] = {many_splits(), one_split(), split_and_merge(true), split_and_merge(false)};
    constexpr int shares[] = {0, 1, 1, 1, 2, 2, 2, 3};
    for (Scene &scene : scenes) scene.longest = measure(scene, random);
    stay_on(0);
    Progress *progress = shared_progress();
    Counts c;
#ifdef FAULT
    while (c.kills < most_kills && c.harm() < 10) cut(fd, scenes[shares[random() % 8]], random, *progress, c);
    print_counts(arguments[2], c);
    return c.harm() > 0 ? 0 : 1;
#else
    while (c.kills < most_kills && !c.reached() && c.differences() < 10)
        cut(fd, scenes[shares[random() % 8]], random, *progress, c);
    print_counts(arguments[2], c);
    return c.reached() && c.differences() == 0 ? 0 : 1;
#endif
}
