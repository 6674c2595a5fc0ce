// The stores as they are made. Every store of long random runs, at full allowance and cut, is seen one by one (watch.hpp) and
// must be the one that is due: the list of the call's stores by the twin, store by store, those of an equal word too, each of
// one whole aligned word in one instruction. Calls that make no store are seen to make none.
//
//     stores             the library: exit status 0 if every store is as it must be
//     stores FAULT       with a fault in a shim around it (faults.hpp): exit status 1 as soon as it is found
//     stores faults      the names of the faults
#include "faults.hpp"
#include "watch.hpp"

#include <algorithm>
#include <chrono>
#include <functional>
#include <map>
#include <random>
#include <string>

namespace {

using twin::word;
using Words = std::vector<word>;
using Random = std::mt19937_64;

constexpr std::uint32_t all = 0xffffffff;

struct Log {
    std::vector<watch::Store> *stores;
    void store(std::size_t at, word value) { stores->push_back({at, value}); }
};

using Index = twin::Index<Log>;
using Board = twin::Board<Log>;

// A call: its kind, as the library makes it on the watched array, and as the twin does on its own.
struct Call {
    std::string kind;
    std::function<page_index_reply(word *, std::size_t)> made;
    std::function<twin::Answer(word *, std::size_t, Log)> defined;
};

struct Count {
    long calls = 0, stores = 0, cut = 0, refused = 0;
};

// The watched array beside the twin's, and what was counted.
class Pair {
  public:
    Pair(const Words &before, std::map<std::string, Count> &counts) : watched(before), theirs(before), counts(counts) {}

    // Makes a call on both. Stops the program at the first store that is not as it must be.
    twin::Answer make(const Call &call) {
        due.clear();
        twin::Answer answer = call.defined(theirs.data(), theirs.size(), Log{&due});
        watch::forget();
        page_index_reply reply = call.made(watch::words, theirs.size());
        if (watch::torn != 0) differs(call, "a store that is not of one whole aligned word in one instruction");
        if (!std::equal(due.begin(), due.end(), watch::seen, watch::seen + watch::count)) differs(call, "another store");
        if (reply.code != answer.code || reply.stores != answer.stores || reply.value != answer.value) differs(call, "another answer");
        note(call.kind + (call.kind == "put" ? splits() : ""), answer);
        return answer;
    }

    // Whether both arrays hold the same words.
    bool same() const { return std::equal(theirs.begin(), theirs.end(), watch::words); }

    // Another word, as damage leaves one.
    void damage(std::size_t at, word value) {
        theirs[at] = value;
        watched.write(theirs);
    }

    word at(std::size_t i) const { return theirs[i]; }
    const Words &twins() const { return theirs; }
    long stores = 0, calls = 0;

  private:
    watch::Array watched;
    Words theirs;
    std::vector<watch::Store> due;
    std::map<std::string, Count> &counts;

    void note(const std::string &kind, const twin::Answer &answer) {
        Count &count = counts[kind];
        count.calls++;
        count.stores += long(due.size());
        count.cut += answer.code == twin::cut_off;
        count.refused += answer.code != twin::done && answer.code != twin::absent && answer.code != twin::cut_off;
        stores += long(due.size());
        calls++;
    }

    // How often the put has filled a new segment: each time it stores the key word of slot 63 there. The last two stores of
    // a put can be those of its own record.
    std::string splits() const {
        const std::size_t base = std::size_t(2) << (theirs[0] >> 8 & 255);
        long times = 0;
        for (std::size_t i = 0; i + 2 < due.size(); i++) times += due[i].at >= base && (due[i].at - base) % 128 == 126;
        return times == 0 ? ", no split" : times == 1 ? ", one split" : times == 12 ? ", twelve splits" : ", more splits";
    }

    [[noreturn]] void differs(const Call &call, const char *what) const {
        std::size_t i = 0;
        while (i < due.size() && i < watch::count && due[i] == watch::seen[i]) i++;
        std::printf("%s: %s, at store %zu of %zu\n", call.kind.c_str(), what, i + 1, due.size());
        if (i < due.size()) std::printf("  due  word %zu := %#lx\n", due[i].at, due[i].value);
        if (i < watch::count) std::printf("  seen word %zu := %#lx\n", watch::seen[i].at, watch::seen[i].value);
        std::fflush(stdout);
        std::_Exit(1);
    }
};

Call format(word depth, word segments, std::uint32_t allowance) {
    return {"format", [=](word *w, std::size_t n) { return faults::format(w, n, depth, segments, allowance); },
            [=](word *w, std::size_t n, Log log) { return Index(w, n, log).format(depth, segments, allowance); }};
}

Call put(word key, word value, std::uint32_t allowance) {
    return {"put", [=](word *w, std::size_t n) { return faults::put(w, n, key, value, allowance); },
            [=](word *w, std::size_t n, Log log) { return Index(w, n, log).put(key, value, allowance); }};
}

Call remove(word key, std::uint32_t allowance) {
    return {"remove", [=](word *w, std::size_t n) { return page_index_remove(w, n, key, allowance); },
            [=](word *w, std::size_t n, Log log) { return Index(w, n, log).remove(key, allowance); }};
}

Call merge(word key, std::uint32_t allowance) {
    return {"merge", [=](word *w, std::size_t n) { return faults::merge(w, n, key, allowance); },
            [=](word *w, std::size_t n, Log log) { return Index(w, n, log).merge(key, allowance); }};
}

Call mend(std::uint32_t allowance) {
    return {"mend", [=](word *w, std::size_t n) { return faults::mend(w, n, allowance); },
            [=](word *w, std::size_t n, Log log) { return Index(w, n, log).mend(allowance); }};
}

// The calls that make no store. Of a listing the answer alone is compared here.
Call get(word key) {
    return {"get", [=](word *w, std::size_t n) { return faults::get(w, n, key); },
            [=](word *w, std::size_t n, Log log) { return Index(w, n, log).get(key); }};
}

Call list(std::size_t room) {
    return {"list", [=](word *w, std::size_t n) { return page_index_list(w, n, Words(room + 1).data(), room); },
            [=](word *w, std::size_t n, Log log) { return Index(w, n, log).list(Words(room + 1).data(), room); }};
}

Call list_block(word index, std::size_t room) {
    return {"list of one block",
            [=](word *w, std::size_t n) {
                word next = 0;
                return page_index_list_block(w, n, index, Words(room + 1).data(), room, &next);
            },
            [=](word *w, std::size_t n, Log log) {
                word next = 0;
                return Index(w, n, log).list_block(index, Words(room + 1).data(), room, next);
            }};
}

Call set(const twin::Job &j, word pages, std::uint32_t allowance) {
    return {"board: set", [=](word *w, std::size_t n) { return month_board_set(w, n, j.year, j.month, j.number, pages, allowance); },
            [=](word *w, std::size_t n, Log log) { return Board(w, n, log).set(j, pages, allowance); }};
}

Call board_remove(const twin::Job &j, std::uint32_t allowance) {
    return {"board: remove", [=](word *w, std::size_t n) { return month_board_remove(w, n, j.year, j.month, j.number, allowance); },
            [=](word *w, std::size_t n, Log log) { return Board(w, n, log).remove(j, allowance); }};
}

Call read(const twin::Job &j) {
    return {"board: read", [=](word *w, std::size_t n) { return month_board_read(w, n, j.year, j.month, j.number); },
            [=](word *w, std::size_t n, Log log) { return Board(w, n, log).read(j); }};
}

Call print(word year) {
    return {"board: print",
            [=](word *w, std::size_t n) { return month_board_print(w, n, year, std::vector<unsigned char>(1 << 16).data(), 1 << 16); },
            [=](word *w, std::size_t n, Log log) { return Board(w, n, log).print(year, std::vector<unsigned char>(1 << 16).data(), 1 << 16); }};
}

// A key whose folded key has `shared` directory bits that are all 1, then some of any kind; in one of two buckets.
word key_with(unsigned shared, Random &r) { return twin::unfolded((r() % 64 << shared | ((word(1) << shared) - 1)) << 4 | r() % 2 << 1); }

// How many stores a call may make: mostly all, else so few that many are cut.
std::uint32_t allowance(Random &r) { return r() % 4 ? all : std::uint32_t(r() % (r() % 4 ? 8 : 400)); }

// An allowance that cuts a split or a merge near its end, among the entries; where there is none, all.
std::uint32_t late(const twin::Answer &whole, Random &r) {
    return whole.stores < 3 ? all : whole.stores - 1 - std::uint32_t(r() % std::min<word>(whole.stores - 1, 24));
}

// A call of the index. `shared` directory bits are the same in most keys, so that one put makes so many splits.
Call any_call(unsigned shared, bool waits, const Words &words, Random &r) {
    if (waits && r() % 2) return mend(allowance(r));
    word key = key_with(r() % 8 ? shared : r() % 4, r), kind = r() % 64;
    Words copy = kind % 4 ? Words() : words;
    twin::Index<> trial(copy.data(), copy.size());
    if (kind < 38) return put(key, r() % 4 ? r() : r() % 2, kind % 4 ? allowance(r) : late(trial.put(key, 0, all), r));
    if (kind < 48) return remove(key, allowance(r));
    if (kind < 54) return merge(key, kind % 4 ? allowance(r) : late(trial.merge(key, all), r));
    if (kind < 57) return mend(allowance(r));
    if (kind < 61) return get(r() % 32 ? key : 0);
    if (kind == 61) return list(r() % 300);
    if (kind == 62) return list_block(r() % 6, r() % 200);
    return format(r() % 2 ? 1 : 12, 1, words.size() < (2 << 12) + 128 ? all : 0);
}

Words junk(std::size_t length, Random &r) {
    Words words(length);
    for (word &x : words) x = r() % 2 ? 0 : r();
    return words;
}

// Random runs of this largest depth, until so many stores were seen. Every other run has damage.
void runs_of_depth(word depth, long stores, std::map<std::string, Count> &counts, Random &r) {
    for (int run = 0; stores > 0; run++) {
        word segments = 1 + r() % std::min<word>(word(1) << depth, 40);
        Pair pair(junk((std::size_t(2) << depth) + 128 * segments + r() % 3, r), counts);
        if (r() % 2) pair.make(format(depth, segments, std::uint32_t(r() % 67)));
        pair.make(format(depth, segments, all));
        const unsigned shared = unsigned(r() % (depth + 1));
        bool waits = false;
        for (int step = 0; step < 600 && pair.stores < stores; step++) {
            if (run % 2 && r() % 64 == 0) pair.damage(1 + r() % ((word(2) << pair.at(0) % 256) - 1), r() % 3 << 32 | r() % segments);
            twin::Answer answer = pair.make(any_call(shared, waits, pair.twins(), r));
            waits = answer.code == twin::cut_off || (waits && answer.code != twin::done);
        }
        if (!pair.same()) watch::stop("the arrays differ behind a run");
        stores -= pair.stores;
    }
}

// Random runs of the board, in years with few numbers, until so many stores were seen.
void runs_of_board(long stores, std::map<std::string, Count> &counts, Random &r) {
    while (stores > 0) {
        Pair pair(junk((2 << 4) + 128 * 16, r), counts);
        pair.make(format(4, 16, all));
        bool waits = false;
        for (int step = 0; step < 600 && pair.stores < stores; step++) {
            twin::Job job = twin::job_with(2026 + r() % 2, 1 + r() % 13, 16 * (r() % 40) + 7);
            word kind = r() % 64;
            twin::Answer answer = pair.make(waits && r() % 2 ? mend(allowance(r)) : kind < 40 ? set(job, r(), allowance(r))
                                                                 : kind < 52 ? board_remove(job, allowance(r))
                                                                 : kind < 63 ? read(job) : print(job.year));
            waits = answer.code == twin::cut_off || (waits && answer.code != twin::done);
        }
        stores -= pair.stores;
    }
}

// The put with the most stores, of twelve splits: whole, and cut so often, mended and made again.
void worst_put(int cuts, std::map<std::string, Count> &counts, Random &r) {
    Words before((std::size_t(2) << 12) + 128 * 13);
    twin::Index<> filled(before.data(), before.size());
    filled.format(12, 13, all);
    for (word key : twin::before_worst) filled.put(key, key, all);
    Pair(before, counts).make(put(twin::worst_key, 1, all));
    for (int cut = 0; cut < cuts; cut++) {
        Pair pair(before, counts);
        pair.make(put(twin::worst_key, 1, std::uint32_t(r() % 9764)));
        pair.make(mend(all));
        pair.make(put(twin::worst_key, 1, all));
    }
}

// An index of the cabinet's size: filled, and then watched.
void cabinet(long stores, std::map<std::string, Count> &counts, Random &r) {
    constexpr word depth = 12, segments = 4032, pages = 100000;
    Words words((std::size_t(2) << depth) + 128 * segments);
    twin::Index<> filled(words.data(), words.size());
    filled.format(depth, segments, all);
    for (word key = 1; key <= pages; key++) filled.put(key, 3 * key, all);
    Pair pair(words, counts);
    while (pair.stores < stores) {
        word key = 1 + r() % (2 * pages), kind = r() % 16;
        std::uint32_t allowance = r() % 8 ? all : std::uint32_t(r() % 200);
        twin::Answer answer = pair.make(kind < 10 ? put(key, r(), allowance) : kind < 14 ? remove(key, allowance) : merge(key, allowance));
        if (answer.code == twin::cut_off || answer.code == twin::unmended) pair.make(mend(all));
    }
    if (!pair.same()) watch::stop("the arrays differ behind a run");
}

void print_counts(const std::map<std::string, Count> &counts, double seconds) {
    Count sum;
    std::printf("%-24s %9s %9s %9s %9s\n", "call", "calls", "stores", "cut", "refused");
    for (const auto &[kind, count] : counts) {
        std::printf("%-24s %9ld %9ld %9ld %9ld\n", kind.c_str(), count.calls, count.stores, count.cut, count.refused);
        sum.calls += count.calls;
        sum.stores += count.stores;
    }
    std::printf("%ld calls, %ld stores, each as due; %.0f s\n", sum.calls, sum.stores, seconds);
}

// Whether every kind of call was there, and cut where it can be.
bool complete(const std::map<std::string, Count> &counts) {
    for (const char *kind : {"format", "put, no split", "put, one split", "put, twelve splits", "remove", "merge", "mend", "get",
                             "list", "list of one block", "board: set", "board: remove", "board: read", "board: print"})
        if (!counts.contains(kind)) return false;
    for (const char *kind : {"format", "put, no split", "put, one split", "remove", "merge", "mend", "board: set", "board: remove"})
        if (counts.at(kind).cut == 0) return false;
    return true;
}

}  // namespace

int main(int count, char **arguments) {
    if (count > 1) faults::fault = arguments[1];
    if (faults::fault == "faults") {
        for (const char *name : faults::all) std::printf("%s\n", name);
        return 0;
    }
    auto began = std::chrono::steady_clock::now();
    watch::install();
    std::map<std::string, Count> counts;
    Random r(20261117);
    for (word depth = 2; depth <= 12; depth++) runs_of_depth(depth, 40000, counts, r);
    runs_of_board(40000, counts, r);
    worst_put(8, counts, r);
    cabinet(150000, counts, r);
    print_counts(counts, std::chrono::duration<double>(std::chrono::steady_clock::now() - began).count());
    if (complete(counts)) return 0;
    std::printf("a kind of call was not there\n");
    return 1;
}
