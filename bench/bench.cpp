// Times side by side, by Google Benchmark: every peer does the same calls on the same keys.
#include "peers.hpp"

#include <benchmark/benchmark.h>

namespace {

// The pages of a cabinet in use, and those that it takes before its first refusal (bench/counts).
constexpr word in_use = 70000;
// The calls between two looks at the clock, where it is stopped for others.
constexpr word batch = 2048;
constexpr word until_refusal(bool running) { return running ? 162815 : 81648; }

word place(word page) { return 3 * page; }

// Running image numbers, or the same number of random keys.
Words keys(bool running, word count) {
    Words found(count);
    std::mt19937_64 random(7);
    for (word i = 0; i < count; i++) found[i] = running ? i + 1 : random_key(random);
    return found;
}

// Some of the keys, in random order.
Words sample(const Words &from) {
    std::mt19937_64 random(11);
    Words found(1 << 14);
    for (word &key : found) key = from[random() % from.size()];
    return found;
}

template <class Peer>
void fill(Peer &peer, const Words &pages) {
    for (word key : pages) peer.put(key, place(key));
}

// One peer, filled with the pages, kept from one benchmark to the next.
template <class Peer, bool running>
Peer &filled() {
    static std::unique_ptr<Peer> peer;
    if (!peer) {
        peer = std::make_unique<Peer>();
        fill(*peer, keys(running, in_use));
    }
    return *peer;
}

template <class Peer, bool running>
void get_hit(benchmark::State &state) {
    Peer &peer = filled<Peer, running>();
    Words some = sample(keys(running, in_use));
    std::size_t i = 0;
    for (auto _ : state) benchmark::DoNotOptimize(peer.get(some[i++ % some.size()]));
}

template <class Peer, bool running>
void get_miss(benchmark::State &state) {
    Peer &peer = filled<Peer, running>();
    Words some = sample(keys(running, in_use));
    std::size_t i = 0;
    for (auto _ : state) benchmark::DoNotOptimize(peer.get(some[i++ % some.size()] + (word(1) << 62)));
}

template <class Peer, bool running>
void overwrite(benchmark::State &state) {
    Peer &peer = filled<Peer, running>();
    Words some = sample(keys(running, in_use));
    std::size_t i = 0;
    for (auto _ : state) {
        word key = some[i++ % some.size()];
        benchmark::DoNotOptimize(peer.put(key, place(key)));
    }
}

// Removes, each of a page that is there; the pages are put back beside the clock.
template <class Peer, bool running>
void remove(benchmark::State &state) {
    Peer &peer = filled<Peer, running>();
    Words pages = keys(running, batch);
    while (state.KeepRunningBatch(batch)) {
        for (word key : pages) peer.remove(key);
        state.PauseTiming();
        fill(peer, pages);
        state.ResumeTiming();
    }
}

// Puts of pages that are not there, into slots that are free; they are removed beside the clock.
template <class Peer, bool running>
void put_new(benchmark::State &state) {
    Peer &peer = filled<Peer, running>();
    Words pages = keys(running, batch);
    while (state.KeepRunningBatch(batch)) {
        state.PauseTiming();
        for (word key : pages) peer.remove(key);
        state.ResumeTiming();
        fill(peer, pages);
    }
}

// A fill from nothing to ours' first refusal; the peers take as many pages.
template <class Peer, bool running>
void fill_all(benchmark::State &state) {
    Words pages = keys(running, until_refusal(running));
    for (auto _ : state) {
        Peer peer;
        word done = 0;
        for (word key : pages) {
            if (peer.put(key, place(key)) != 0) break;
            done++;
        }
        state.counters["pages"] = double(done);
    }
}

template <class Peer>
void list(benchmark::State &state) {
    Peer &peer = filled<Peer, true>();
    Words out(2 * in_use);
    for (auto _ : state) benchmark::DoNotOptimize(peer.list(out));
}

// One block after the other, each with 128 words; behind the last comes the first again.
template <class Peer>
void list_block(benchmark::State &state) {
    Peer &peer = filled<Peer, true>();
    Words out(128);
    word index = 0, records = 0;
    do records += peer.list_block(index, out);
    while (index != 0);
    must(records == in_use, "listing block by block");
    for (auto _ : state) benchmark::DoNotOptimize(peer.list_block(index, out));
}

template <class Peer>
void mend(benchmark::State &state) {
    Peer &peer = filled<Peer, true>();
    for (auto _ : state) peer.mend();
}

// The year that is printed, and the keys of its jobs in the order of the print.
constexpr word year = 2026, first_job = year * 65536 + 4096, behind_jobs = year * 65536 + 13 * 4096;

// A board with every job of the year, each with pages of five digits, kept from one benchmark to the next.
template <class Peer>
Peer &full_year() {
    static std::unique_ptr<Peer> peer;
    if (!peer) {
        peer = std::make_unique<Peer>();
        for (word key = first_job; key < behind_jobs; key++) must(peer->put(key, 10000 + key * 7919 % 90000) == 0, "set of a job");
    }
    return *peer;
}

template <class Peer>
void print_year(benchmark::State &state) {
    Peer &peer = full_year<Peer>();
    Bytes out(1 << 20);
    for (auto _ : state) benchmark::DoNotOptimize(peer.print(year, out));
    state.counters["bytes"] = double(peer.print(year, out));
}

// The gets of such a print: every job twice.
void gets_of_year(benchmark::State &state) {
    const Ours &ours = full_year<Ours>();
    for (auto _ : state)
        for (int pass = 0; pass < 2; pass++)
            for (word key = first_job; key < behind_jobs; key++)
                benchmark::DoNotOptimize(page_index_get(ours.words.data(), ours.words.size(), key));
}

// An index whose directory has the depth asked for, with running numbers.
template <class Peer>
Peer at_depth(word depth, word &pages) {
    Peer peer;
    for (pages = 0; (peer.words[0] & 255) < depth; pages++) peer.put(pages + 1, place(pages + 1));
    return peer;
}

template <class Peer>
void get_at_depth(benchmark::State &state) {
    word pages = 0;
    Peer peer = at_depth<Peer>(word(state.range(0)), pages);
    pages = std::max<word>(pages, 1);
    peer.put(1, place(1));
    std::size_t i = 0;
    for (auto _ : state) benchmark::DoNotOptimize(peer.get(i++ % pages + 1));
}

template <class Peer>
void put_at_depth(benchmark::State &state) {
    word pages = 0;
    Peer peer = at_depth<Peer>(word(state.range(0)), pages);
    pages = std::max<word>(pages, 1);
    std::size_t i = 0;
    for (auto _ : state) {
        word key = i++ % pages + 1;
        benchmark::DoNotOptimize(peer.put(key, place(key)));
    }
}

// A fill with the first pages alone, for how its time grows.
template <class Peer>
void fill_pages(benchmark::State &state) {
    Words pages = keys(true, word(state.range(0)));
    for (auto _ : state) {
        Peer peer;
        fill(peer, pages);
    }
}

// One call, each time on the words that stand there now.
template <class Peer, class Call>
void again(benchmark::State &state, Peer &peer, Call call) {
    Words before = peer.words;
    for (auto _ : state) {
        state.PauseTiming();
        peer.words = before;
        state.ResumeTiming();
        benchmark::DoNotOptimize(call());
    }
    state.counters["stores"] = peer.stores;
}

// Fills an index of the cabinet's size to the first put behind the pages in use that splits; answers its page, with the
// words as they are before it.
template <class Peer>
word fill_to_split(Peer &peer) {
    word page = 1;
    for (; page < in_use; page++) peer.put(page, place(page));
    for (;; page++) {
        Words before = peer.words;
        peer.put(page, place(page));
        if (peer.stores <= 2) continue;
        peer.words = before;
        return page;
    }
}

// A put that splits, on an index of the cabinet's size in which every window is nearly full.
template <class Peer>
void put_with_split(benchmark::State &state) {
    Peer peer;
    word page = fill_to_split(peer);
    again(state, peer, [&] { return peer.put(page, place(page)); });
}

// The merge of that split's two blocks, once the page is removed.
template <class Peer>
void merge(benchmark::State &state) {
    Peer peer;
    word page = fill_to_split(peer);
    peer.put(page, place(page));
    peer.remove(page);
    again(state, peer, [&] { return peer.merge(page); });
    must(peer.stores > 2, "merge");
}

// The put with the most stores: D = 12, S = 13.
template <class Peer>
void worst_put(benchmark::State &state) {
    Peer peer(12, 13);
    for (word key : twin::before_worst) peer.put(key, 1);
    again(state, peer, [&] { return peer.put(twin::worst_key, 1); });
}

// The merge with the most stores: behind that put and the remove of its key, the last of twelve merges.
template <class Peer>
void worst_merge(benchmark::State &state) {
    Peer peer(12, 13);
    for (word key : twin::before_worst) peer.put(key, 1);
    peer.put(twin::worst_key, 1);
    peer.remove(twin::worst_key);
    for (int depth = 12; depth > 1; depth--) must(peer.merge(twin::worst_key) == 0, "merge");
    again(state, peer, [&] { return peer.merge(twin::worst_key); });
    must(peer.stores == 4224, "the merge with the most stores");
}

// The put at which the old table is copied, with as many pages as half a cabinet has.
void linear_copy(benchmark::State &state) {
    Linear full;
    word page = 1;
    for (; page < in_use || 2 * page <= full.capacity(); page++) full.put(page, page);
    for (auto _ : state) {
        state.PauseTiming();
        Linear copy = full;
        state.ResumeTiming();
        benchmark::DoNotOptimize(copy.put(page, 1));
    }
}

template <class Peer>
benchmark::internal::Benchmark *add(const char *what, void (*run)(benchmark::State &)) {
    return benchmark::RegisterBenchmark((std::string(what) + "/" + Peer::name).c_str(), run);
}

template <class Peer>
void add_common() {
    add<Peer>("get hit, running", get_hit<Peer, true>);
    add<Peer>("get hit, random", get_hit<Peer, false>);
    add<Peer>("get miss, running", get_miss<Peer, true>);
    add<Peer>("overwrite, running", overwrite<Peer, true>);
    add<Peer>("overwrite, random", overwrite<Peer, false>);
    add<Peer>("put of a new page, running", put_new<Peer, true>);
    add<Peer>("put of a new page, random", put_new<Peer, false>);
    add<Peer>("remove, running", remove<Peer, true>);
    add<Peer>("remove, random", remove<Peer, false>);
    add<Peer>("fill, running", fill_all<Peer, true>)->Iterations(1)->Unit(benchmark::kMillisecond);
    add<Peer>("fill, random", fill_all<Peer, false>)->Iterations(1)->Unit(benchmark::kMillisecond);
}

template <class Peer>
void add_scheme() {
    add<Peer>("list", list<Peer>);
    add<Peer>("list of one block", list_block<Peer>);
    add<Peer>("mend", mend<Peer>);
    add<Peer>("put with a split", put_with_split<Peer>);
    add<Peer>("worst put", worst_put<Peer>);
    add<Peer>("merge", merge<Peer>);
    add<Peer>("worst merge", worst_merge<Peer>);
    add<Peer>("print of a full year", print_year<Peer>);
    for (int depth = 0; depth <= 12; depth++) {
        add<Peer>("get at depth", get_at_depth<Peer>)->Arg(depth);
        add<Peer>("put at depth", put_at_depth<Peer>)->Arg(depth);
    }
    for (int pages = 40000; pages <= 160000; pages += 40000)
        add<Peer>("fill pages", fill_pages<Peer>)->Arg(pages)->Iterations(1)->Unit(benchmark::kMillisecond);
}

}  // namespace

int main(int count, char **arguments) {
    benchmark::Initialize(&count, arguments);
    add_common<Ours>();
    add_common<Twin>();
    add_common<Abseil>();
    add_common<Standard>();
    add_common<Linear>();
    add_common<Lmdb>();
    add_common<Tkrzw>();
    add_common<Sqlite>();
    add_scheme<Ours>();
    add_scheme<Twin>();
    benchmark::RegisterBenchmark("worst put/linear", linear_copy);
    benchmark::RegisterBenchmark("gets of a full year/ours", gets_of_year);
    benchmark::RunSpecifiedBenchmarks();
    return 0;
}
