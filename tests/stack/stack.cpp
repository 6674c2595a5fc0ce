// The stack that each call uses, against the figure of bindings/c/page_index.h and month_board.h. A
// call runs on a stack of its own that was painted; the lowest byte that has changed is the deepest one
// used. Each runs twice, with two paints, so that a byte that is stored as it was painted is seen too.
#include "../../bindings/c/month_board.h"
#include "../twin/keys.hpp"

#include <ucontext.h>

#include <algorithm>
#include <cstdint>
#include <cstdio>
#include <functional>
#include <vector>

namespace {

using twin::word;
using Words = std::vector<word>;

constexpr std::size_t limit = 8192;
constexpr std::uint32_t all = 0xffffffff;

alignas(16) unsigned char region[1 << 18];
ucontext_t outside, inside;
unsigned char *top;
std::function<page_index_reply()> call;
page_index_reply reply;

void enter() {
    top = static_cast<unsigned char *>(__builtin_frame_address(0));
    reply = call();
}

// Makes the call, and answers the bytes from the caller's frame down to the deepest one used.
std::size_t used(unsigned char paint) {
    std::fill(region, region + sizeof region, paint);
    getcontext(&inside);
    inside.uc_stack.ss_sp = region;
    inside.uc_stack.ss_size = sizeof region;
    inside.uc_link = &outside;
    makecontext(&inside, enter, 0);
    swapcontext(&outside, &inside);
    return top - std::find_if(region, top, [=](unsigned char byte) { return byte != paint; });
}

// Whether the call, made on a copy of these words, is done with so many stores and stays below the limit.
bool passes(const char *name, const Words &before, std::uint32_t stores,
            const std::function<page_index_reply(word *, std::size_t)> &made) {
    std::size_t most = 0;
    bool done = true;
    for (unsigned char paint : {0xa5, 0x5a}) {
        Words words = before;
        call = [&] { return made(words.data(), words.size()); };
        most = std::max(most, used(paint));
        done = done && reply.code == PAGE_INDEX_DONE && reply.stores == stores;
    }
    std::printf("%-27s stores %4u, bytes of stack %5zu%s%s\n", name, stores, most, most < limit ? "" : ": too many",
                done ? "" : ": ANOTHER ANSWER");
    return done && most < limit;
}

Words formatted(std::size_t depth, std::size_t segments) {
    Words words((std::size_t{2} << depth) + 128 * segments);
    page_index_format(words.data(), words.size(), depth, segments, all);
    return words;
}

// One segment, full of keys whose first twelve directory bits are 1.
Words before_most_stores() {
    Words words = formatted(12, 13);
    for (word key : twin::before_worst) page_index_put(words.data(), words.size(), key, 1, all);
    return words;
}

// The same keys behind the put with the most stores, whose key is removed, and all merges but the last: the right
// half of a directory of depth 12 has them all, the left half none.
Words before_widest_merge() {
    Words words = before_most_stores();
    page_index_put(words.data(), words.size(), twin::worst_key, 1, all);
    page_index_remove(words.data(), words.size(), twin::worst_key, all);
    for (int l = 12; l > 1; l--) page_index_merge(words.data(), words.size(), twin::worst_key, all);
    return words;
}

// Running numbers from 1 on, up to the first refusal.
Words full(word &pages) {
    Words words = formatted(8, 256);
    while (page_index_put(words.data(), words.size(), pages + 1, 1, all).code == PAGE_INDEX_DONE) pages++;
    return words;
}

// Jobs of a year from January on, with pages of twenty digits, up to the first refusal.
Words full_board(word &jobs) {
    Words words = formatted(8, 256);
    auto set = [&] { return month_board_set(words.data(), words.size(), 9999, 1 + jobs / 4096, jobs % 4096, ~jobs, all); };
    while (set().code == PAGE_INDEX_DONE) jobs++;
    return words;
}

// A directory of depth 12 that is one block, of which only the leader is right.
Words to_mend() {
    Words words = formatted(12, 13);
    words[0] += 12;
    for (std::size_t i = 4097; i < 8192; i++) words[i] = 1;
    return words;
}

bool board_passes() {
    word jobs = 0;
    Words board = full_board(jobs);
    word month = 1 + (jobs - 1) / 4096, number = (jobs - 1) % 4096;
    constexpr twin::Job worst = twin::job_of(twin::worst_key);
    std::vector<unsigned char> lines(32 * jobs);
    bool sound = passes("board: set of a known job", board, 1,
                        [=](word *w, std::size_t n) { return month_board_set(w, n, 9999, month, number, 1, all); });
    sound &= passes("board: set, the most stores", before_most_stores(), 9764,
                    [=](word *w, std::size_t n) { return month_board_set(w, n, worst.year, worst.month, worst.number, 1, all); });
    sound &= passes("board: read", board, 0, [=](word *w, std::size_t n) { return month_board_read(w, n, 9999, month, number); });
    sound &= passes("board: remove", board, 1,
                    [=](word *w, std::size_t n) { return month_board_remove(w, n, 9999, month, number, all); });
    sound &= passes("board: print of a full one", board, 0,
                    [&](word *w, std::size_t n) { return month_board_print(w, n, 9999, lines.data(), lines.size()); });
    return sound;
}

page_index_reply greedy(word *words, std::size_t len) {
    volatile unsigned char own[limit];
    own[0] = 1;
    return page_index_get(words, len, own[0]);
}

}  // namespace

int main() {
    word pages = 0;
    Words index = full(pages), list(2 * pages);
    bool sound = passes("format", to_mend(), 67, [](word *w, std::size_t n) { return page_index_format(w, n, 12, 13, all); });
    sound &= passes("get", index, 0, [=](word *w, std::size_t n) { return page_index_get(w, n, pages); });
    sound &= passes("put of a known page", index, 1, [=](word *w, std::size_t n) { return page_index_put(w, n, pages, 2, all); });
    sound &= passes("put with the most stores", before_most_stores(), 9764,
                    [](word *w, std::size_t n) { return page_index_put(w, n, twin::worst_key, 1, all); });
    sound &= passes("remove", index, 1, [=](word *w, std::size_t n) { return page_index_remove(w, n, pages, all); });
    sound &= passes("mend", to_mend(), 4095, [](word *w, std::size_t n) { return page_index_mend(w, n, all); });
    sound &= passes("merge with the most stores", before_widest_merge(), 4224,
                    [](word *w, std::size_t n) { return page_index_merge(w, n, twin::worst_key, all); });
    sound &= passes("list of a full index", index, 0,
                    [&](word *w, std::size_t n) { return page_index_list(w, n, list.data(), list.size()); });
    sound &= passes("list of one block", index, 0, [](word *w, std::size_t n) {
        static word records[128], next;
        return page_index_list_block(w, n, 0, records, 128, &next);
    });
    sound &= board_passes();
    // The test must see a call that uses more.
    return !passes("get with 8,192 of its own", index, 0, greedy) && sound ? 0 : 1;
}
