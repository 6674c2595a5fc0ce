// The twin against the library: random runs of calls on small indexes and boards, every answer, every
// word, every word of a list in its place, and every byte of a print. Then an index of the cabinet's size,
// filled, every page looked up again, listed whole and block by block.
//
//     check [PAGES]     with so many pages at most in that index
#include "../../bindings/c/month_board.h"
#include "twin.hpp"

#include <algorithm>
#include <cstdio>
#include <map>
#include <random>
#include <string>
#include <vector>

namespace {

using twin::word;
using Words = std::vector<word>;

bool same(const page_index_reply &ours, const twin::Answer &theirs) {
    return ours.code == theirs.code && ours.stores == theirs.stores && ours.value == theirs.value;
}

// The word that the list arrays hold where nothing was written.
constexpr word unwritten = 0x1111222233334444;

// A key of bucket 7. The bits above those that the index reads differ, so that folding changes directory bits too.
word sharing(word number) { return twin::unfolded(number % 3 * 65536 + 16 * number + 7); }

// The key of some record, or 0 where there is none.
word held(Words &words, std::mt19937_64 &r) {
    Words list(words.size());
    word records = twin::Index<>(words.data(), words.size()).list(list.data(), list.size()).value;
    return records ? list[r() % records * 2] : 0;
}

// What a listing of one block answers, and what it leaves in the list array and in the place for the next index.
struct BlockListed {
    std::uint32_t code, stores;
    word records, next;
    Words list;
    bool operator==(const BlockListed &) const = default;
};

BlockListed block_by_library(const Words &words, word index, std::size_t room) {
    Words list(room, unwritten);
    word next = unwritten, none;
    page_index_reply got =
        page_index_list_block(words.data(), words.size(), index, room ? list.data() : &none, room, &next);
    return {got.code, got.stores, got.value, next, list};
}

BlockListed block_by_twin(Words &words, word index, std::size_t room) {
    Words list(room, unwritten);
    word next = unwritten;
    twin::Answer got = twin::Index<>(words.data(), words.size()).list_block(index, list.data(), room, next);
    return {got.code, got.stores, got.value, next, list};
}

// A directory index: mostly one at which a wide block can begin, some behind the directory's end, and some that are
// such an index where bits are lost.
word directory_index(const Words &words, std::mt19937_64 &r) {
    word g = words[0] % 256 % 13, size = word(1) << g, shift = r() % (g + 1), aligned = r() % size >> shift << shift;
    const word others[] = {size, size + r() % 4, aligned | word(1) << (12 + r() % 52), ~word(0)};
    return r() % 4 ? aligned : others[r() % 4];
}

// The length of a list array for the block at this index: what it needs, one word less, around 128, or any.
std::size_t room_for_block(Words &words, word index, std::mt19937_64 &r) {
    word needed = 2 * block_by_twin(words, index, 128).records;
    const word rooms[] = {needed, needed ? needed - 1 : 0, 127 + r() % 3, r() % 200};
    return rooms[r() % 4];
}

// The calls of the index.
struct IndexCalls {
    std::map<std::uint32_t, long> merges, blocks;  // how often each code was the answer
    long followed = 0;                             // listed blocks that were not the last

    bool merge_agrees(Words &ours, Words &theirs, word key, std::uint32_t allowance) {
        twin::Answer answer = twin::Index<>(theirs.data(), theirs.size()).merge(key, allowance);
        merges[answer.code]++;
        return same(page_index_merge(ours.data(), ours.size(), key, allowance), answer) && ours == theirs;
    }

    bool list_block_agrees(const Words &ours, Words &theirs, std::mt19937_64 &r) {
        word index = directory_index(theirs, r), room = room_for_block(theirs, index, r);
        BlockListed due = block_by_twin(theirs, index, room);
        blocks[due.code]++;
        followed += due.code == twin::done && due.next != 0;
        return block_by_library(ours, index, room) == due && ours == theirs;
    }

    // One call on both arrays; whether answers, arrays and whole list arrays agree, word for word. Two hundred
    // calls that mostly put are followed by as many that mostly remove, so that segments split and can be merged again.
    bool operator()(Words &ours, Words &theirs, std::mt19937_64 &r, int step) {
        twin::Index<> index(theirs.data(), theirs.size());
        word *w = ours.data();
        std::size_t n = ours.size();
        // Often one of a few values, so that a page gets the value that it has, or 0.
        word key = r() % 3 ? sharing(r() % 90) : r() % 500, value = r() % 4 ? r() : r() % 3, kind = r() % 17;
        std::uint32_t allowance = r() % 4 ? 0xffffffff : std::uint32_t(r() % 100);
        bool emptying = kind >= 8 && kind < 15 && step / 200 % 2;
        if (emptying) key = held(theirs, r);
        switch (kind) {
            case 0: return same(page_index_mend(w, n, allowance), index.mend(allowance)) && ours == theirs;
            case 1: {
                Words a(r() % 600, unwritten), b = a;
                page_index_reply got = page_index_list(w, n, a.data() ? a.data() : w, a.size());
                return same(got, index.list(b.data(), b.size())) && a == b;
            }
            case 2:
            case 3: return same(page_index_get(w, n, key), index.get(key));
            case 6:
            case 7: return merge_agrees(ours, theirs, key, r() % 2 ? allowance : r() % 20);
            case 16: return list_block_agrees(ours, theirs, r);
        }
        bool removes = emptying || kind == 4 || kind == 5;
        return (removes ? same(page_index_remove(w, n, key, allowance), index.remove(key, allowance))
                        : same(page_index_put(w, n, key, value, allowance), index.put(key, value, allowance))) &&
               ours == theirs;
    }

    // Whether a merge was done, was cut off, and was refused for each of its own reasons.
    bool merges_of_all_kinds() {
        std::printf("merges: done %ld, cut off %ld, no buddy %ld, both live %ld\n", merges[twin::done],
                    merges[twin::cut_off], merges[twin::no_buddy], merges[twin::both_live]);
        return merges[twin::done] && merges[twin::cut_off] && merges[twin::no_buddy] && merges[twin::both_live];
    }

    // Whether a block was listed, the last and another, and refused with each code that the call has.
    bool blocks_of_all_kinds() {
        long last = blocks[twin::done] - followed;
        std::printf("blocks listed: with another behind them %ld, the last %ld, short list %ld, no leader %ld\n", followed,
                    last, blocks[twin::short_list], blocks[twin::no_leader]);
        return followed && last && blocks[twin::no_store] && blocks[twin::broken] && blocks[twin::unmended] &&
               blocks[twin::short_list] && blocks[twin::no_leader];
    }
};

// Mostly jobs that share a window. Years, months and numbers at the ends of their ranges and behind them, and
// some that give such a job's key where bits are lost or the number runs into the month.
twin::Job job(std::mt19937_64 &r) {
    constexpr word years[] = {1, 2026, 2026, 2027, 9999, 0, 10000, (word(1) << 48) + 2026};
    constexpr word months[] = {0, 13, (word(1) << 52) + 1, ~word(0)};
    word month = r() % 16 ? 1 + r() % 12 : months[r() % 4], year = years[r() % (r() % 4 ? 5 : 8)];
    word number = twin::job_with(year, month, 7 + 16 * (r() % 60)).number, next = twin::job_with(year, month + 1, 7).number;
    const word numbers[] = {0, 9, 10, 4095, 4096, 4096 + next, (word(1) << 32) + number, ~word(0)};
    return {year, month, r() % 8 ? number : numbers[r() % 8]};
}

// Prints into buffers of just the bytes needed, one byte less and some more.
bool prints_agree(const Words &ours, Words &theirs, word year) {
    const twin::Board<> board(theirs.data(), theirs.size());
    std::vector<unsigned char> most(1 << 16, 0xe7);
    word exact = board.print(year, most.data(), most.size()).value;
    for (std::size_t room : {exact, exact ? exact - 1 : 0, exact + 9}) {
        std::vector<unsigned char> a(room + 1, 0xe7), b = a;
        page_index_reply got = month_board_print(ours.data(), ours.size(), year, a.data(), room);
        if (!same(got, board.print(year, b.data(), room)) || a != b || ours != theirs) return false;
    }
    return true;
}

// One call of the board on both arrays, or a mend; one in 512 is a print.
bool board_agrees(Words &ours, Words &theirs, std::mt19937_64 &r, int) {
    twin::Board<> board(theirs.data(), theirs.size());
    word *w = ours.data();
    std::size_t n = ours.size();
    twin::Job j = job(r);
    word pages = r() >> r() % 64, kind = r() % 512;
    std::uint32_t allowance = r() % 4 ? 0xffffffff : std::uint32_t(r() % 100);
    if (kind == 0) return prints_agree(ours, theirs, j.year);
    bool answered = kind < 40    ? same(page_index_mend(w, n, allowance), twin::Index<>(theirs.data(), n).mend(allowance))
                    : kind < 160 ? same(month_board_read(w, n, j.year, j.month, j.number), board.read(j))
                    : kind < 280 ? same(month_board_remove(w, n, j.year, j.month, j.number, allowance), board.remove(j, allowance))
                                 : same(month_board_set(w, n, j.year, j.month, j.number, pages, allowance), board.set(j, pages, allowance));
    return answered && ours == theirs;
}

// Runs of 800 calls from a format on, every second one with damage. Answers how many calls were made, or
// 0 where one differs.
template <class Calls>
long calls_made(const char *name, int runs, std::uint64_t seed, Calls &call_agrees) {
    std::mt19937_64 r(seed);
    long calls = 0;
    for (int run = 0; run < runs; run++) {
        word d = 2 + r() % 6, s = 1 + r() % (1u << std::min<word>(d, 4));
        Words ours((2u << d) + 128 * s), theirs;
        for (word &x : ours) x = r() % 2 ? 0 : r();
        theirs = ours;
        page_index_format(ours.data(), ours.size(), d, s, 0xffffffff);
        twin::Index<>(theirs.data(), theirs.size()).format(d, s, 0xffffffff);
        for (int step = 0; step < 800; step++, calls++) {
            if (step % 50 == 49 && run % 2) ours[r() % 64 % ours.size()] ^= word(1) << (r() % 40), theirs = ours;
            if (call_agrees(ours, theirs, r, step)) continue;
            std::printf("%s, run %d, step %d: the twin differs\n", name, run, step);
            return 0;
        }
    }
    std::printf("%s, twin and library: %ld calls, no difference\n", name, calls);
    return calls;
}

// The blocks from index 0 on, each with 128 words, joined; nothing where the library and the twin differ.
Words joined_blocks(Words &words, long &blocks) {
    Words joined;
    word index = 0;
    do {
        BlockListed block = block_by_library(words, index, 128);
        if (block.code != twin::done || block != block_by_twin(words, index, 128)) return {};
        joined.insert(joined.end(), block.list.begin(), block.list.begin() + long(2 * block.records));
        index = block.next;
        blocks++;
    } while (index != 0);
    return joined;
}

// What an index of the cabinet's size takes of running numbers: the pages, the stores of all puts, and the code of the
// first refusal. Computed by a separate script, written from the documents.
struct Filled {
    word pages = 0, stores = 0;
    std::uint32_t code = PAGE_INDEX_DONE;
    bool operator==(const Filled &) const = default;
};

constexpr Filled cabinet_filled{162815, 728870, PAGE_INDEX_NO_SEGMENT};

// The place of a page, as the fill keeps it.
word place_of(word page) { return 3 * page; }

// Puts the pages 1, 2, 3 and so on to the first refusal, or `most` of them.
Filled filled(Words &words, word most) {
    Filled f;
    while (f.pages < most && f.code == PAGE_INDEX_DONE) {
        page_index_reply got =
            page_index_put(words.data(), words.size(), f.pages + 1, place_of(f.pages + 1), 0xffffffff);
        f.code = got.code;
        f.stores += got.stores;
        f.pages += got.code == PAGE_INDEX_DONE;
    }
    return f;
}

// How many of the pages 1 to `pages` a lookup finds with their places.
word found(const Words &words, word pages) {
    word count = 0;
    for (word page = 1; page <= pages; page++) {
        page_index_reply got = page_index_get(words.data(), words.size(), page);
        count += got.code == PAGE_INDEX_DONE && got.value == place_of(page);
    }
    return count;
}

// An index of the cabinet's size, filled with running numbers to the first refusal or to `most` pages: whether it takes
// what it must, every page is found again, and its blocks, joined, are the full listing.
bool cabinet_agrees(word most) {
    constexpr word depth = 12, segments = 4032;
    Words words((2u << depth) + 128 * segments);
    page_index_format(words.data(), words.size(), depth, segments, 0xffffffff);
    Filled f = filled(words, most);
    bool known = f.pages == most || f == cabinet_filled;
    Words before = words, whole(2 * f.pages);
    word again = found(words, f.pages);
    page_index_reply got = page_index_list(words.data(), words.size(), whole.data(), whole.size());
    long blocks = 0;
    bool agrees = joined_blocks(words, blocks) == whole && got.value == f.pages && words == before;
    std::printf("an index of %zu words: %lu pages in %lu stores, then %u%s, %lu found again\n", words.size(), f.pages,
                f.stores, f.code, known ? "" : " (NOT AS KNOWN)", again);
    std::printf("listed in %ld blocks: joined %s\n", blocks, agrees ? "the full listing" : "ANOTHER LISTING");
    return known && again == f.pages && agrees;
}

}  // namespace

int main(int count, char **arguments) {
    IndexCalls calls;
    bool index = calls_made("index", 400, 20261115, calls) > 0;
    bool merges = calls.merges_of_all_kinds(), blocks = calls.blocks_of_all_kinds();
    bool board = calls_made("board", 200, 20261116, board_agrees) > 0;
    bool cabinet = cabinet_agrees(count > 1 ? std::stoull(arguments[1]) : ~word(0));
    return cabinet && index && merges && blocks && board ? 0 : 1;
}
