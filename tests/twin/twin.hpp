// The page index and the month board written by hand in C++: the same scheme, the same stores in the
// same order, no proofs. The tests compare with it and put faults into it; the benchmark races it.
#pragma once
#include "keys.hpp"

#include <algorithm>
#include <bit>
#include <cstddef>
#include <cstdint>

namespace twin {

enum Code : std::uint32_t {
    done = 0,
    no_store = 1,
    no_key = 2,
    broken = 3,
    unmended = 4,
    too_deep = 5,
    no_segment = 6,
    cut_off = 7,
    bad_shape = 8,
    too_short = 9,
    short_list = 10,
    bad_year = 11,
    bad_month = 12,
    bad_number = 13,
    no_buddy = 14,
    both_live = 15,
    no_leader = 16,
    absent = 255,
};

struct Answer {
    std::uint32_t code;
    std::uint32_t stores;
    word value;
};

// Faults that a test can put in: key before value; in a split, entries from left to right, records cleared in the
// old segment before the entries name the new one, and the last entry stored before the records are copied; in a
// merge, entries from right to left.
enum class Fault { none, key_first, entries_left_to_right, moved_records_cleared, entry_before_records, merged_right_to_left };

// What a key's bucket and directory bits are taken from: its folded key (document 02, wish 4), or the key as
// it stands (document 01), which bench/steps compares with it.
enum class Numbering { folded, as_it_stands };

constexpr word mark = 0x50414746;
constexpr unsigned segment_words = 128;
constexpr unsigned slots = 64;

// A store log that keeps nothing.
struct NoLog {
    void store(std::size_t, word) {}
};

template <class Log = NoLog, Fault fault = Fault::none, Numbering numbering = Numbering::folded>
class Index {
  public:
    Index(word *words, std::size_t length, Log log = Log()) : w(words), n(length), log(log) {}

    Answer format(word d, word s, std::uint32_t allowance) {
        if (d < 2 || d > 12 || s < 1 || s > (word(1) << d)) return refuse(bad_shape);
        if (n < (std::size_t(2) << d) + segment_words * s) return refuse(too_short);
        begin(allowance);
        store(0, 0);
        store(1, 0);
        std::size_t base = std::size_t(2) << d;
        for (unsigned j = 0; j < slots; j++) store(base + 2 * j, 0);
        store(0, d << 8 | s << 16 | mark << 32);
        return end(done);
    }

    Answer get(word key) const {
        if (!valid()) return refuse(no_store);
        if (key == 0) return refuse(no_key);
        word folded_key = fold(key), e = w[(std::size_t(1) << g) + route(folded_key, g)];
        if (e >> 32 > g || std::uint32_t(e) >= s) return refuse(broken);
        const word *at = find(segment(std::uint32_t(e)), key, folded_key);
        return at == nullptr ? refuse(absent) : Answer{done, 0, at[1]};
    }

    Answer put(word key, word value, std::uint32_t allowance) {
        begin(allowance);
        const word folded_key = fold(key);
        for (;;) {
            if (std::uint32_t no = check(key)) return end(no);
            std::size_t i = route(folded_key, g);
            word e = w[(std::size_t(1) << g) + i];
            unsigned l = unsigned(e >> 32);
            word *base = segment(std::uint32_t(e));
            if (word *at = find(base, key, folded_key)) {
                store(at + 1 - w, value);
                return end(done);
            }
            if (word *at = slot_for_new(base, folded_key, l, i >> (g - l))) {
                store_record(at - w, key, value);
                return end(done);
            }
            if (l == d) return end(too_deep);
            std::uint32_t fresh = free_segment();
            if (fresh == s) return end(no_segment);
            split(i, std::uint32_t(e), l, fresh);
            if (due > allowance) return end(cut_off);
        }
    }

    Answer remove(word key, std::uint32_t allowance) {
        begin(allowance);
        if (std::uint32_t no = check(key)) return refuse(no);
        word folded_key = fold(key), e = w[(std::size_t(1) << g) + route(folded_key, g)];
        word *at = find(segment(std::uint32_t(e)), key, folded_key);
        if (at == nullptr) return refuse(absent);
        store(at - w, 0);
        return end(done);
    }

    // Joins the key's block with its buddy (document 02, wish 6).
    Answer merge(word key, std::uint32_t allowance) {
        begin(allowance);
        if (std::uint32_t no = check(key)) return refuse(no);
        const word *entries = w + (std::size_t(1) << g);
        std::size_t i = route(fold(key), g);
        unsigned l = unsigned(entries[i] >> 32);
        if (l == 0) return refuse(no_buddy);
        std::size_t half = std::size_t(1) << (g - l), start = i & ~(2 * half - 1);
        // In a consistent directory one of these two is the key's own entry.
        word left = entries[start], right = entries[start + half];
        if (left >> 32 != right >> 32) return refuse(no_buddy);
        word *a = segment(std::uint32_t(left)), *b = segment(std::uint32_t(right));
        std::size_t bits = start >> (g - l);
        word left_live = live_slots(a, l, bits), right_live = live_slots(b, l, bits + 1);
        if (left_live & right_live) return refuse(both_live);
        join_segments(a, b, left_live, right_live);
        join_entries((std::size_t(1) << g) + start, 2 * half, std::uint32_t(left) | word(l - 1) << 32);
        return end(done);
    }

    Answer mend(std::uint32_t allowance) {
        begin(allowance);
        if (!valid()) return refuse(no_store);
        if (scan() == broken) return refuse(broken);
        word *entries = w + (std::size_t(1) << g);
        std::size_t count = std::size_t(1) << g;
        for (std::size_t i = 0; i < count;) {
            std::size_t width = std::size_t(1) << (g - unsigned(entries[i] >> 32));
            for (std::size_t j = i + 1; j < i + width; j++)
                if (entries[j] != entries[i]) store(count + j, entries[i]);
            i += width;
        }
        return end(done);
    }

    // Every live record, block by block from the left of the directory and by rising slot number within a
    // segment, as document 02 orders a list (wish 3).
    Answer list(word *out, std::size_t room) const {
        if (!valid()) return refuse(no_store);
        if (std::uint32_t no = scan()) return refuse(no);
        std::size_t count = std::size_t(1) << g, records = 0;
        for (std::size_t i = 0; i < count; i += width(i)) records += std::popcount(live_in_block(i));
        if (room < 2 * records) return refuse(short_list);
        for (std::size_t i = 0; i < count; i += width(i)) out = write_block(i, live_in_block(i), out);
        return Answer{done, 0, records};
    }

    // The same of the one block that this index leads (document 02, wish 7). Where it is done, `next` becomes the next
    // block's index, or 0 where this was the last.
    Answer list_block(word index, word *out, std::size_t room, word &next) const {
        if (!valid()) return refuse(no_store);
        if (std::uint32_t no = scan()) return refuse(no);
        std::size_t count = std::size_t(1) << g;
        // In a consistent directory every entry tells where its block begins.
        if (index >= count || index & (width(index) - 1)) return refuse(no_leader);
        word live = live_in_block(index);
        std::size_t records = std::popcount(live);
        if (room < 2 * records) return refuse(short_list);
        write_block(index, live, out);
        next = (index + width(index)) & (count - 1);
        return Answer{done, 0, records};
    }

  private:
    word *w;
    std::size_t n;
    [[no_unique_address]] Log log;
    mutable unsigned g = 0, d = 0;
    mutable std::uint32_t s = 0;
    std::uint64_t due = 0;
    std::uint32_t allowance = 0;

    static Answer refuse(std::uint32_t code) { return Answer{code, 0, 0}; }

    void begin(std::uint32_t stores) {
        due = 0;
        allowance = stores;
    }

    Answer end(std::uint32_t code) const {
        if (due > allowance) return Answer{cut_off, allowance, 0};
        return Answer{code, std::uint32_t(due), 0};
    }

    void store(std::size_t i, word value) {
        if (due++ < allowance) {
            log.store(i, value);
            w[i] = value;
        }
    }

    void store_record(std::size_t at, word key, word value) {
        if constexpr (fault == Fault::key_first) {
            store(at, key);
            store(at + 1, value);
        } else {
            store(at + 1, value);
            store(at, key);
        }
    }

    bool valid() const {
        if (n == 0) return false;
        g = w[0] & 255;
        d = w[0] >> 8 & 255;
        s = w[0] >> 16 & 65535;
        return w[0] >> 32 == mark && d - 2 <= 10 && g <= d && s - 1 < (1u << d) &&
               n >= (std::size_t(2) << d) + std::size_t(segment_words) * s;
    }

    word *segment(std::uint32_t number) const {
        return w + (std::size_t(2) << d) + std::size_t(segment_words) * number;
    }

    // The folded key, by the index's numbering.
    static word fold(word key) { return numbering == Numbering::folded ? folded(key) : key; }

    // The first `count` directory bits of a key, the first one heaviest: 16 bits of its folded key turned round.
    static std::size_t route(word folded_key, unsigned count) {
        std::uint32_t r = folded_key >> 4 & 0xffff;
        r = (r & 0x5555) << 1 | (r >> 1 & 0x5555);
        r = (r & 0x3333) << 2 | (r >> 2 & 0x3333);
        r = (r & 0x0f0f) << 4 | (r >> 4 & 0x0f0f);
        r = (r & 0x00ff) << 8 | r >> 8;
        return r >> (16 - count);
    }

    static word *find(word *base, word key, word folded_key) {
        for (unsigned b = 0; b < 4; b++) {
            word *bucket = base + (folded_key + b) % 16 * 8;
            for (unsigned j = 0; j < 8; j += 2)
                if (bucket[j] == key) return bucket + j;
        }
        return nullptr;
    }

    // The first empty slot of the window; where there is none, the first stale one.
    static word *slot_for_new(word *base, word folded_key, unsigned l, std::size_t bits) {
        word *stale = nullptr;
        for (unsigned b = 0; b < 4; b++) {
            word *bucket = base + (folded_key + b) % 16 * 8;
            for (unsigned j = 0; j < 8; j += 2) {
                if (bucket[j] == 0) return bucket + j;
                if (stale == nullptr && route(fold(bucket[j]), l) != bits) stale = bucket + j;
            }
        }
        return stale;
    }

    std::uint32_t check(word key) const {
        if (!valid()) return no_store;
        if (key == 0) return no_key;
        return scan();
    }

    std::uint32_t scan() const {
        const word *entries = w + (std::size_t(1) << g);
        std::size_t count = std::size_t(1) << g, end = 0;
        word leader = 0;
        bool consistent = true;
        for (std::size_t i = 0; i < count; i++) {
            word e = entries[i];
            if (i != end) {
                consistent &= e == leader;
                continue;
            }
            unsigned l = unsigned(e >> 32);
            if (l > g || std::uint32_t(e) >= s) return broken;
            std::size_t width = std::size_t(1) << (g - l);
            if (i & (width - 1)) return broken;
            leader = e;
            end = i + width;
        }
        return consistent ? done : unmended;
    }

    // The numbers that entries name, noted in a set of 4,096 bits in one pass over them (document 02, wish 8); then the
    // smallest below S that is not in it, or S.
    std::uint32_t free_segment() const {
        const word *entries = w + (std::size_t(1) << g);
        word named[64] = {};
        for (std::size_t i = 0; i < std::size_t(1) << g; i++) {
            std::uint32_t number = std::uint32_t(entries[i]);
            if (number < s) named[number >> 6] |= word(1) << (number & 63);
        }
        for (std::uint32_t i = 0; i < 64; i++)
            if (named[i] != ~word(0)) return std::min(s, 64 * i + std::uint32_t(std::countr_one(named[i])));
        return s;
    }

    void double_directory() {
        std::size_t count = std::size_t(2) << g;
        for (std::size_t e = 0; e < count; e++) store(count + e, w[count / 2 + e / 2]);
        store(0, w[0] + 1);
        g++;
    }

    void split(std::size_t i, std::uint32_t number, unsigned l, std::uint32_t fresh) {
        std::size_t bits = i >> (g - l);
        if (l == g) {
            double_directory();
            i = 2 * i;
        }
        std::size_t half = std::size_t(1) << (g - l - 1);
        std::size_t start = (std::size_t(1) << g) + (i & ~(2 * half - 1));
        word left = number | word(l + 1) << 32, right = fresh | word(l + 1) << 32;
        if constexpr (fault == Fault::entry_before_records) store(start + 2 * half - 1, right);
        const word *from = segment(number);
        std::size_t to = segment(fresh) - w;
        for (unsigned j = 0; j < slots; j++) {
            word key = from[2 * j], folded_key = fold(key);
            if (key != 0 && route(folded_key, l) == bits && (folded_key >> (4 + l) & 1)) {
                store(to + 2 * j + 1, from[2 * j + 1]);
                store(to + 2 * j, key);
                if constexpr (fault == Fault::moved_records_cleared) store(from + 2 * j - w, 0);
            } else {
                store(to + 2 * j, 0);
            }
        }
        if constexpr (fault == Fault::entries_left_to_right) {
            for (std::size_t e = 0; e < half; e++) store(start + e, left);
            for (std::size_t e = half; e < 2 * half; e++) store(start + e, right);
        } else {
            for (std::size_t e = 2 * half; e-- > half;) store(start + e, right);
            for (std::size_t e = half; e-- > 0;) store(start + e, left);
        }
    }

    // The slots of a segment whose keys have these first `l` directory bits, a bit for each. The bits are turned round
    // once, to stand as in a folded key, and not those of every key.
    static word live_slots(const word *base, unsigned l, std::size_t bits) {
        word mask = (word(1) << l) - 1, wanted = route(bits << (20 - l), 16), live = 0;
        for (unsigned j = 0; j < slots; j++) {
            word key = base[2 * j];
            live |= word(key != 0 && ((fold(key) >> 4 ^ wanted) & mask) == 0) << j;
        }
        return live;
    }

    // The live records of b go to the same slots of a; keys of a where neither has a live one become 0.
    void join_segments(const word *a, const word *b, word left_live, word right_live) {
        for (unsigned j = 0; j < slots; j++) {
            if (right_live >> j & 1)
                store_record(a + 2 * j - w, b[2 * j], b[2 * j + 1]);
            else if (!(left_live >> j & 1) && a[2 * j] != 0)
                store(a + 2 * j - w, 0);
        }
    }

    void join_entries(std::size_t start, std::size_t width, word entry) {
        if constexpr (fault == Fault::merged_right_to_left) {
            for (std::size_t e = width; e-- > 0;) store(start + e, entry);
        } else {
            for (std::size_t e = 0; e < width; e++) store(start + e, entry);
        }
    }

    // The number of indices of the block that has this one.
    std::size_t width(std::size_t i) const {
        return std::size_t(1) << (g - unsigned(w[(std::size_t(1) << g) + i] >> 32));
    }

    // The slots with the live records of the block that index i leads, a bit for each.
    word live_in_block(std::size_t i) const {
        word e = w[(std::size_t(1) << g) + i];
        unsigned l = unsigned(e >> 32);
        return live_slots(segment(std::uint32_t(e)), l, i >> (g - l));
    }

    // Writes the records of these slots of that block, key then value, slots rising; answers where they end.
    word *write_block(std::size_t i, word live, word *out) const {
        const word *base = segment(std::uint32_t(w[(std::size_t(1) << g) + i]));
        for (; live != 0; live &= live - 1) {
            const word *record = base + 2 * std::countr_zero(live);
            *out++ = record[0];
            *out++ = record[1];
        }
        return out;
    }
};

inline std::uint32_t refusal_of(const Job &job) {
    if (job.year < 1 || job.year > 9999) return bad_year;
    if (job.month < 1 || job.month > 12) return bad_month;
    return job.number > 4095 ? bad_number : done;
}

// The month board over an index. A print asks for every job of its year twice:
// first for the refusals and the length, then to write the lines.
template <class Log = NoLog, Fault fault = Fault::none>
class Board {
  public:
    Board(word *words, std::size_t length, Log log = Log()) : index(words, length, log) {}

    Answer set(const Job &job, word pages, std::uint32_t allowance) {
        std::uint32_t no = refusal_of(job);
        return no ? Answer{no, 0, 0} : index.put(key_of(job), pages, allowance);
    }

    Answer read(const Job &job) const {
        std::uint32_t no = refusal_of(job);
        return no ? Answer{no, 0, 0} : index.get(key_of(job));
    }

    Answer remove(const Job &job, std::uint32_t allowance) {
        std::uint32_t no = refusal_of(job);
        return no ? Answer{no, 0, 0} : index.remove(key_of(job), allowance);
    }

    Answer print(word year, unsigned char *buffer, std::size_t room) const {
        if (std::uint32_t no = refusal_of({year, 1, 0})) return Answer{no, 0, 0};
        std::size_t length = 0;
        std::uint32_t no = each_found(year, [&length](const Job &job, word pages) {
            length += 3 + 1 + digits(job.number) + 1 + digits(pages) + 1;
        });
        if (no) return Answer{no, 0, 0};
        if (length > room) return Answer{short_list, 0, 0};
        each_found(year, [&buffer](const Job &job, word pages) { buffer = write_line(buffer, job, pages); });
        return Answer{done, 0, length};
    }

  private:
    Index<Log, fault> index;

    // Visits the jobs of a year that are found, rising; answers the first refusal of a lookup, or done.
    template <class Visit>
    std::uint32_t each_found(word year, Visit visit) const {
        for (Job job{year, 1, 0}; job.month <= 12; job.month++)
            for (job.number = 0; job.number <= 4095; job.number++) {
                Answer got = index.get(key_of(job));
                if (got.code == absent) continue;
                if (got.code != done) return got.code;
                visit(job, got.value);
            }
        return done;
    }

    static unsigned digits(word number) {
        unsigned count = 1;
        while (number /= 10) count++;
        return count;
    }

    static unsigned char *write_number(unsigned char *at, word number) {
        unsigned char *end = at + digits(number);
        for (unsigned char *digit = end; digit-- > at; number /= 10) *digit = '0' + number % 10;
        return end;
    }

    static unsigned char *write_line(unsigned char *at, const Job &job, word pages) {
        for (unsigned i = 0; i < 3; i++) *at++ = "JanFebMarAprMayJunJulAugSepOctNovDec"[3 * (job.month - 1) + i];
        *at++ = '\t';
        at = write_number(at, job.number);
        *at++ = '\t';
        at = write_number(at, pages);
        *at++ = '\n';
        return at;
    }
};

}  // namespace twin
