// Keys for the twin, the tests and the benchmark: a key's folded key and the way back, the keys of jobs, and
// keys that collide.
#pragma once
#include <array>
#include <cstdint>

namespace twin {

using word = std::uint64_t;

// The folded key (document 02, wish 4): the exclusive or of the key and floor(key / 1,024).
constexpr word folded(word key) { return key ^ key >> 10; }

// The key that has this folded key, where a key is chosen by its bucket and directory bits.
constexpr word unfolded(word bits) {
    word key = bits;
    while (bits >>= 10) key ^= bits;
    return key;
}

static_assert(folded(unfolded(0xfedcba9876543210)) == 0xfedcba9876543210);

struct Job {
    word year, month, number;
};

constexpr word key_of(const Job &job) { return job.year * 65536 + job.month * 4096 + job.number; }

constexpr Job job_of(word key) { return {key >> 16, key >> 12 & 15, key & 4095}; }

// The job of this month whose folded key has these twelve low bits.
constexpr Job job_with(word year, word month, word bits) {
    return {year, month, unfolded((folded(key_of({year, month, 0})) ^ bits) % 4096)};
}

// Sixty-four keys that fill a segment, four of each bucket: their folded keys share bits 4 to 15, given as `bits`.
constexpr std::array<word, 64> keys_of_segment(word bits) {
    std::array<word, 64> keys{};
    for (word i = 0; i < 64; i++) keys[i] = unfolded(i / 16 * 65536 + bits + i % 16);
    return keys;
}

// The put with the most stores: with D = 12 and S = 13, of this key behind those that fill segment 0.
constexpr word worst_key = unfolded(5 * 65536 + 0x7ff0);
constexpr std::array<word, 64> before_worst = keys_of_segment(0xfff0);

}  // namespace twin
