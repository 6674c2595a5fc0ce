// Counts that do not depend on the machine: stores, words read, pages at the first refusal, how full
// segments are when they are split.
#include "peers.hpp"

#include <malloc.h>
#include <sys/stat.h>

namespace {

// The first `count` directory bits of a key, the first one heaviest.
word bits_of(word key, word count) {
    word folded_key = twin::folded(key), found = 0;
    for (word i = 0; i < count; i++) found = 2 * found + (folded_key >> (4 + i) & 1);
    return found;
}

struct Place {
    word depth;
    const word *segment;
};

Place place_of(const Ours &ours, word key) {
    word g = ours.words[0] & 255, d = ours.words[0] >> 8 & 255;
    word entry = ours.words[(std::size_t(1) << g) + bits_of(key, g)];
    return {entry >> 32, &ours.words[(std::size_t(2) << d) + 128 * std::uint32_t(entry)]};
}

// The live records of the key's segment.
int live(const Ours &ours, word key) {
    Place p = place_of(ours, key);
    int found = 0;
    for (int j = 0; j < 64; j++) {
        word k = p.segment[2 * j];
        found += k != 0 && bits_of(k, p.depth) == bits_of(key, p.depth);
    }
    return found;
}

// Word 0, the entry, the keys looked at, and the value where there is one.
int words_read(const Ours &ours, word key) {
    Place p = place_of(ours, key);
    word folded_key = twin::folded(key);
    int read = 2;
    for (word b = 0; b < 4; b++)
        for (word j = 0; j < 4; j++) {
            read++;
            if (p.segment[(folded_key + b) % 16 * 8 + 2 * j] == key) return read + 1;
        }
    return read;
}

void fill(const char *name, bool running) {
    Ours ours;
    std::mt19937_64 random(7);
    Words keys;
    word stores = 0, splitting = 0, at_split = 0, refusal = 0, plain = 0;
    for (word i = 1; refusal == 0; i++) {
        word key = running ? i : random_key(random);
        int before = live(ours, key);
        refusal = ours.put(key, 3 * key);
        stores += ours.stores;
        if (ours.stores > 2)
            splitting++, at_split += before;
        else
            plain++;
        if (refusal == 0) keys.push_back(key);
    }
    word hit = 0, miss = 0;
    for (word key : keys) {
        hit += words_read(ours, key);
        miss += words_read(ours, key + (word(1) << 62));
    }
    double pages = double(keys.size());
    std::printf("%s pages %zu\n%s refusal %lu\n%s stores %lu\n%s splitting %lu\n", name, keys.size(), name, refusal, name, stores, name, splitting);
    std::printf("%s stores_per_put %.2f\n%s load %.1f\n%s load_at_split %.1f\n", name, double(stores) / pages, name,
                100 * pages / (64.0 * cabinet_segments), name, 100 * double(at_split) / (64.0 * double(splitting)));
    std::printf("%s bytes_per_page %.1f\n%s words_read_hit %.2f\n%s words_read_miss %.2f\n", name, 8.0 * cabinet_words / pages, name,
                double(hit) / pages, name, double(miss) / pages);
}

// The memory that a peer takes for 70,000 pages: on the heap, or in its files.
template <class Peer>
void memory() {
    constexpr word pages = 70000;
    auto heap = [] { return mallinfo2().uordblks + mallinfo2().hblkhd; };
    std::size_t before = heap();
    auto peer = std::make_unique<Peer>();
    for (word key = 1; key <= pages; key++) peer->put(key, 3 * key);
    std::size_t taken = heap() - before;
    for (const auto &file : std::filesystem::directory_iterator(std::getenv("BENCH_SCRATCH"))) {
        struct stat found;
        must(stat(file.path().c_str(), &found) == 0, "stat");
        taken += 512 * std::size_t(found.st_blocks);
    }
    std::printf("memory %s %.1f\n", Peer::name, double(taken) / pages);
    peer.reset();
    for (const auto &file : std::filesystem::directory_iterator(std::getenv("BENCH_SCRATCH"))) std::filesystem::remove(file);
}

}  // namespace

// BENCH_SCRATCH names an empty folder for the peers' files.
int main() {
    memory<Ours>();
    memory<Abseil>();
    memory<Standard>();
    memory<Linear>();
    memory<Lmdb>();
    memory<Tkrzw>();
    memory<Sqlite>();
    fill("running", true);
    fill("random", false);
    Ours worst(12, 13);
    for (word key : twin::before_worst) worst.put(key, 1);
    worst.put(twin::worst_key, 1);
    std::printf("worst stores %u\n", worst.stores);
    return 0;
}
