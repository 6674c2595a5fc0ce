// How many pages an index takes until its first refusal, for keys numbered in steps and for random keys: by ours,
// and by the twin with keys as they stand in the place of folded keys. Of random keys also the least and the most of
// twenty draws.
#include "peers.hpp"

namespace {

// More than an index of either shape can take.
constexpr word most_pages = 300000;

// The twin with keys as they stand.
class AsItStands {
  public:
    AsItStands(word depth, word segments) : words((std::size_t(2) << depth) + 128 * segments) { index().format(depth, segments, all); }
    std::uint32_t put(word key, word value) { return index().put(key, value, all).code; }

  private:
    twin::Index<twin::NoLog, twin::Fault::none, twin::Numbering::as_it_stands> index() { return {words.data(), words.size()}; }
    Words words;
};

struct Taken {
    word pages, refusal;
    bool operator==(const Taken &) const = default;
};

// The keys are step, 2 * step and so on; for the step 0 they are random, by this seed.
template <class Peer>
Taken taken(word depth, word segments, word step, word seed = 7) {
    Peer peer(depth, segments);
    std::mt19937_64 random(seed);
    for (word page = 1; page <= most_pages; page++)
        if (word refusal = peer.put(step ? step * page : random_key(random), page)) return {page - 1, refusal};
    return {most_pages, 0};
}

void row(const char *shape, word depth, word segments, word step) {
    Taken ours = taken<Ours>(depth, segments, step), as_it_stands = taken<AsItStands>(depth, segments, step);
    must(ours == taken<Twin>(depth, segments, step), "as many pages by the twin");
    std::string keys = std::string(shape) + "/" + (step ? std::to_string(step) : "random");
    const char *group = keys.c_str();
    std::printf("%s pages %lu\n%s refusal %lu\n", group, ours.pages, group, ours.refusal);
    std::printf("%s pages_as_it_stands %lu\n%s refusal_as_it_stands %lu\n", group, as_it_stands.pages, group, as_it_stands.refusal);
}

// Twenty draws of random keys, in an index of the cabinet's size.
void draws() {
    word least = most_pages, most = 0;
    for (word seed = 0; seed < 20; seed++) {
        Taken ours = taken<Ours>(cabinet_depth, cabinet_segments, 0, seed);
        must(ours.refusal == PAGE_INDEX_TOO_DEEP, "random keys are refused with 5");
        least = std::min(least, ours.pages);
        most = std::max(most, ours.pages);
    }
    std::printf("cabinet/random least %lu\ncabinet/random most %lu\n", least, most);
}

}  // namespace

int main() {
    for (word step : std::initializer_list<word>{1, 10, 16, 64, 100, 256, 1000, 1024, 4096, 65536, word(1) << 32, 0}) {
        row("small", 6, 64, step);
        row("cabinet", cabinet_depth, cabinet_segments, step);
    }
    draws();
    return 0;
}
