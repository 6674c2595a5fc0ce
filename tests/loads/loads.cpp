// A put on an index with G = 12, for tests/loads/count, which counts the loads of the directory's entries in a
// memory trace. The put's part of the trace stands between two stores to `mark`. Printed are the addresses of the
// first entry and of `mark`, and the put's code.
//
//     loads found | no_segment | split
#include "../../bindings/c/page_index.h"
#include "../twin/keys.hpp"

#include <cstdio>
#include <cstring>
#include <vector>

namespace {

constexpr std::uint32_t all = 0xffffffff;

// The h-th of keys that share a window and the first directory bit, 0. The second bit tells even h from odd.
constexpr twin::word key_of_window(twin::word h) { return twin::unfolded(h * 65536 + h % 2 * 0x20 + 5); }

volatile twin::word mark;

}  // namespace

int main(int count, char **arguments) {
    const char *kind = count == 2 ? arguments[1] : "";
    // Behind the put with the most stores thirteen segments are named, and half of the directory is one block.
    std::uint64_t segments = std::strcmp(kind, "split") == 0 ? 14 : 13;
    std::vector<twin::word> words(8192 + 128 * segments);
    bool made = page_index_format(words.data(), words.size(), 12, segments, all).code == 0;
    auto put = [&](twin::word key) { return page_index_put(words.data(), words.size(), key, 1, all); };
    for (twin::word key : twin::before_worst) made = made && put(key).code == 0;
    made = made && put(twin::worst_key).code == 0;
    for (twin::word h = 0; h < 16; h++) made = made && put(key_of_window(h)).code == 0;
    if (!made) return 2;

    twin::word key = key_of_window(std::strcmp(kind, "found") == 0 ? 0 : 16);
    mark = 1;
    page_index_reply reply = put(key);
    mark = 2;
    auto address = [](const volatile twin::word *at) { return reinterpret_cast<std::uintptr_t>(at); };
    std::printf("%zx %zx %u\n", address(words.data() + 4096), address(&mark), reply.code);
    return 0;
}
