// The calls that callgrind counts, on an index of the cabinet's size with 20,000 pages: a thousand of
// each kind, by ours and by the twin, each thousand in a function of its own.
#include "peers.hpp"

namespace {

constexpr word pages = 20000, step = 19, calls = 1000;

template <class Peer>
word get_all(const Peer &peer) {
    word sum = 0;
    for (word i = 1; i <= calls; i++) sum += *peer.get(step * i);
    return sum;
}

template <class Peer>
void put_all(Peer &peer) {
    for (word i = 1; i <= calls; i++) peer.put(step * i, i);
}

template <class Peer>
void remove_all(Peer &peer) {
    for (word i = 1; i <= calls; i++) peer.remove(step * i);
}

template <class Peer>
void fill(Peer &peer) {
    for (word key = 1; key <= pages; key++) peer.put(key, key);
}

}  // namespace

// What callgrind is told to count, by name. An overwrite is a put of a page that is there; a put of a
// new page comes behind the removes.
#define COUNTED [[gnu::noinline]]
extern "C" {
COUNTED word count_get_ours(const Ours &ours) { return get_all(ours); }
COUNTED word count_get_twin(const Twin &twin) { return get_all(twin); }
COUNTED void count_overwrite_ours(Ours &ours) { put_all(ours); }
COUNTED void count_overwrite_twin(Twin &twin) { put_all(twin); }
COUNTED void count_remove_ours(Ours &ours) { remove_all(ours); }
COUNTED void count_remove_twin(Twin &twin) { remove_all(twin); }
COUNTED void count_new_ours(Ours &ours) { put_all(ours); }
COUNTED void count_new_twin(Twin &twin) { put_all(twin); }
}

int main() {
    Ours ours;
    Twin twin;
    fill(ours);
    fill(twin);
    word sum = count_get_ours(ours) + count_get_twin(twin);
    count_overwrite_ours(ours);
    count_overwrite_twin(twin);
    count_remove_ours(ours);
    count_remove_twin(twin);
    count_new_ours(ours);
    count_new_twin(twin);
    return sum == 0;
}
