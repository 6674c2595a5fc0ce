// The print of the C++ twin's board, its merge and its listing of one block, for the benchmark.
#include "../tests/twin/twin.hpp"

std::uint64_t twin_print(const std::uint64_t *words, std::size_t length, std::uint64_t year, std::uint8_t *buffer, std::size_t room) {
    return twin::Board<>(const_cast<std::uint64_t *>(words), length).print(year, buffer, room).value;
}

twin::Answer twin_merge(std::uint64_t *words, std::size_t length, std::uint64_t key) {
    return twin::Index<>(words, length).merge(key, 0xffffffff);
}

twin::Answer twin_list_block(const std::uint64_t *words, std::size_t length, std::uint64_t index, std::uint64_t *list, std::size_t room,
                             std::uint64_t &next) {
    return twin::Index<>(const_cast<std::uint64_t *>(words), length).list_block(index, list, room, next);
}
