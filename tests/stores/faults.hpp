// The calls of the library as the test makes them: through a shim that can put a fault in. With a fault every lookup stays
// right when no power fails, and mostly the array behind the call too; what differs are the stores on the way.
#pragma once
#include "../../bindings/c/month_board.h"
#include "../twin/twin.hpp"

#include <emmintrin.h>

#include <string_view>
#include <vector>

namespace faults {

using twin::word;

// What is wrong in the shim.
inline std::string_view fault = "none";

constexpr const char *all[] = {
    "key_first_deep",        // a record key first, wherever the allowance is 2 or more and G is 3 or more
    "value_again",           // a record's value stored once more behind its key
    "equal_left_out",        // no store where the value stands already
    "two_halves",            // a known page's value in two stores of four bytes
    "two_words_at_once",     // a record by one store of sixteen bytes
    "touched_by_get",        // word 0 stored as it stands, by a get
    "entries_left_to_right", // in a split
    "merged_right_to_left",  // the entries of a merge
    "mend_stores_equal",     // entry 0 stored as it stands, by a mend
    "keys_falling",          // a format's key words from the last to the first
};

inline page_index_reply as_reply(const twin::Answer &answer) { return {answer.code, answer.stores, answer.value}; }

template <twin::Fault wrong>
using Faulty = twin::Index<twin::NoLog, wrong>;

// The slot of a key: where it stands, or where a put would store it behind an emptied page. 0: none.
inline std::size_t key_word(const word *words, std::size_t length, word key) {
    const unsigned depth = words[0] >> 8 & 255;
    for (std::size_t at = std::size_t(2) << depth; at + 1 < length; at += 2)
        if (words[at] == key) return at;
    return 0;
}

inline volatile word *as_stored(word *at) { return at; }

// A put whose key is known, with the allowance for its one store.
inline page_index_reply put_known(word *words, std::size_t length, word key, word value, std::uint32_t allowance) {
    std::size_t at = key_word(words, length, key) + 1;
    if (fault == "equal_left_out" && words[at] == value) return {PAGE_INDEX_DONE, 1, 0};
    if (fault == "two_halves") {
        auto *halves = reinterpret_cast<volatile std::uint32_t *>(words + at);
        halves[0] = std::uint32_t(value);
        halves[1] = std::uint32_t(value >> 32);
        return {PAGE_INDEX_DONE, 1, 0};
    }
    return page_index_put(words, length, key, value, allowance);
}

// A put of a new page that makes no split: what the library would store, stored in another way.
inline page_index_reply put_new(word *words, std::size_t length, word key, word value, std::uint32_t allowance) {
    if (fault == "key_first_deep" && words[0] % 256 >= 3 && allowance >= 2)
        return as_reply(Faulty<twin::Fault::key_first>(words, length).put(key, value, allowance));
    if (fault == "two_words_at_once") {
        std::vector<word> copy(words, words + length);
        page_index_reply reply = page_index_put(copy.data(), length, key, value, allowance);
        if (reply.stores != 2) return page_index_put(words, length, key, value, allowance);
        auto *slot = reinterpret_cast<__m128i *>(words + key_word(copy.data(), length, key));
        _mm_storeu_si128(slot, _mm_set_epi64x(static_cast<long long>(value), static_cast<long long>(key)));
        return reply;
    }
    page_index_reply reply = page_index_put(words, length, key, value, allowance);
    if (fault == "value_again" && reply.code == PAGE_INDEX_DONE) *as_stored(words + key_word(words, length, key) + 1) = value;
    return reply;
}

inline page_index_reply put(word *words, std::size_t length, word key, word value, std::uint32_t allowance) {
    if (fault == "entries_left_to_right")
        return as_reply(Faulty<twin::Fault::entries_left_to_right>(words, length).put(key, value, allowance));
    if (fault != "none" && allowance > 0) {
        std::uint32_t found = page_index_get(words, length, key).code;
        if (found == PAGE_INDEX_DONE) return put_known(words, length, key, value, allowance);
        if (found == PAGE_INDEX_ABSENT) return put_new(words, length, key, value, allowance);
    }
    return page_index_put(words, length, key, value, allowance);
}

inline page_index_reply get(word *words, std::size_t length, word key) {
    if (fault == "touched_by_get" && length > 0) *as_stored(words) = words[0];
    return page_index_get(words, length, key);
}

inline page_index_reply merge(word *words, std::size_t length, word key, std::uint32_t allowance) {
    if (fault == "merged_right_to_left")
        return as_reply(Faulty<twin::Fault::merged_right_to_left>(words, length).merge(key, allowance));
    return page_index_merge(words, length, key, allowance);
}

inline page_index_reply mend(word *words, std::size_t length, std::uint32_t allowance) {
    page_index_reply reply = page_index_mend(words, length, allowance);
    if (fault == "mend_stores_equal" && reply.stores > 0) {
        word *entry = words + (std::size_t(1) << words[0] % 256);
        *as_stored(entry) = *entry;
    }
    return reply;
}

inline page_index_reply format(word *words, std::size_t length, word depth, word segments, std::uint32_t allowance) {
    if (fault != "keys_falling" || allowance < 67) return page_index_format(words, length, depth, segments, allowance);
    std::vector<word> copy(words, words + length);
    page_index_reply reply = page_index_format(copy.data(), length, depth, segments, allowance);
    if (reply.code != PAGE_INDEX_DONE) return reply;
    const std::size_t base = std::size_t(2) << depth;
    *as_stored(words) = 0;
    *as_stored(words + 1) = 0;
    for (std::size_t slot = 64; slot-- > 0;) *as_stored(words + base + 2 * slot) = 0;
    *as_stored(words) = copy[0];
    return reply;
}

}  // namespace faults
