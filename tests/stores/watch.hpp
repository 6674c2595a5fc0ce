// An array of words whose stores are seen one by one. Its pages cannot be written: a store faults, is noted, its one
// instruction is made with the page open and the trap flag set, and the page is closed again behind it. On both sides of the
// array stand pages that cannot be touched.
#pragma once
#include <csignal>
#include <cstddef>
#include <cstdint>
#include <cstdio>
#include <cstdlib>
#include <cstring>
#include <vector>

#include <sys/mman.h>
#include <ucontext.h>
#include <unistd.h>

namespace watch {

using word = std::uint64_t;

// A store: the word's number in the array, and what it holds behind the store.
struct Store {
    std::size_t at;
    word value;
    bool operator==(const Store &) const = default;
};

// More stores than any call makes.
constexpr std::size_t most_stores = 16384;
constexpr std::size_t page = 4096;
constexpr greg_t trap_flag = 0x100;

// The array that is watched now, and what was seen since `forget`.
inline unsigned char *region, *open_page;
inline std::size_t region_bytes, pending;
inline word *words;
inline Store seen[most_stores];
inline std::size_t count;
inline long torn;  // stores that are not of one whole aligned word

[[noreturn]] inline void stop(const char *what) {
    std::fprintf(stderr, "stores: %s\n", what);
    std::_Exit(2);
}

// Whether an instruction stores one whole word: `mov` of a 64-bit register or of a number, or `movq` of a vector register.
inline bool stores_one_word(const unsigned char *code) {
    if (code[0] == 0x66) {
        code += (code[1] & 0xf0) == 0x40 ? 2 : 1;
        return code[0] == 0x0f && code[1] == 0xd6;
    }
    return (code[0] & 0xf8) == 0x48 && (code[1] == 0x89 || code[1] == 0xc7);
}

inline void protect(unsigned char *from, std::size_t bytes, int access) {
    if (mprotect(from, bytes, access) != 0) stop("mprotect");
}

// Two pages: a store that is not of one aligned word may reach the next.
inline void protect_open(int access) {
    std::size_t left = std::size_t(region + region_bytes - open_page);
    protect(open_page, left < 2 * page ? left : 2 * page, access);
}

inline void on_fault(int, siginfo_t *info, void *context) {
    auto *at = static_cast<unsigned char *>(info->si_addr);
    auto *begin = reinterpret_cast<unsigned char *>(words);
    if (at < begin || at >= region + region_bytes || open_page != nullptr) stop("a fault outside the array");
    greg_t *registers = static_cast<ucontext_t *>(context)->uc_mcontext.gregs;
    auto *code = reinterpret_cast<const unsigned char *>(registers[REG_RIP]);
    torn += (at - begin) % 8 != 0 || !stores_one_word(code);
    pending = std::size_t(at - begin) / 8;
    open_page = region + (at - region) / page * page;
    protect_open(PROT_READ | PROT_WRITE);
    registers[REG_EFL] |= trap_flag;
}

inline void on_step(int, siginfo_t *, void *context) {
    static_cast<ucontext_t *>(context)->uc_mcontext.gregs[REG_EFL] &= ~trap_flag;
    if (count == most_stores) stop("more stores than any call makes");
    seen[count++] = {pending, words[pending]};
    protect_open(PROT_READ);
    open_page = nullptr;
}

inline void install() {
    struct sigaction action {};
    action.sa_flags = SA_SIGINFO;
    action.sa_sigaction = on_fault;
    if (sigaction(SIGSEGV, &action, nullptr) != 0) stop("sigaction");
    action.sa_sigaction = on_step;
    if (sigaction(SIGTRAP, &action, nullptr) != 0) stop("sigaction");
}

inline void forget() { count = 0; }

// The array, with these words at first. One stands at a time.
class Array {
  public:
    explicit Array(const std::vector<word> &before) {
        region_bytes = (before.size() * sizeof(word) + page - 1) / page * page;
        void *got = mmap(nullptr, region_bytes + 2 * page, PROT_NONE, MAP_PRIVATE | MAP_ANONYMOUS, -1, 0);
        if (got == MAP_FAILED) stop("mmap");
        region = static_cast<unsigned char *>(got) + page;
        words = reinterpret_cast<word *>(region + region_bytes) - before.size();
        write(before);
    }

    Array(const Array &) = delete;

    ~Array() { munmap(region - page, region_bytes + 2 * page); }

    // Other words, which nobody sees stored.
    void write(const std::vector<word> &others) {
        protect(region, region_bytes, PROT_READ | PROT_WRITE);
        std::memcpy(words, others.data(), others.size() * sizeof(word));
        protect(region, region_bytes, PROT_READ);
    }
};

}  // namespace watch
