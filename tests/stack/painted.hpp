// How much stack some work takes: a thread does it whose stack is known and painted, and then the lowest byte is looked for that is no
// longer as it was painted. Bytes that are set aside and never written stay unseen; Rattle's compiler writes to each page of 4 KB that
// it sets aside, so that these are less than one page.
#pragma once

#include <pthread.h>
#include <sys/mman.h>

#include <algorithm>
#include <cstddef>
#include <cstdint>
#include <cstdio>
#include <cstdlib>
#include <span>

namespace painted {

constexpr std::size_t stack_bytes = 1024 * 1024;
constexpr std::size_t guard_bytes = 64 * 1024;  // below the stack, neither readable nor writable: what takes more ends the program

[[noreturn]] inline void give_up(const char* what) {
    std::fprintf(stderr, "error: %s\n", what);
    std::exit(2);
}

// The stack that all work is done on, one after the other.
inline std::span<std::uint8_t> stack() {
    static std::uint8_t* const start = [] {
        void* lent = mmap(nullptr, guard_bytes + stack_bytes, PROT_READ | PROT_WRITE, MAP_PRIVATE | MAP_ANONYMOUS, -1, 0);
        if (lent == MAP_FAILED || mprotect(lent, guard_bytes, PROT_NONE) != 0) give_up("no memory for a stack");
        return static_cast<std::uint8_t*>(lent) + guard_bytes;
    }();
    return {start, stack_bytes};
}

template <class Work>
struct Errand {
    Work& work;
    const std::uint8_t* at_call = nullptr;  // the stack pointer where the work begins

    static void* run(void* given) {
        auto* errand = static_cast<Errand*>(given);
        asm volatile("mov %%rsp, %0" : "=r"(errand->at_call));
        errand->work();
        return nullptr;
    }
};

template <class Work>
std::size_t bytes_under(std::uint8_t paint, Work& work) {
    std::ranges::fill(stack(), paint);
    Errand<Work> errand{work};
    pthread_attr_t with_stack;
    pthread_t thread;
    if (pthread_attr_init(&with_stack) != 0 || pthread_attr_setstack(&with_stack, stack().data(), stack().size()) != 0 ||
        pthread_create(&thread, &with_stack, Errand<Work>::run, &errand) != 0 || pthread_join(thread, nullptr) != 0)
        give_up("no thread");
    pthread_attr_destroy(&with_stack);
    const auto lowest = std::ranges::find_if(stack(), [paint](std::uint8_t byte) { return byte != paint; });
    return static_cast<std::size_t>(errand.at_call - &*lowest);
}

// The bytes of stack that the work takes. It is done twice with two paints, as a byte may be overwritten with the paint itself.
template <class Work>
std::size_t bytes_taken(Work work) {
    return std::max(bytes_under(0xA5, work), bytes_under(0x5A, work));
}

}  // namespace painted
