// The stack that a program of the repository takes from its `main` on. It is linked with the program's object, and the linker hands
// each `main` to the other's place (--wrap=main): this one starts, and the program's runs on a painted thread, with standard input and
// output as they are. The figure goes to standard error.
#include <cstdio>

#include "painted.hpp"

extern "C" int __real_main();

extern "C" int __wrap_main() {
    // Input can be read once, so that one paint has to do.
    auto program = [] { __real_main(); };
    const std::size_t bytes = painted::bytes_under(0xA5, program);
    std::fprintf(stderr, "%zu bytes (%.1f KB) of stack\n", bytes, static_cast<double>(bytes) / 1024);
    return 0;
}
