// A console that reads a ground record from a file, asks for its network, and draws the rivers as text (drawing.hpp).
//
//   g++ -std=c++20 -Iinclude examples/console.cpp crates/askvimur/out/libaskvimur.a -o console
//   ./console examples/tiles/valley.ground
#include "askvimur.h"
#include "drawing.hpp"

int main(int count, char **words) {
  return draw_named(count, words, [](std::span<const std::uint8_t> ground) { return askvimur::Network(ground); });
}
