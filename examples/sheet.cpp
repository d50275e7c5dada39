// The same for a marsh: sheet flow in the place of carved rivers, from the service's library (drawing.hpp).
//
//   g++ -std=c++20 -Iinclude examples/sheet.cpp crates/askvimur_service/out/libaskvimur_service.a -o sheet
//   ./sheet examples/tiles/marsh.ground
#include "askvimur_service.h"
#include "drawing.hpp"

int main(int count, char **words) {
  return draw_named(count, words, [](std::span<const std::uint8_t> ground) { return askvimur::NetworkBy(4, ASKVIMUR_SHEET, ground); });
}
