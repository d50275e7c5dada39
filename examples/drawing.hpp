// Rivers as text, from any network record over four neighbours.
//
// Each cell is two characters: a sign for how much drains through it, and an arrow to the cell it drains to.
//   (space) little, '.' a rill, '-' a stream, '=' a river, '#' a great river; '~' a wet cell; 'O' an outlet.
#pragma once

#include <cstdio>
#include <fstream>
#include <iterator>
#include <string>
#include <vector>

#include "askvimur.h"

// What a console may ask of a cell: where its water goes.
inline char arrow(const askvimur::NetworkRecord &network, std::size_t cell) {
  const std::size_t to = network.receiver(cell);
  if (to == cell) return ' ';
  if (network.width() == 1) return to > cell ? 'v' : '^';
  if (to == cell + 1) return '>';
  if (to + 1 == cell) return '<';
  return to > cell ? 'v' : '^';
}

// How much drains through it, as a share of all the water.
inline char river(const askvimur::NetworkRecord &network, std::size_t cell, std::uint64_t total) {
  if (network.outlet(cell)) return 'O';
  if (network.wet(cell)) return '~';
  const std::uint64_t here = network.drainage(cell);
  if (here * 4 >= total) return '#';
  if (here * 16 >= total) return '=';
  if (here * 64 >= total) return '-';
  return here * 256 >= total ? '.' : ' ';
}

inline void draw(const askvimur::NetworkRecord &network) {
  std::printf("%zu by %zu cells, %zu bytes\n", network.width(), network.height(), network.record().size());
  std::uint64_t total = 1;
  for (std::size_t cell = 0; cell < network.cells(); ++cell)
    if (network.outlet(cell)) total += network.drainage(cell);
  for (std::size_t row = 0; row < network.height(); ++row) {
    std::string line;
    for (std::size_t column = 0; column < network.width(); ++column) {
      const std::size_t cell = row * network.width() + column;
      line += river(network, cell, total);
      line += arrow(network, cell);
    }
    std::printf("%s\n", line.c_str());
  }
}

// Says why a ground is refused, by the answer of any call for a network.
inline void print_refusal(const auto &answer) {
  const unsigned number = static_cast<unsigned>(answer.number());
  std::printf("refused %u: %s", number, answer.reason());
  if (number == ASKVIMUR_BAD_HEIGHT || number == ASKVIMUR_BAD_MARK)
    std::printf(", first in cell %u", static_cast<unsigned>(answer.place()));
  std::printf("\n");
}

// Draws the network that a call works out of the ground record in the one file that is named. The status is 0 for an accepted record,
// 1 for a refused one and 2 where there is none.
template <class Works>
int draw_named(int count, char **words, Works work_out) {
  if (count != 2) {
    std::fprintf(stderr, "usage: %s GROUND-RECORD\n", words[0]);
    return 2;
  }
  std::ifstream file(words[1], std::ios::binary);
  if (!file) {
    std::fprintf(stderr, "%s: can't be opened\n", words[1]);
    return 2;
  }
  const std::vector<std::uint8_t> ground((std::istreambuf_iterator<char>(file)), std::istreambuf_iterator<char>());
  const auto network = work_out(ground);
  if (!network.answer().accepted()) {
    print_refusal(network.answer());
    return 1;
  }
  draw(network);
  return 0;
}
