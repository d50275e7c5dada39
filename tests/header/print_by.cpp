// Prints the network of a ground record over the neighbours and in the manner asked for, as `drain` prints it, with nothing but the headers:
// the text is held to the stored one. The class, the function over spans and the call in C must agree on every byte, in rooms that are
// exact, longer, one byte short and empty; a refusal must leave the room as it was. Counts that can't be asked for must be refused with 11
// and manners with 12, 11 first, whatever ground and room come with them. With 4, carved, the record must be that of the console's call;
// each cell must drain to one of the neighbours asked for and to no higher level, and no level may be above the console's. Both manners
// must have the same levels, basins and wet cells.
// usage: print_by NEIGHBOURS MANNER FILE
#include <algorithm>
#include <cstdlib>
#include <cstring>

#include "askvimur_service.h"
#include "network_text.hpp"

using Bytes = std::vector<std::uint8_t>;

constexpr std::uint8_t untouched = 0xA5;

// What is asked for.
struct Asked {
  std::uint32_t neighbours, manner;
};

// Whether the call answers so in a room of this length, by its name in C and over spans, writes what is wanted at the room's start, and
// leaves every other byte, and the ground, as it was.
static bool leaves(Asked asked, const Bytes &ground, std::size_t length, std::uint32_t wanted, std::span<const std::uint8_t> written) {
  // each has a byte more than is lent: so both have an address, and the byte behind is watched
  Bytes lent = ground, room(length + 1, untouched), expected = room;
  lent.push_back(untouched);
  std::ranges::copy(written, expected.begin());
  const Bytes kept = lent;
  if (askvimur_network_by(asked.neighbours, asked.manner, lent.data(), ground.size(), room.data(), length) != wanted) return false;
  if (lent != kept || room != expected) return false;
  room.assign(length, untouched);
  expected.pop_back();
  const auto answer = askvimur::network_by(asked.neighbours, asked.manner, ground, room);
  return answer.number() == askvimur_number(wanted) && answer.place() == askvimur_place(wanted) &&
         answer.length() == askvimur_length(wanted) && answer.accepted() == (wanted < 65536) && room == expected;
}

static bool refuses(Asked asked, const Bytes &ground, std::size_t length, std::uint32_t number, std::uint32_t place) {
  return leaves(asked, ground, length, 65536 * number + place, {});
}

// Whether it is refused so whatever ground and room come with it.
static bool always_refuses(Asked asked, const Bytes &ground, std::uint32_t number) {
  return refuses(asked, ground, ASKVIMUR_MAX_NETWORK_BYTES, number, 0) && refuses(asked, ground, 0, number, 0) &&
         refuses(asked, {}, 43, number, 0) && refuses(asked, {}, 0, number, 0);
}

// Manners that can't be asked for: small ones, and large ones that 1 or 2 might be read from.
constexpr std::uint32_t other_manners[] = {0,       3,          4,          8,          257,        258,        65536,     65537,
                                           65538,   0x20000,    0x01000000, 0x02000000, 0x80000001, 0x80000002, '1',       '2',
                                           0xFF01,  0xFF02,     0x7FFFFFFF, 0xFFFFFFFD, 0xFFFFFFFE, 0xFFFFFFFF};

// Whether all counts but 4 and 8 are refused before all else, the manner too: small ones, and large ones that 4 or 8 might be read from.
static bool refuses_other_counts(const Bytes &ground) {
  const std::uint32_t counts[] = {0,          1,          2,         3,         5,          6,          7,          9,          12,
                                  16,         32,         260,       264,       65536,      65540,      65544,      0x40000,    0x80000,
                                  0x04000000, 0x08000000, '4',       '8',       0x80000004, 0x80000008, 0xFFFFFFF8, 0xFFFFFFFC, 0xFFFFFFFF};
  const std::uint32_t manners[] = {ASKVIMUR_CARVE, ASKVIMUR_SHEET, 0, 3, 0xFFFFFFFF};
  return std::ranges::all_of(counts, [&](std::uint32_t neighbours) {
    return std::ranges::all_of(manners, [&](std::uint32_t manner) {
      return always_refuses({neighbours, manner}, ground, ASKVIMUR_BAD_NEIGHBOURS);
    });
  });
}

// Whether all manners but 1 and 2 are refused next.
static bool refuses_other_manners(const Bytes &ground) {
  return std::ranges::all_of(other_manners, [&](std::uint32_t manner) {
    return always_refuses({4, manner}, ground, ASKVIMUR_BAD_MANNER) && always_refuses({8, manner}, ground, ASKVIMUR_BAD_MANNER);
  });
}

// Whether each refusal of the call has words of its own, as has a number that is none, and the answer those of its number.
static bool has_words(const askvimur::NetworkByAnswer &answer) {
  const std::uint32_t numbers[] = {0, 1, 2, 3, 4, 5, 6, 7, ASKVIMUR_BAD_NEIGHBOURS, ASKVIMUR_BAD_MANNER, 13};
  for (const auto &one : numbers)
    for (const auto &other : numbers)
      if ((std::strcmp(askvimur_network_by_reason(one), askvimur_network_by_reason(other)) == 0) != (one == other)) return false;
  return std::strcmp(answer.reason(), askvimur_network_by_reason(answer.number())) == 0;
}

// Whether an accepted record comes out the same in every room that is long enough, and is refused in any other.
static bool fits_its_rooms(Asked asked, const Bytes &ground, std::span<const std::uint8_t> record) {
  const auto length = static_cast<std::uint32_t>(record.size());
  return leaves(asked, ground, length, length, record) && leaves(asked, ground, length + 9, length, record) &&
         leaves(asked, ground, ASKVIMUR_MAX_NETWORK_BYTES, length, record) && refuses(asked, ground, length - 1, ASKVIMUR_NO_ROOM, 0) &&
         refuses(asked, ground, 0, ASKVIMUR_NO_ROOM, 0);
}

// Whether two cells are neighbours: one row or one column apart, with 8 also one of each.
static bool is_neighbour(const askvimur::NetworkRecord &network, std::uint32_t neighbours, std::size_t one, std::size_t other) {
  const auto between = [](std::size_t a, std::size_t b) { return a < b ? b - a : a - b; };
  const std::size_t rows = between(one / network.width(), other / network.width());
  const std::size_t columns = between(one % network.width(), other % network.width());
  return rows + columns == 1 || (neighbours == 8 && rows == 1 && columns == 1);
}

// Whether each cell drains to a neighbour that stands no higher in water.
static bool runs_over_neighbours(const askvimur::NetworkBy &network, std::uint32_t neighbours) {
  for (std::size_t cell = 0; cell < network.cells(); ++cell) {
    const std::size_t to = network.receiver(cell);
    if (network.outlet(cell)) continue;
    if (!is_neighbour(network, neighbours, cell, to) || network.level(to) > network.level(cell)) return false;
  }
  return true;
}

// Whether the outlets are the console's, and no cell stands higher in water than by the console's network. With 4, carved, all is the same.
static bool fits_the_console(const askvimur::NetworkBy &network, Asked asked, const Bytes &ground) {
  const askvimur::Network console(ground);
  if (asked.neighbours == 4 && asked.manner == ASKVIMUR_CARVE && !std::ranges::equal(network.record(), console.record())) return false;
  for (std::size_t cell = 0; cell < network.cells(); ++cell)
    if (network.outlet(cell) != console.outlet(cell) || network.level(cell) > console.level(cell)) return false;
  return true;
}

// Whether both manners have the same levels, basins and wet cells.
static bool fits_the_other_manner(const askvimur::NetworkBy &network, Asked asked, const Bytes &ground) {
  const askvimur::NetworkBy other(asked.neighbours, ASKVIMUR_CARVE + ASKVIMUR_SHEET - asked.manner, ground);
  for (std::size_t cell = 0; cell < network.cells(); ++cell)
    if (network.level(cell) != other.level(cell) || network.basin(cell) != other.basin(cell) || network.wet(cell) != other.wet(cell))
      return false;
  return network.cells() == other.cells();
}

static std::uint32_t number_of(const char *word) { return static_cast<std::uint32_t>(std::strtoul(word, nullptr, 10)); }

int main(int count, char **words) {
  if (count != 4) return 2;
  const Asked asked = {number_of(words[1]), number_of(words[2])};
  const Bytes ground = bytes_of(words[3]);
  const askvimur::NetworkBy network(asked.neighbours, asked.manner, ground);
  const auto &answer = network.answer();
  if (!refuses_other_counts(ground) || !refuses_other_manners(ground) || !has_words(answer)) return 1;
  if (!answer.accepted()) {
    std::printf("refused %u %u\n", answer.number(), answer.place());
    const bool nothing = network.record().empty() && network.cells() == 0;
    return nothing && refuses(asked, ground, ASKVIMUR_MAX_NETWORK_BYTES, answer.number(), answer.place()) ? 0 : 1;
  }
  if (answer.length() != network.record().size() || !fits_its_rooms(asked, ground, network.record())) return 1;
  if (!runs_over_neighbours(network, asked.neighbours) || !fits_the_other_manner(network, asked, ground)) return 1;
  return fits_the_console(network, asked, ground) && print_network(network, ground) ? 0 : 1;
}
