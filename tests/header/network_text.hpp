// The text of a network as `drain` prints it, with nothing but the functions of the headers. Each section is also read where the trailer's
// distances say that it starts, and the header's function must read the same there. A cell must be wet exactly when its level is greater
// than its height. A cell that is read wrongly is named on standard error.
#pragma once

#include <cstdio>
#include <fstream>
#include <iterator>
#include <vector>

#include "askvimur.h"

inline std::vector<std::uint8_t> bytes_of(const char *name) {
  std::ifstream file(name, std::ios::binary);
  return {std::istreambuf_iterator<char>(file), {}};
}

// Where section `number` of a network record starts: so many bytes before the trailer as its distance says.
inline const std::uint8_t *section(std::span<const std::uint8_t> record, std::size_t number) {
  const std::uint8_t *trailer = record.data() + record.size() - ASKVIMUR_NETWORK_TRAILER;
  return trailer - askvimur_u32(trailer + 4 + 4 * number);
}

// Whether the six functions read a cell, or a place in the order, as the sections have it.
inline bool read_alike(const askvimur::NetworkRecord &network, std::size_t at) {
  const auto record = network.record();
  return network.receiver(at) == askvimur_u16(section(record, 0) + 2 * at) &&
         network.basin(at) == askvimur_u16(section(record, 1) + 2 * at) &&
         network.in_order(at) == askvimur_u16(section(record, 2) + 2 * at) &&
         network.level(at) == askvimur_i32(section(record, 3) + 4 * at) &&
         network.drainage(at) == askvimur_u32(section(record, 4) + 4 * at) && network.wet(at) == (section(record, 5)[at] != 0);
}

// Prints the network of an accepted ground record. False where something is read wrongly.
inline bool print_network(const askvimur::NetworkRecord &network, const std::vector<std::uint8_t> &ground) {
  if (network.record().size() != ASKVIMUR_NETWORK_BYTES(network.cells())) return false;
  if (ground.size() != ASKVIMUR_GROUND_BYTES(network.cells())) return false;
  std::printf("tile %zu %zu\n", network.width(), network.height());
  unsigned long drained = 0, water = 0;
  for (std::size_t cell = 0; cell < network.cells(); ++cell) {
    const bool above = network.level(cell) > askvimur_i32(ground.data() + 4 * cell);
    if (!read_alike(network, cell) || network.wet(cell) != above) {
      std::fprintf(stderr, "cell %zu\n", cell);
      return false;
    }
    std::printf("%zu %u %d %u\n", cell, static_cast<unsigned>(network.receiver(cell)), static_cast<int>(network.level(cell)),
                static_cast<unsigned>(network.drainage(cell)));
    if (network.outlet(cell)) drained += network.drainage(cell);
    water += askvimur_u16(ground.data() + 5 * network.cells() + 2 * cell);
  }
  std::printf("out %lu of %lu\n", drained, water);
  return true;
}
