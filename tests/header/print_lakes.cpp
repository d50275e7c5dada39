// Prints the lakes of a ground record as `lakes` prints them, with nothing but the header: the text is held to the stored one. The class
// reads its own list; the functions in C must read the same of a second one, where each number stands at its bytes. A room without a byte
// is long enough exactly where there is no lake, and one byte fewer than the lakes take is too few. A lake that is read wrongly is named
// on standard error.
// usage: print_lakes FILE
#include <cinttypes>
#include <cstdio>
#include <cstring>
#include <fstream>
#include <iterator>
#include <vector>

#include "askvimur_service.h"

// Whether the class and the functions read a lake as its bytes have it.
static bool read_alike(const askvimur::Lake &lake, const std::vector<std::uint8_t> &list, std::size_t at) {
  const std::uint8_t *bytes = list.data() + ASKVIMUR_LAKE_BYTES * at;
  std::uint64_t volume = 0;
  for (std::size_t byte = 16; byte-- > 8;) volume = volume * 256 + bytes[byte];
  return lake.level == askvimur_i32(bytes) && lake.cells == askvimur_u16(bytes + 4) && lake.least == askvimur_u16(bytes + 6) &&
         lake.volume == volume && lake.level == askvimur_lake_level(list.data(), at) && lake.cells == askvimur_lake_cells(list.data(), at) &&
         lake.least == askvimur_lake_least(list.data(), at) && lake.volume == askvimur_lake_volume(list.data(), at);
}

// Whether the functions read every byte of a lake, here of the second one of a made-up list.
static bool read_all_bytes() {
  std::uint8_t list[32];
  for (std::uint8_t byte = 0; byte < 32; ++byte) list[byte] = static_cast<std::uint8_t>(0xE0 + byte);
  return askvimur_lake_level(list, 1) == -0x0C0D0E10 && askvimur_lake_cells(list, 1) == 0xF5F4 && askvimur_lake_least(list, 1) == 0xF7F6 &&
         askvimur_lake_volume(list, 1) == 0xFFFEFDFCFBFAF9F8u;
}

// Whether each refusal of the call has words of its own, as has a number that is none, and the answer those of its number.
static bool has_words(const askvimur::LakesAnswer &answer) {
  const std::uint32_t numbers[] = {0, 1, 2, ASKVIMUR_NO_ROOM, 4, 5, 6, 7, ASKVIMUR_TOO_DEEP, 11};
  for (const auto &one : numbers)
    for (const auto &other : numbers)
      if ((std::strcmp(askvimur_lakes_reason(one), askvimur_lakes_reason(other)) == 0) != (one == other)) return false;
  return std::strcmp(answer.reason(), askvimur_lakes_reason(answer.number())) == 0;
}

int main(int count, char **words) {
  if (count != 2) return 2;
  std::ifstream file(words[1], std::ios::binary);
  const std::vector<std::uint8_t> ground{std::istreambuf_iterator<char>(file), {}};
  const askvimur::Lakes lakes(ground);
  const auto &answer = lakes.answer();
  if (!read_all_bytes() || !has_words(answer)) return 1;
  if (!answer.accepted()) {
    if (lakes.size() != 0) return 1;
    std::printf("refused %u %u\n", answer.number(), answer.place());
    return 0;
  }
  std::vector<std::uint8_t> list(ASKVIMUR_LAKE_BYTES * lakes.size());
  if (lakes.size() > ASKVIMUR_MAX_LAKES || list.size() > ASKVIMUR_MAX_LAKES_BYTES) return 1;
  if (askvimur::lakes(ground, {}).accepted() != list.empty()) return 1;
  if (!list.empty() && askvimur::lakes(ground, std::span(list).first(list.size() - 1)).number() != ASKVIMUR_NO_ROOM) return 1;
  list.push_back(0);  // not lent: an empty list may have no address
  if (askvimur_lake_count(askvimur_lakes(ground.data(), ground.size(), list.data(), list.size() - 1)) != lakes.size()) return 1;
  std::printf("lakes %zu\n", lakes.size());
  for (std::size_t at = 0; at < lakes.size(); ++at) {
    const askvimur::Lake lake = lakes[at];
    if (!read_alike(lake, list, at)) {
      std::fprintf(stderr, "lake %zu\n", at);
      return 1;
    }
    std::printf("%" PRId32 " %u %" PRIu64 " %u\n", lake.level, static_cast<unsigned>(lake.cells), lake.volume,
                static_cast<unsigned>(lake.least));
  }
}
