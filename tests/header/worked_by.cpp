// Makes the worked examples of `askvimur_network_by` (tests/vectors/README.md has their form) by the header, in C and over spans: the answer
// and every byte of the room must be as the line says, and the ground as it was. A line that isn't done so is named on standard error.
// usage: worked_by FILE
#include <algorithm>
#include <cstdio>
#include <fstream>
#include <sstream>
#include <string>
#include <vector>

#include "askvimur_service.h"

using Bytes = std::vector<std::uint8_t>;

struct Example {
  std::uint32_t neighbours = 0, manner = 0, answer = 0;
  std::size_t room = 0;
  Bytes ground, network;
};

// Two digits a byte, or '-' for none.
static Bytes bytes_of(const std::string &word) {
  Bytes bytes;
  if (word == "-") return bytes;
  for (std::size_t at = 0; at + 1 < word.size(); at += 2)
    bytes.push_back(static_cast<std::uint8_t>(std::stoul(word.substr(at, 2), nullptr, 16)));
  return bytes;
}

// False for a line that has another form.
static bool read(const std::string &line, Example &example) {
  std::istringstream words(line);
  std::string cell, height, input, season, output;
  words >> example.neighbours >> example.manner >> cell >> height >> example.room >> example.answer >> input >> season >> output;
  if (!words) return false;
  example.ground = bytes_of(input);
  example.network = bytes_of(output);
  return example.network.size() == askvimur_length(example.answer) && example.network.size() <= example.room;
}

static bool holds(const Example &example) {
  const Bytes lent(example.room, 0xA5);
  Bytes wanted = lent;
  std::ranges::copy(example.network, wanted.begin());
  Bytes ground = example.ground, room = lent;
  const auto answer = askvimur::network_by(example.neighbours, example.manner, ground, room);
  if (answer.number() != askvimur_number(example.answer) || answer.place() != askvimur_place(example.answer)) return false;
  if (answer.length() != example.network.size() || ground != example.ground || room != wanted) return false;
  // for C both have an address, even where they are empty
  ground.push_back(0);
  room = lent;
  room.push_back(0xA5);
  wanted.push_back(0xA5);
  const auto number =
      askvimur_network_by(example.neighbours, example.manner, ground.data(), example.ground.size(), room.data(), example.room);
  return number == example.answer && room == wanted;
}

int main(int count, char **words) {
  if (count != 2) return 2;
  std::ifstream file(words[1]);
  int lines = 0, wrong = 0;
  for (std::string line; std::getline(file, line);) {
    Example example;
    ++lines;
    if (read(line, example) && holds(example)) continue;
    std::fprintf(stderr, "line %d\n", lines);
    ++wrong;
  }
  std::printf("%d examples, %d wrong\n", lines, wrong);
}
