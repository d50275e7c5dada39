// The stack that a C call takes, on every tile of the standard input, which bench's program `tiles` writes.
// Prints the greatest figure of each family and of all; the exit status is 1 if it is above the bound.
// With --self-check the measure itself is tried, on functions that take a known number of bytes.
// usage: call network|carve_8|carve_4|sheet_8|sheet_4|lakes BOUND, or call --self-check BOUND (in bytes)
#include <algorithm>
#include <cstdint>
#include <cstdio>
#include <cstdlib>
#include <iostream>
#include <iterator>
#include <map>
#include <string>
#include <vector>

#include "askvimur.h"
#include "askvimur_service.h"
#include "painted.hpp"

namespace {

struct Tile {
    std::string name;  // the family and a number
    std::vector<std::uint8_t> record;

    std::string family() const { return name.substr(0, name.rfind(' ')); }
};

// The next tile of the input. False at its end.
bool read(std::istream& in, Tile& tile) {
    std::uint8_t length[4];
    if (!std::getline(in, tile.name)) return false;
    if (!in.read(reinterpret_cast<char*>(length), sizeof length)) painted::give_up("half a tile");
    tile.record.resize(askvimur_u32(length));
    const auto rest = static_cast<std::streamsize>(tile.record.size());
    if (!in.read(reinterpret_cast<char*>(tile.record.data()), rest)) painted::give_up("half a tile");
    return true;
}

// The call that is told the neighbours and the manner.
template <std::uint32_t neighbours, std::uint32_t manner>
std::uint32_t network_by(const std::uint8_t* ground, std::size_t ground_len, std::uint8_t* room, std::size_t room_len) {
    return askvimur_network_by(neighbours, manner, ground, ground_len, room, room_len);
}

// One of the calls.
struct Call {
    std::string name;
    std::uint32_t (*run)(const std::uint8_t*, std::size_t, std::uint8_t*, std::size_t);
    std::uint32_t refusal;  // the one number that a sound tile may be refused with, 0 for none
};

constexpr std::uint32_t too_deep = 10;
const Call calls[] = {{"network", askvimur_network, 0},
                      {"carve_8", network_by<8, ASKVIMUR_CARVE>, 0},
                      {"carve_4", network_by<4, ASKVIMUR_CARVE>, 0},
                      {"sheet_8", network_by<8, ASKVIMUR_SHEET>, 0},
                      {"sheet_4", network_by<4, ASKVIMUR_SHEET>, 0},
                      {"lakes", askvimur_lakes, too_deep}};

std::size_t bytes_of_call(const Call& call, const Tile& tile) {
    static std::uint8_t room[65536];  // enough for any network record and for any list of lakes
    std::uint32_t answer = 0;
    const std::size_t bytes =
        painted::bytes_taken([&] { answer = call.run(tile.record.data(), tile.record.size(), room, sizeof room); });
    const std::uint32_t number = askvimur_number(answer);
    if (number != ASKVIMUR_ACCEPTED && number != call.refusal) painted::give_up("a tile is refused");
    return bytes;
}

// The greatest figure, and the tile that it is from.
struct Greatest {
    std::size_t bytes = 0;
    std::string tile;

    void take(std::size_t more, const std::string& name) {
        if (more > bytes) *this = {more, name};
    }
};

Greatest measure(const Call& call, std::istream& in) {
    Greatest all;
    std::map<std::string, Greatest> families;
    for (Tile tile; read(in, tile);) {
        const std::size_t bytes = bytes_of_call(call, tile);
        families[tile.family()].take(bytes, tile.name);
        all.take(bytes, tile.name);
    }
    for (const auto& [family, greatest] : families) std::printf("%-20s%8zu bytes\n", family.c_str(), greatest.bytes);
    return all;
}

bool above(std::size_t bytes, std::size_t bound) { return bytes > bound; }

// A function that takes a little more than so many bytes.
template <std::size_t size>
[[gnu::noinline]] void take() {
    std::uint8_t list[size];
    for (volatile std::uint8_t& byte : list) byte = 0;
}

template <std::size_t size>
bool seen_as_it_is(std::size_t bound, bool is_above) {
    const std::size_t bytes = painted::bytes_taken([] { take<size>(); });
    std::printf("a function with a list of %zu bytes is seen to take %zu\n", size, bytes);
    return size <= bytes && bytes < size + 512 && above(bytes, bound) == is_above;
}

}  // namespace

int main(int count, char** words) {
    const std::string what = count == 3 ? words[1] : "";
    const std::size_t bound = count == 3 ? std::strtoul(words[2], nullptr, 10) : 0;
    if (what == "--self-check") return seen_as_it_is<100 * 1024>(bound, false) && seen_as_it_is<200 * 1024>(bound, true) ? 0 : 1;
    const auto call = std::ranges::find(calls, what, &Call::name);
    if (call == std::end(calls) || bound == 0)
        painted::give_up("usage: call network|carve_8|carve_4|sheet_8|sheet_4|lakes|--self-check BOUND");
    const Greatest greatest = measure(*call, std::cin);
    std::printf("the call takes at most %zu bytes (%.1f KB) of stack, on %s; the bound is %zu\n", greatest.bytes,
                static_cast<double>(greatest.bytes) / 1024, greatest.tile.c_str(), bound);
    return greatest.bytes == 0 || above(greatest.bytes, bound) ? 1 : 0;
}
