// The C calls behind a pipe, for machines that can't link the libraries: reads calls on standard input, makes each of them, and writes
// what became of it on standard output. The emulator runs this program, and the comparison is at the other end of both pipes.
//
// A call: which one, 0 for the network, 1 for the lakes and 2 for the network over the neighbours and in the manner asked for; how many
// neighbours; which manner; and the lengths of the ground and of the room (4 bytes each, little-endian), then the bytes of both.
// Its outcome: the answer, 1 if every byte that wasn't lent for writing is as it was and 0 if not (4 bytes each), and the bytes of the
// room. The end of the input ends the program.
#include <algorithm>
#include <cstdint>
#include <cstdio>
#include <cstdlib>
#include <iterator>
#include <span>
#include <vector>

#include "askvimur.h"
#include "askvimur_service.h"

namespace {

using Call = std::uint32_t (*)(std::uint32_t, std::uint32_t, const std::uint8_t*, std::size_t, std::uint8_t*, std::size_t);

// A call that isn't told what is asked for.
template <auto call>
std::uint32_t untold(std::uint32_t, std::uint32_t, const std::uint8_t* ground, std::size_t ground_len, std::uint8_t* room,
                     std::size_t room_len) {
    return call(ground, ground_len, room, room_len);
}

constexpr Call calls[] = {untold<askvimur_network>, untold<askvimur_lakes>, askvimur_network_by};

constexpr std::size_t watched = 64;  // bytes on either side of what is lent

// Reads all of `out`. At the end of the input the program ends, and half a call is an error.
void take(std::span<std::uint8_t> out, bool may_end) {
    std::size_t got = std::fread(out.data(), 1, out.size(), stdin);
    if (got == out.size()) return;
    std::exit(may_end && got == 0 ? 0 : 1);
}

void give(std::span<const std::uint8_t> bytes) {
    if (std::fwrite(bytes.data(), 1, bytes.size(), stdout) != bytes.size()) std::exit(1);
}

std::uint32_t number_in(std::span<const std::uint8_t> bytes) {
    std::uint32_t number = 0;
    for (std::size_t at = 4; at-- > 0;) number = number * 256 + bytes[at];
    return number;
}

void give_number(std::uint32_t number) {
    std::uint8_t bytes[4];
    for (auto& byte : bytes) {
        byte = static_cast<std::uint8_t>(number % 256);
        number /= 256;
    }
    give(bytes);
}

// A record amid watched bytes. The turn decides how it is aligned.
struct Lent {
    std::size_t start;
    std::vector<std::uint8_t> bytes;

    Lent(std::size_t length, std::size_t turn) : start(watched + (turn + turn / 8) % 8), bytes(start + length + watched, 0xA5) {}

    std::span<std::uint8_t> record() { return std::span(bytes).subspan(start, bytes.size() - start - watched); }

    bool margins_kept() const {
        auto kept = [](std::uint8_t byte) { return byte == 0xA5; };
        return std::all_of(bytes.begin(), bytes.begin() + static_cast<std::ptrdiff_t>(start), kept) &&
               std::all_of(bytes.end() - static_cast<std::ptrdiff_t>(watched), bytes.end(), kept);
    }
};

}  // namespace

int main() {
    for (std::size_t turn = 0;; ++turn) {
        std::uint8_t head[20];
        take(head, true);
        const std::uint32_t which = number_in(std::span(head).first(4));
        if (which >= std::size(calls)) return 1;
        const std::uint32_t neighbours = number_in(std::span(head).subspan(4, 4));
        const std::uint32_t manner = number_in(std::span(head).subspan(8, 4));
        Lent ground(number_in(std::span(head).subspan(12, 4)), turn);
        Lent room(number_in(std::span(head).last(4)), turn / 8);
        take(ground.record(), false);
        take(room.record(), false);
        const std::vector<std::uint8_t> ground_before = ground.bytes;
        // Watched bytes follow even an empty record, so neither pointer is null.
        const std::uint32_t answer =
            calls[which](neighbours, manner, ground.record().data(), ground.record().size(), room.record().data(), room.record().size());
        give_number(answer);
        give_number(ground.bytes == ground_before && room.margins_kept() ? 1 : 0);
        give(room.record());
        if (std::fflush(stdout) != 0) return 1;
    }
}
