/* Askvimur: where water runs on a tile. One call, from a ground record to its network record.
 *
 * Compiles as C99 and later and as C++; the C++ wrapper at its end is there from C++20 on. Link with libaskvimur.a, which
 * `rt lib` in crates/askvimur writes to out/; it needs no other library, and of what others define only memcpy and memset.
 *
 * WHAT IS PROMISED, AND BY WHOM
 *   Proved    For every ground record and every length of the network record: the answer, and every byte of the network record
 *             afterwards, are those of the rules, ties included. A refusal alters no byte. Bytes past the record stay as they were.
 *             No read or write outside the two records, no overflow, and the call always returns.
 *   Tested    That the compiled call does what was proved: it is compared, byte for byte, with a second program in Rust. That nothing
 *             in it calls itself, and how much stack it takes. The functions that this header defines are plain C and
 *             C++: what they read of the sample tiles is compared with the text of `drain`, and wet with level and height.
 *   Assumed   What the caller owes, below. Nothing can check it from inside the call.
 *
 * THE GROUND RECORD
 *   7N + 16 bytes, little-endian, no gaps. N is width times height, and a cell's number is row times width plus column, from 0.
 *   heights   4 bytes each, signed, in 1/256 metre, -8,000,000 to 8,000,000
 *   marks     1 byte each: 1 for an outlet, 0 for any other cell; at least one cell is an outlet
 *   water     2 bytes each
 *   trailer   width (2), height (2), then 7N, 3N and 2N (4 each): how far before the trailer heights, marks and water start
 *
 * WHAT THE CALLER OWES
 *   - ground and network are not null, not even where the length is 0 (an empty std::vector may have a null data(); the C++ wrapper
 *     below takes care of that);
 *   - ground points to ground_len readable bytes, network to network_len writable ones;
 *   - the two do not overlap.
 *   Records need no alignment. The call keeps no state: threads may call it at the same time on different network records.
 *   It uses no heap, and at most 112 KB of stack: 96.4 KB were measured, the same on every tile (98,664 bytes).
 */
#ifndef ASKVIMUR_H
#define ASKVIMUR_H

#include <stddef.h>
#include <stdint.h>

/* ---- sizes ---------------------------------------------------------------------------------------------------------------- */

#define ASKVIMUR_MAX_SIDE 64u              /* width and height are 1 to 64 */
#define ASKVIMUR_MAX_CELLS 4096u           /* N, width times height */
#define ASKVIMUR_MAX_HEIGHT 8000000        /* heights are -8,000,000 to 8,000,000, in 1/256 metre */
#define ASKVIMUR_GROUND_TRAILER 16u        /* bytes behind the sections of a ground record */
#define ASKVIMUR_NETWORK_TRAILER 28u       /* and of a network record */
#define ASKVIMUR_GROUND_BYTES(cells) (7u * (cells) + ASKVIMUR_GROUND_TRAILER)
#define ASKVIMUR_NETWORK_BYTES(cells) (15u * (cells) + ASKVIMUR_NETWORK_TRAILER)
#define ASKVIMUR_MAX_GROUND_BYTES 28688u   /* the largest ground record */
#define ASKVIMUR_MAX_NETWORK_BYTES 61468u  /* the largest network record: a buffer of this size is always long enough */

/* ---- the call ------------------------------------------------------------------------------------------------------------- */

/* Why a ground is refused, in the order in which the call judges; a record under 16 bytes is ASKVIMUR_BAD_LENGTH first of all. */
enum askvimur_refusal {
  ASKVIMUR_ACCEPTED = 0,
  ASKVIMUR_BAD_SIZE = 1,     /* width or height is 0 or above 64 */
  ASKVIMUR_BAD_LENGTH = 2,   /* the ground record is under 16 bytes, or not 7N + 16 */
  ASKVIMUR_BAD_DISTANCE = 7, /* a distance in its trailer is wrong */
  ASKVIMUR_NO_ROOM = 3,      /* the network record is shorter than 15N + 28 */
  ASKVIMUR_BAD_HEIGHT = 4,   /* a height is out of range; the place is the first such cell */
  ASKVIMUR_BAD_MARK = 5,     /* a mark is neither 0 nor 1; the place is the first such cell */
  ASKVIMUR_NO_OUTLET = 6     /* no cell is marked as an outlet */
};

#ifdef __cplusplus
extern "C" {
#endif

/* Works out the network of a ground record and writes its record. The answer is the length written, 43 to 61,468, or, for a refused
 * ground, the refusal's number times 65,536 plus its place: the two never meet. */
uint32_t askvimur_network(const uint8_t *ground, size_t ground_len, uint8_t *network, size_t network_len);

#ifdef __cplusplus
}
#endif

/* ---- reading the answer ----------------------------------------------------------------------------------------------------- */

/* The refusal's number, ASKVIMUR_ACCEPTED for an accepted ground. */
static inline uint32_t askvimur_number(uint32_t answer) { return answer >> 16; }

/* The refusal's place: a cell for a bad height or mark, 0 for every other refusal. */
static inline uint32_t askvimur_place(uint32_t answer) { return answer >> 16 ? answer & 0xFFFFu : 0u; }

/* The length written, 0 for a refused ground. */
static inline uint32_t askvimur_length(uint32_t answer) { return answer >> 16 ? 0u : answer; }

/* What the number says, in words. */
static inline const char *askvimur_reason(uint32_t number) {
  switch (number) {
    case ASKVIMUR_ACCEPTED: return "accepted";
    case ASKVIMUR_BAD_SIZE: return "width or height is 0 or above 64";
    case ASKVIMUR_BAD_LENGTH: return "the ground record is under 16 bytes, or not 7N + 16";
    case ASKVIMUR_NO_ROOM: return "the network record is too short";
    case ASKVIMUR_BAD_HEIGHT: return "a height is out of range";
    case ASKVIMUR_BAD_MARK: return "a mark is neither 0 nor 1";
    case ASKVIMUR_NO_OUTLET: return "no cell is an outlet";
    case ASKVIMUR_BAD_DISTANCE: return "a distance in the trailer is wrong";
    default: return "no number of this library";
  }
}

/* ---- reading a network record ------------------------------------------------------------------------------------------------
 *
 * Little-endian, no gaps: receivers (2 bytes each), basins (2), order (2), levels (4, signed), drainage (4), wet (1), then width (2),
 * height (2) and six distances (4 each) back from the trailer's first byte to the first byte of each section. Levels start at byte 6N
 * and drainage at byte 10N, which need not be a multiple of 4: never cast a pointer into the record, read bytes as below.
 * `cells` is N of the accepted tile, and `cell` and `place` are below it.
 */

static inline uint16_t askvimur_u16(const uint8_t *at) { return (uint16_t)(at[0] | at[1] << 8); }

static inline uint32_t askvimur_u32(const uint8_t *at) {
  return (uint32_t)at[0] | (uint32_t)at[1] << 8 | (uint32_t)at[2] << 16 | (uint32_t)at[3] << 24;
}

static inline int32_t askvimur_i32(const uint8_t *at) {
  const uint32_t bits = askvimur_u32(at);
  return bits < 0x80000000u ? (int32_t)bits : -1 - (int32_t)(0xFFFFFFFFu - bits);
}

/* The cell that a cell drains to; an outlet's is its own number. */
static inline uint16_t askvimur_receiver(const uint8_t *network, size_t cells, size_t cell) {
  (void)cells;
  return askvimur_u16(network + 2 * cell);
}

/* The number of a cell's basin. */
static inline uint16_t askvimur_basin(const uint8_t *network, size_t cells, size_t cell) {
  return askvimur_u16(network + 2 * cells + 2 * cell);
}

/* The cell at a place of the order: each cell stands after its receiver. */
static inline uint16_t askvimur_in_order(const uint8_t *network, size_t cells, size_t place) {
  return askvimur_u16(network + 4 * cells + 2 * place);
}

/* A cell's water level in 1/256 metre. */
static inline int32_t askvimur_level(const uint8_t *network, size_t cells, size_t cell) {
  return askvimur_i32(network + 6 * cells + 4 * cell);
}

/* The water of all cells that drain through a cell, itself included. */
static inline uint32_t askvimur_drainage(const uint8_t *network, size_t cells, size_t cell) {
  return askvimur_u32(network + 10 * cells + 4 * cell);
}

/* 1 for a wet cell, one whose level is greater than its height in the ground record; 0 for any other. An outlet is never wet, nor is
 * level ground whose water runs off without a climb. Records stored before W-201 called such ground wet: work them out anew. */
static inline uint8_t askvimur_wet(const uint8_t *network, size_t cells, size_t cell) { return network[14 * cells + cell]; }

/* ---- C++ ---------------------------------------------------------------------------------------------------------------------- */

#if defined(__cplusplus) && __cplusplus >= 202002L
#include <cstdint>
#include <span>
#include <vector>

namespace askvimur {

enum class Refusal : std::uint32_t {
  accepted = ASKVIMUR_ACCEPTED,
  bad_size = ASKVIMUR_BAD_SIZE,
  bad_length = ASKVIMUR_BAD_LENGTH,
  no_room = ASKVIMUR_NO_ROOM,
  bad_height = ASKVIMUR_BAD_HEIGHT,
  bad_mark = ASKVIMUR_BAD_MARK,
  no_outlet = ASKVIMUR_NO_OUTLET,
  bad_distance = ASKVIMUR_BAD_DISTANCE
};

/* The answer of a call. */
class Answer {
 public:
  explicit Answer(std::uint32_t answer) : answer_(answer) {}
  bool accepted() const { return askvimur_number(answer_) == 0; }
  Refusal refusal() const { return static_cast<Refusal>(askvimur_number(answer_)); }
  std::uint32_t number() const { return askvimur_number(answer_); }
  std::uint32_t place() const { return askvimur_place(answer_); }
  std::size_t length() const { return askvimur_length(answer_); }
  const char *reason() const { return askvimur_reason(askvimur_number(answer_)); }

 private:
  std::uint32_t answer_;
};

/* The call over spans. A span may be empty; the two must not overlap. */
inline Answer network(std::span<const std::uint8_t> ground, std::span<std::uint8_t> record) {
  /* an empty span may have a null pointer, which the call must not be handed */
  static constexpr std::uint8_t none = 0;
  std::uint8_t spare = 0;
  return Answer(askvimur_network(ground.empty() ? &none : ground.data(), ground.size(),
                                 record.empty() ? &spare : record.data(), record.size()));
}

/* A network record that is owned, and read cell by cell. It is empty for a refused ground. */
class NetworkRecord {
 public:
  std::span<const std::uint8_t> record() const { return record_; }
  std::size_t width() const { return width_; }
  std::size_t height() const { return height_; }
  std::size_t cells() const { return width_ * height_; }
  std::uint16_t receiver(std::size_t cell) const { return askvimur_receiver(record_.data(), cells(), cell); }
  std::uint16_t basin(std::size_t cell) const { return askvimur_basin(record_.data(), cells(), cell); }
  std::uint16_t in_order(std::size_t place) const { return askvimur_in_order(record_.data(), cells(), place); }
  std::int32_t level(std::size_t cell) const { return askvimur_level(record_.data(), cells(), cell); }
  std::uint32_t drainage(std::size_t cell) const { return askvimur_drainage(record_.data(), cells(), cell); }
  bool wet(std::size_t cell) const { return askvimur_wet(record_.data(), cells(), cell) != 0; }
  bool outlet(std::size_t cell) const { return receiver(cell) == cell; }

 protected:
  /* Room for any record, for a call to write to; then what it wrote is kept, so many bytes. */
  NetworkRecord() : record_(ASKVIMUR_MAX_NETWORK_BYTES) {}
  std::span<std::uint8_t> room() { return record_; }
  void keep(std::size_t length) {
    record_.resize(length);
    if (length == 0) return;
    const std::uint8_t *trailer = record_.data() + length - ASKVIMUR_NETWORK_TRAILER;
    width_ = askvimur_u16(trailer);
    height_ = askvimur_u16(trailer + 2);
  }

 private:
  std::vector<std::uint8_t> record_;
  std::size_t width_ = 0;
  std::size_t height_ = 0;
};

/* An accepted tile's network. */
class Network : public NetworkRecord {
 public:
  /* Works out the network of a ground record. Ask answer().accepted() before anything else. */
  explicit Network(std::span<const std::uint8_t> ground) : answer_(askvimur::network(ground, room())) { keep(answer_.length()); }
  const Answer &answer() const { return answer_; }

 private:
  Answer answer_;
};

}  // namespace askvimur
#endif

#endif
