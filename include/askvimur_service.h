/* Askvimur for the service and for designers' tools: what document 02 adds to the console's call (askvimur.h).
 *
 * Compiles as C99 and later and as C++; the C++ wrapper at its end is there from C++20 on. Link with libaskvimur_service.a, which
 * `rt lib` in crates/askvimur_service writes to out/; it needs no other library, and of what others define only memcpy and memset. A program
 * may link libaskvimur.a too, or either alone.
 *
 *   askvimur_network_by   the network of a ground record, over 4 or 8 neighbours (W-203), carved or as a sheet (W-205)
 *   askvimur_lakes        its lakes (W-202), over 4
 *
 * WHAT IS PROMISED, AND BY WHOM
 *   Proved    For every ground record, every count of neighbours, every manner and every length of the room: the answer, and every byte
 *             of the room afterwards, are those of the rules, ties included. A refusal alters no byte. Bytes past the network record or
 *             past the last lake stay as they were. No read or write outside the record and the room, no overflow, and each call always
 *             returns.
 *   Tested    That the compiled calls do what was proved: they are compared, byte for byte, with a second program in Rust. That nothing in
 *             them calls itself but the listing of a lake's lakes, at most 65 calls deep; how much stack and how much time they take. The
 *             functions that this header defines are plain C and C++: what they read of the sample tiles is compared with stored texts.
 *   Assumed   What the caller owes, below. Nothing can check it from inside a call.
 *
 * WHAT THE CALLER OWES
 *   - no pointer is null, not even where the length is 0 (an empty std::vector may have a null data(); the C++ wrapper below takes care
 *     of that);
 *   - ground points to ground_len readable bytes, network and lakes to network_len and lakes_len writable ones;
 *   - what is lent to a call does not overlap.
 *   No pointer needs any alignment. The calls keep no state: threads may make them at the same time on different rooms. They use no heap.
 *   Of stack askvimur_network_by takes at most 176 KB: at most 173.1 KB were measured (177,216 bytes). askvimur_lakes takes at most 256 KB:
 *   at most 240.4 KB were measured (246,136 bytes).
 *
 * The ground record, its sizes and its refusals are those of askvimur.h, which this header includes. An accepted one has 23 to 28,688
 * bytes (ASKVIMUR_MAX_GROUND_BYTES).
 */
#ifndef ASKVIMUR_SERVICE_H
#define ASKVIMUR_SERVICE_H

#include "askvimur.h"

/* ---- the network over 4 or 8 neighbours (W-203), carved or as a sheet (W-205) ------------------------------------------------------
 *
 * With 4 neighbours, those that share a side with a cell, and carved, the network is that of askvimur_network, byte for byte. With 8 the
 * cells that touch it at a corner are its neighbours too, and water may run on the diagonal. Which of the lower neighbours it runs to goes
 * by steepness: a diagonal drop b is steeper than a straight drop a exactly when b times b is greater than twice a times a, and of equally
 * steep ones the least cell number is taken.
 *
 * Carving leads the water of a level plain through one trench. As a sheet it runs side by side. A cell that isn't an outlet drains to its
 * neighbour of lowest water level, where that is lower than its own. Where none is lower, it drains through neighbours of its own level,
 * by the fewest steps, to an outlet or to a cell that has a neighbour of lower level. Of several neighbours that would do the least cell
 * number is taken. Levels, basins and wet are the same in both manners; receivers, order and drainage differ.
 *
 * The record has the same form and the same length for all, and askvimur_receiver to askvimur_wet read it. It doesn't say for how many
 * neighbours or in which manner it was made.
 */

/* The manners that can be asked for. */
#define ASKVIMUR_CARVE 1u /* rivers that are carved, as those of askvimur_network */
#define ASKVIMUR_SHEET 2u /* sheet flow, for marshes */

/* Why a network over the neighbours and in the manner asked for is refused, in this order, before all the refusals of askvimur.h. Both
 * numbers are judged as whole 32-bit numbers: 65,540 neighbours are not 4. */
enum askvimur_network_by_refusal {
  ASKVIMUR_BAD_NEIGHBOURS = 11, /* neighbours is neither 4 nor 8 */
  ASKVIMUR_BAD_MANNER = 12      /* manner is neither 1, ASKVIMUR_CARVE, nor 2, ASKVIMUR_SHEET */
};

#ifdef __cplusplus
extern "C" {
#endif

/* Works out the network of a ground record over 4 or 8 neighbours, carved or as a sheet, and writes its record from the room's start on. A
 * room of ASKVIMUR_MAX_NETWORK_BYTES is always long enough; a tile of N cells needs ASKVIMUR_NETWORK_BYTES(N). The answer is the length
 * written, 43 to 61,468, or, for a refusal, its number times 65,536 plus its place: the two never meet. */
uint32_t askvimur_network_by(uint32_t neighbours, uint32_t manner, const uint8_t *ground, size_t ground_len, uint8_t *network,
                             size_t network_len);

#ifdef __cplusplus
}
#endif

/* What the number of a refusal of askvimur_network_by says, in words; askvimur_number, askvimur_place and askvimur_length read the
 * answer. */
static inline const char *askvimur_network_by_reason(uint32_t number) {
  switch (number) {
    case ASKVIMUR_BAD_NEIGHBOURS: return "the count of neighbours is neither 4 nor 8";
    case ASKVIMUR_BAD_MANNER: return "the manner is neither 1 (carve) nor 2 (sheet)";
    default: return askvimur_reason(number);
  }
}

/* ---- lakes (W-202) -------------------------------------------------------------------------------------------------------------
 *
 * A lake is a largest group of wet cells joined through neighbours, all at one level. Lowered to the greatest height h at which its
 * cells lower than h form two or more groups, it stands in smaller lakes at level h, one for each group, and these in smaller ones again.
 * A lake is listed after all the lakes inside it, smaller least cell first; so an outermost lake stands last of its own.
 */

#define ASKVIMUR_LAKE_BYTES 16u            /* a lake: level (4, signed), number of cells (2), least cell (2), volume (8) */
#define ASKVIMUR_MAX_LAKES 4096u           /* a tile has no more lakes than cells */
#define ASKVIMUR_MAX_LAKES_BYTES 65536u    /* a room of this size is always long enough */
#define ASKVIMUR_MAX_DEPTH 64u             /* so many lakes at most lie one inside the other, the outermost included */

/* Why lakes are refused, besides the refusals of askvimur.h, which come first but for ASKVIMUR_NO_ROOM: that is judged last of all, and
 * says that the room has fewer whole lakes than the tile. */
enum askvimur_lakes_refusal {
  ASKVIMUR_TOO_DEEP = 10 /* an outermost lake is of depth above 64; the place is the least cell of the first such lake */
};

#ifdef __cplusplus
extern "C" {
#endif

/* Lists the lakes of a ground record, 16 bytes for each, from the room's start on. The answer is the number of lakes, 0 to 4,096, or, for
 * a refusal, its number times 65,536 plus its place: the two never meet. */
uint32_t askvimur_lakes(const uint8_t *ground, size_t ground_len, uint8_t *lakes, size_t lakes_len);

#ifdef __cplusplus
}
#endif

/* The number of lakes listed, 0 for a refusal; askvimur_number and askvimur_place read the rest of the answer. */
static inline uint32_t askvimur_lake_count(uint32_t answer) { return answer >> 16 ? 0u : answer; }

/* What the number of a refusal of askvimur_lakes says, in words. */
static inline const char *askvimur_lakes_reason(uint32_t number) {
  switch (number) {
    case ASKVIMUR_TOO_DEEP: return "an outermost lake is of depth above 64";
    case ASKVIMUR_NO_ROOM: return "the room is too short for the lakes";
    default: return askvimur_reason(number);
  }
}

/* Lake i of a list, below the number of lakes: its level in 1/256 metre. */
static inline int32_t askvimur_lake_level(const uint8_t *lakes, size_t i) { return askvimur_i32(lakes + 16 * i); }

/* How many cells it has. */
static inline uint16_t askvimur_lake_cells(const uint8_t *lakes, size_t i) { return askvimur_u16(lakes + 16 * i + 4); }

/* The least cell in it. */
static inline uint16_t askvimur_lake_least(const uint8_t *lakes, size_t i) { return askvimur_u16(lakes + 16 * i + 6); }

/* Its volume: the sum of level minus height over its cells, in cells times 1/256 metre. */
static inline uint64_t askvimur_lake_volume(const uint8_t *lakes, size_t i) {
  return (uint64_t)askvimur_u32(lakes + 16 * i + 8) | (uint64_t)askvimur_u32(lakes + 16 * i + 12) << 32;
}

/* ---- C++ ---------------------------------------------------------------------------------------------------------------------- */

#if defined(__cplusplus) && __cplusplus >= 202002L

namespace askvimur {

/* The answer of a call that is told the neighbours and the manner. */
class NetworkByAnswer {
 public:
  explicit NetworkByAnswer(std::uint32_t answer) : answer_(answer) {}
  bool accepted() const { return askvimur_number(answer_) == 0; }
  std::uint32_t number() const { return askvimur_number(answer_); }
  std::uint32_t place() const { return askvimur_place(answer_); }
  std::size_t length() const { return askvimur_length(answer_); }
  const char *reason() const { return askvimur_network_by_reason(askvimur_number(answer_)); }

 private:
  std::uint32_t answer_;
};

/* The call over spans. A span may be empty; the two must not overlap. */
inline NetworkByAnswer network_by(std::uint32_t neighbours, std::uint32_t manner, std::span<const std::uint8_t> ground,
                                  std::span<std::uint8_t> record) {
  /* an empty span may have a null pointer, which the call must not be handed */
  static constexpr std::uint8_t none = 0;
  std::uint8_t spare = 0;
  return NetworkByAnswer(askvimur_network_by(neighbours, manner, ground.empty() ? &none : ground.data(), ground.size(),
                                             record.empty() ? &spare : record.data(), record.size()));
}

/* An accepted tile's network over the neighbours and in the manner asked for: owns its record, and reads it as Network does. */
class NetworkBy : public NetworkRecord {
 public:
  /* Works out the network of a ground record. Ask answer().accepted() before anything else. */
  NetworkBy(std::uint32_t neighbours, std::uint32_t manner, std::span<const std::uint8_t> ground)
      : answer_(askvimur::network_by(neighbours, manner, ground, room())) {
    keep(answer_.length());
  }
  const NetworkByAnswer &answer() const { return answer_; }

 private:
  NetworkByAnswer answer_;
};

/* One lake. */
struct Lake {
  std::int32_t level;     /* in 1/256 metre */
  std::uint16_t cells;    /* how many it has */
  std::uint16_t least;    /* the least cell in it */
  std::uint64_t volume;   /* the sum of level minus height */
};

/* The answer of a call that lists lakes. */
class LakesAnswer {
 public:
  explicit LakesAnswer(std::uint32_t answer) : answer_(answer) {}
  bool accepted() const { return askvimur_number(answer_) == 0; }
  std::uint32_t number() const { return askvimur_number(answer_); }
  std::uint32_t place() const { return askvimur_place(answer_); }
  std::size_t count() const { return askvimur_lake_count(answer_); }
  const char *reason() const { return askvimur_lakes_reason(askvimur_number(answer_)); }

 private:
  std::uint32_t answer_;
};

/* The call over spans. A span may be empty; the two must not overlap. */
inline LakesAnswer lakes(std::span<const std::uint8_t> ground, std::span<std::uint8_t> room) {
  /* an empty span may have a null pointer, which the call must not be handed */
  static constexpr std::uint8_t none = 0;
  std::uint8_t spare = 0;
  return LakesAnswer(askvimur_lakes(ground.empty() ? &none : ground.data(), ground.size(), room.empty() ? &spare : room.data(), room.size()));
}

/* The lakes of a tile: owns their bytes, and reads them one by one. */
class Lakes {
 public:
  /* Lists the lakes of a ground record. Ask answer().accepted() before anything else. */
  explicit Lakes(std::span<const std::uint8_t> ground) : bytes_(ASKVIMUR_MAX_LAKES_BYTES), answer_(askvimur::lakes(ground, bytes_)) {
    bytes_.resize(ASKVIMUR_LAKE_BYTES * answer_.count());
  }
  const LakesAnswer &answer() const { return answer_; }
  std::size_t size() const { return answer_.count(); }
  Lake operator[](std::size_t i) const {
    const std::uint8_t *list = bytes_.data();
    return Lake{askvimur_lake_level(list, i), askvimur_lake_cells(list, i), askvimur_lake_least(list, i), askvimur_lake_volume(list, i)};
  }

 private:
  std::vector<std::uint8_t> bytes_;
  LakesAnswer answer_;
};

}  // namespace askvimur
#endif

#endif
