// The library as a C program links it: the bench sheet's cases C7 to C10 and C12, joining, the draws, the window of a latency budget, symbols heard and
// solved, two orders of the same packets, the ADU call's refusals, flows that are announced or not, grids, and blocks, through the header alone; each answer
// and each byte is compared. With the argument `unset` the memory that is lent for an end or its work is left as malloc gives it, so that valgrind tells if a
// call depends on a byte that nobody has set.
#include "rlc8681.h"
#include <stdio.h>
#include <stdlib.h>
#include <string.h>

static int passed, failed;
static void check(int good, const char *what) {
  good ? passed++ : failed++;
  if (!good) printf("failed: %s\n", what);
}

// The call answers this number.
#define SAYS(call, number)                                                                        \
  do {                                                                                            \
    int64_t says = (call);                                                                        \
    check(says == (number), #call " says " #number);                                              \
    if (says != (number)) printf("        but %lld\n", (long long)says);                          \
  } while (0)
// The call answers this value, and these draws beside it.
#define TELLS(call, value, draws)                                                                 \
  do {                                                                                            \
    int64_t told = (call);                                                                        \
    int good = told >= 0 && rlc_value(told) == (value) && rlc_draws(told) == (draws);             \
    check(good, #call " tells " #value ", draws " #draws);                                        \
    if (!good) printf("        but %lld\n", (long long)told);                                     \
  } while (0)
#define BYTES(at, ...)                                                                            \
  do {                                                                                            \
    const uint8_t expected[] = {__VA_ARGS__};                                                     \
    check(memcmp((at), expected, sizeof expected) == 0, "bytes at " #at ": " #__VA_ARGS__);       \
  } while (0)

// The end shows the symbol with an ESI, tells whether it was heard or solved, and it has these bytes, in the memory lent: a receiver, and by its own two
// calls the recovery of a block.
#define SOLVED INT64_C(0)
#define HEARD INT64_C(4294967296)
#define SHOWN_BY(symbol, symbol_place, end, esi, origin, ...)                                     \
  do {                                                                                            \
    SAYS(symbol(LENT(end), esi), origin);                                                         \
    int64_t place = symbol_place(LENT(end), esi);                                                 \
    const size_t length = sizeof((uint8_t[]){__VA_ARGS__});                                       \
    check(place >= 0 && (size_t)place + length <= (end).length, "a symbol lies in the memory");   \
    if (place >= 0) BYTES((end).bytes + place, __VA_ARGS__);                                      \
  } while (0)
#define HIDDEN_BY(symbol, symbol_place, end, esi, refusal)                                        \
  do {                                                                                            \
    SAYS(symbol(LENT(end), esi), -(refusal));                                                     \
    SAYS(symbol_place(LENT(end), esi), -(refusal));                                               \
  } while (0)
#define SHOWS(receiver, esi, ...) SHOWN_BY(rlc_symbol, rlc_symbol_place, receiver, esi, __VA_ARGS__)
#define HIDES(receiver, esi, refusal) HIDDEN_BY(rlc_symbol, rlc_symbol_place, receiver, esi, refusal)
#define RECOVERS(recovery, esi, ...) SHOWN_BY(rlc_block_symbol, rlc_block_symbol_place, recovery, esi, __VA_ARGS__)
#define LACKS(recovery, esi, refusal) HIDDEN_BY(rlc_block_symbol, rlc_block_symbol_place, recovery, esi, refusal)

// The receiver hands out the ADU at an ESI, with its flow and these bytes, and leaves the output past it.
#define HANDS(receiver, esi, flow, ...)                                                           \
  do {                                                                                            \
    struct room out = room(32);                                                                   \
    const size_t length = sizeof((uint8_t[]){__VA_ARGS__});                                       \
    SAYS(rlc_adu(LENT(receiver), esi, LENT(out)), (flow) * INT64_C(65536) + (int64_t)length);     \
    BYTES(out.bytes, __VA_ARGS__);                                                                \
    check(untouched(out, length), "output past the ADU is as it was");                            \
    SAYS(rlc_adu(LENT(receiver), esi, out.bytes, length - 1), -RLC_SHORT);                        \
    free(out.bytes);                                                                              \
  } while (0)
#define WITHHOLDS(receiver, esi, refusal)                                                         \
  do {                                                                                            \
    struct room out = room(32);                                                                   \
    SAYS(rlc_adu(LENT(receiver), esi, LENT(out)), -(refusal));                                    \
    check(untouched(out, 0), "a refusal leaves the output");                                      \
    free(out.bytes);                                                                              \
  } while (0)

// An end's memory or an output, of just the length that is lent, and guarded past it.
#define GUARD 16
struct room {
  size_t length;
  uint8_t *bytes;
};
static struct room room(size_t length) {
  struct room r = {length, malloc(length + GUARD)};
  if (!r.bytes) exit(2);
  memset(r.bytes, 0xa5, length + GUARD);
  return r;
}
static int untouched(struct room r, size_t from) {
  for (size_t i = from; i < r.length + GUARD; i++)
    if (r.bytes[i] != 0xa5) return 0;
  return 1;
}
#define LENT(r) (r).bytes, (r).length

// Memory for an end or its work: filled, or but for the guard as malloc gives it.
static int unset;
static struct room lent(int64_t length) {
  if (!unset) return room((size_t)length);
  struct room r = {(size_t)length, malloc((size_t)length + GUARD)};
  if (!r.bytes) exit(2);
  memset(r.bytes + r.length, 0xa5, GUARD);
  return r;
}
static struct room sender_of(uint32_t size, uint32_t width) { return lent(rlc_sender_memory(size, width)); }
static struct room receiver_of(uint32_t size, uint32_t width) { return lent(rlc_receiver_memory(size, width)); }
static struct room work_of(uint32_t size, uint32_t width) { return lent(rlc_working_memory(size, width)); }

// The bytes that announce every flow, for the ends whose flows are not what is tried.
static uint8_t all[RLC_FLOWS];

static void sizes(void) {
  SAYS(rlc_sender_memory(4, 2), 64 + 2 * 4);
  SAYS(rlc_receiver_memory(4, 2), 96 + 2 * (2 + 4 + 4) + 2);
  SAYS(rlc_working_memory(4, 2), 96 + 3 * (2 + 4 + 4) + 3);
  SAYS(rlc_sender_memory(1500, 255), 64 + 255 * 1500);
  SAYS(rlc_receiver_memory(1500, 255), 96 + 255 * 1759 + 255);
  SAYS(rlc_working_memory(1500, 255), 96 + 256 * 1759 + 256);
  const uint32_t wrong[][2] = {{3, 1}, {1501, 1}, {4, 0}, {4, 256}, {4 + 65536, 1}, {4, 257}, {0xffffffff, 0xffffffff}};
  for (size_t i = 0; i < sizeof wrong / sizeof *wrong; i++) {
    SAYS(rlc_sender_memory(wrong[i][0], wrong[i][1]), -RLC_VALUES);
    SAYS(rlc_receiver_memory(wrong[i][0], wrong[i][1]), -RLC_VALUES);
    SAYS(rlc_working_memory(wrong[i][0], wrong[i][1]), -RLC_VALUES);
  }
}

// The window that a latency budget allows: quotient and remainder, as document 02 has them and at the limits; a refusal leaves the remainder.
static void windows(void) {
  static const struct {
    uint64_t budget, bitrate;
    uint32_t symbol_size;
    int64_t quotient;
    uint64_t remainder;
  } windows[] = {
      {100001, 33600000, 1400, 300, 33600000},
      {85333, 33600000, 1400, 255, UINT64_C(11188800000)},
      {85334, 33600000, 1400, 256, 22400000},
      {1, 1, 4, 0, 1},
      {1, UINT64_C(10000000000), 1500, 0, UINT64_C(10000000000)},
      {10000000, UINT64_C(10000000000), 4, INT64_C(3125000000), 0},
      {10000000, UINT64_C(10000000000), 1500, 8333333, UINT64_C(4000000000)},
  };
  for (size_t i = 0; i < sizeof windows / sizeof *windows; i++) {
    uint64_t remainder = UINT64_MAX;
    SAYS(rlc_dw_max_size(windows[i].budget, windows[i].bitrate, windows[i].symbol_size, &remainder), windows[i].quotient);
    check(remainder == windows[i].remainder, "the remainder of the division");
  }
  static const struct {
    uint64_t budget, bitrate;
    uint32_t symbol_size;
  } outside[] = {
      {0, 33600000, 1400},
      {10000001, 33600000, 1400},
      {UINT64_C(4294967297), 33600000, 1400},
      {UINT64_MAX, 33600000, 1400},
      {100001, 0, 1400},
      {100001, UINT64_C(10000000001), 1400},
      {100001, UINT64_MAX, 1400},
      {100001, 33600000, 3},
      {100001, 33600000, 1501},
      {100001, 33600000, 65536 + 1400},
      {100001, 33600000, UINT32_MAX},
      {0, 0, 0},
  };
  for (size_t i = 0; i < sizeof outside / sizeof *outside; i++) {
    uint64_t remainder = UINT64_C(0xa5a5a5a5a5a5a5a5);
    SAYS(rlc_dw_max_size(outside[i].budget, outside[i].bitrate, outside[i].symbol_size, &remainder), -RLC_VALUES);
    check(remainder == UINT64_C(0xa5a5a5a5a5a5a5a5), "a refusal leaves the remainder");
  }
}

// C7 and C8: two ADUs of one byte, their repair packet, and the second symbol from the first and the repair.
static void seven_and_eight(void) {
  struct room sender = sender_of(4, 2), receiver = receiver_of(4, 2), work = work_of(4, 2);
  struct room one = room(32), two = room(32), repair = room(32), unopened = room(receiver.length);
  const uint8_t a = 0x41, b = 0x42;
  SAYS(rlc_sender_open(LENT(sender), 9, 4, 2, all), 0);
  SAYS(rlc_sender_make_repair(LENT(sender), 1, 15, 1, LENT(repair)), -RLC_EMPTY);
  SAYS(rlc_sender_add_adu(LENT(sender), 1, &a, 1, LENT(one)), 5);
  BYTES(one.bytes, 0x41, 0, 0, 0, 0);
  SAYS(rlc_sender_add_adu(LENT(sender), 1, &b, 1, LENT(two)), 5);
  BYTES(two.bytes, 0x42, 0, 0, 0, 1);
  SAYS(rlc_sender_add_adu(LENT(sender), 1, &b, 1, two.bytes, 4), -RLC_SHORT);

  // Numbers that would be in range if they were cut to 8 or 16 bits.
  const uint32_t wrong[][2] = {{16, 1}, {256, 1}, {271, 1}, {65551, 1}, {15, 0}, {15, 17}, {15, 257}, {15, 65537}, {0xffffffff, 0xffffffff}};
  for (size_t i = 0; i < sizeof wrong / sizeof *wrong; i++)
    SAYS(rlc_sender_make_repair(LENT(sender), 1, wrong[i][0], wrong[i][1], LENT(repair)), -RLC_RANGE);
  SAYS(rlc_sender_make_repair(LENT(sender), 1, 15, 1, repair.bytes, 11), -RLC_SHORT);
  check(untouched(repair, 0), "refusals leave the output");
  SAYS(rlc_sender_make_repair(LENT(sender), 7, 15, 1, LENT(repair)), 12);
  BYTES(repair.bytes, 0, 0, 0xf0, 2, 0, 0, 0, 0, 0, 0, 0, 3);
  check(untouched(one, 5) && untouched(two, 5) && untouched(repair, 12), "output past the packet is as it was");
  check(untouched(sender, sender.length), "the sender stays in its memory");

  SAYS(rlc_receive_source(LENT(unopened), LENT(work), 1, one.bytes, 5), -RLC_UNOPENED);
  SAYS(rlc_receiver_open(LENT(receiver), 9, 3, 2, all), -RLC_VALUES);
  SAYS(rlc_receiver_open(LENT(receiver), 65545, 4, 2, all), -RLC_VALUES);
  SAYS(rlc_receiver_open(receiver.bytes, receiver.length - 1, 9, 4, 2, all), -RLC_SHORT);
  SAYS(rlc_receiver_open(LENT(receiver), 9, 4, 2, all), 0);
  HIDES(receiver, 0, RLC_UNKNOWN);
  HIDES(receiver, 0xffffffff, RLC_UNKNOWN);
  WITHHOLDS(receiver, 0, RLC_UNKNOWN);
  WITHHOLDS(receiver, 0xffffffff, RLC_UNKNOWN);
  SAYS(rlc_receive_source(LENT(receiver), work.bytes, work.length - 1, 1, one.bytes, 5), -RLC_SHORT);
  SAYS(rlc_receive_source(LENT(receiver), LENT(work), 1, one.bytes, 3), -RLC_FORM);
  SAYS(rlc_receive_repair(LENT(receiver), LENT(work), repair.bytes, 9), -RLC_FORM);
  SAYS(rlc_receive_source(LENT(receiver), LENT(work), 1, one.bytes, 5), 1);
  SAYS(rlc_receive_repair(LENT(receiver), LENT(work), repair.bytes, 12), 1);
  SHOWS(receiver, 0, HEARD, 1, 0, 1, 0x41);
  SHOWS(receiver, 1, SOLVED, 1, 0, 1, 0x42);
  HIDES(receiver, 2, RLC_UNKNOWN);
  HIDES(receiver, 0xffffffff, RLC_BEHIND);
  HIDES(sender, 0, RLC_UNOPENED);
  HANDS(receiver, 0, 1, 0x41);
  HANDS(receiver, 1, 1, 0x42);
  WITHHOLDS(receiver, 2, RLC_UNKNOWN);
  WITHHOLDS(receiver, 0xffffffff, RLC_BEHIND);
  WITHHOLDS(sender, 0, RLC_UNOPENED);
  one.bytes[0] = 0x43;
  SAYS(rlc_receive_source(LENT(receiver), LENT(work), 1, one.bytes, 5), -RLC_CONTRADICTION);
  check(untouched(receiver, receiver.length) && untouched(work, work.length), "the receiver stays in its memory");
}

// C9: an ADU of 5 bytes fits two symbols of 4, one of 6 does not. It is handed out whole, and so is an empty ADU.
static void nine(void) {
  struct room sender = sender_of(4, 2), out = room(32), receiver = receiver_of(4, 3), work = work_of(4, 3);
  const uint8_t adu[6] = {1, 2, 3, 4, 5, 6};
  SAYS(rlc_sender_open(LENT(sender), 10, 4, 2, all), 0);
  SAYS(rlc_sender_add_adu(LENT(sender), 1, adu, 6, LENT(out)), -RLC_LONG);
  SAYS(rlc_sender_add_adu(LENT(sender), 1, adu, 5, LENT(out)), 9);
  BYTES(out.bytes, 1, 2, 3, 4, 5, 0, 0, 0, 0);
  SAYS(rlc_receiver_open(LENT(receiver), 10, 4, 3, all), 0);
  SAYS(rlc_receive_source(LENT(receiver), LENT(work), 255, out.bytes, 9), 2);
  SHOWS(receiver, 0, HEARD, 255, 0, 5, 1);
  SHOWS(receiver, 1, HEARD, 2, 3, 4, 5);
  HANDS(receiver, 0, 255, 1, 2, 3, 4, 5);
  WITHHOLDS(receiver, 1, RLC_NO_START);
  SAYS(rlc_sender_add_adu(LENT(sender), 0, adu, 0, LENT(out)), 4);
  BYTES(out.bytes, 0, 0, 0, 2);
  SAYS(rlc_receive_source(LENT(receiver), LENT(work), 0, out.bytes, 4), 1);
  SAYS(rlc_adu(LENT(receiver), 2, out.bytes, 0), 0);
}

// Writes an ESI at the end of a source packet or in a repair packet.
static void number(uint8_t *at, uint32_t esi) {
  for (int i = 0; i < 4; i++) at[i] = (uint8_t)(esi >> (24 - 8 * i));
}

// C10, after a packet at ESI 0 and after one at any other: the first packet that is accepted sets the base. Before that there is none: no packet is
// behind or ahead, a refused one changes no byte, and no symbol is shown, whatever its ESI.
static void ten(void) {
  struct room work = work_of(4, 2), receiver = room((size_t)rlc_receiver_memory(4, 2)), fresh = room(receiver.length);
  const uint32_t begin[] = {0, 4100000, 0x7fffffff, 0x80000000, 0xfffffffe, 0xffffffff}, half = 0x80000000;
  const struct { uint32_t ahead; int64_t says; } place[] = {
    {65535, 1}, {65536, -RLC_AHEAD}, {half - 1, -RLC_AHEAD}, {half, -RLC_BEHIND}, {0xffffffff, -RLC_BEHIND}};
  uint8_t source[] = {0x41, 0, 0, 0, 0}, unlike[] = {0, 0, 0xf0, 2, 0, 0, 0, 0, 0, 0, 0, 3, 0, 0, 0, 4};
  for (size_t i = 0; i < sizeof begin / sizeof *begin; i++)
    for (size_t k = 0; k < sizeof place / sizeof *place; k++) {
      SAYS(rlc_receiver_open(LENT(receiver), 9, 4, 2, all), 0);
      memcpy(fresh.bytes, receiver.bytes, receiver.length);
      number(unlike + 4, begin[i] + 1000000);
      SAYS(rlc_receive_repair(LENT(receiver), LENT(work), unlike, sizeof unlike), -RLC_CONTRADICTION);
      check(memcmp(fresh.bytes, receiver.bytes, receiver.length) == 0, "a refused packet changes nothing");
      HIDES(receiver, begin[i] + 1000000, RLC_UNKNOWN);
      WITHHOLDS(receiver, begin[i] - 1, RLC_UNKNOWN);
      number(source + 1, begin[i]);
      SAYS(rlc_receive_source(LENT(receiver), LENT(work), 1, source, sizeof source), 1);
      SHOWS(receiver, begin[i], HEARD, 1, 0, 1, 0x41);
      HANDS(receiver, begin[i], 1, 0x41);
      HIDES(receiver, begin[i] - 1, RLC_BEHIND);
      WITHHOLDS(receiver, begin[i] + 1, RLC_UNKNOWN);
      number(source + 1, begin[i] + place[k].ahead);
      SAYS(rlc_receive_source(LENT(receiver), LENT(work), 1, source, sizeof source), place[k].says);
    }
  check(untouched(receiver, receiver.length) && untouched(work, work.length), "the receiver stays in its memory");
}

// C12: what two repair packets say of symbols that have left the window still counts.
static void twelve(void) {
  struct room sender = sender_of(4, 4), receiver = receiver_of(4, 4), work = work_of(4, 4), repair[2], source[6];
  SAYS(rlc_sender_open(LENT(sender), 9, 4, 4, all), 0);
  for (int i = 0; i < 6; i++) {
    const uint8_t adu = 0x41 + i;
    source[i] = room(5);
    SAYS(rlc_sender_add_adu(LENT(sender), 1, &adu, 1, LENT(source[i])), 5);
    BYTES(source[i].bytes, adu, 0, 0, 0, i);
    if (i == 1 || i == 3) {
      struct room *r = &repair[i / 2];
      *r = room(12);
      SAYS(rlc_sender_make_repair(LENT(sender), 0, 15, 1, LENT(*r)), 12);
    }
  }
  BYTES(repair[0].bytes, 0, 0, 0xf0, 2, 0, 0, 0, 0, 0, 0, 0, 3);
  BYTES(repair[1].bytes, 0, 0, 0xf0, 4, 0, 0, 0, 0, 0, 0, 0, 4);
  SAYS(rlc_receiver_open(LENT(receiver), 9, 4, 4, all), 0);
  SAYS(rlc_receive_repair(LENT(receiver), LENT(work), LENT(repair[0])), 0);
  SAYS(rlc_receive_repair(LENT(receiver), LENT(work), LENT(repair[1])), 0);
  SAYS(rlc_receive_source(LENT(receiver), LENT(work), 1, LENT(source[4])), 1);
  SAYS(rlc_receive_source(LENT(receiver), LENT(work), 1, LENT(source[5])), 1);
  HIDES(receiver, 2, RLC_UNKNOWN);
  SAYS(rlc_receive_source(LENT(receiver), LENT(work), 1, LENT(source[3])), 2);
  HIDES(receiver, 1, RLC_BEHIND);
  for (uint8_t esi = 2; esi < 6; esi++) SHOWS(receiver, esi, esi == 2 ? SOLVED : HEARD, 1, 0, 1, 0x41 + esi);
  WITHHOLDS(receiver, 2, RLC_NO_START);
  for (uint8_t esi = 3; esi < 6; esi++) HANDS(receiver, esi, 1, 0x41 + esi);
  check(untouched(sender, sender.length) && untouched(receiver, receiver.length) && untouched(work, work.length), "all stay in their memory");
}

// Key 1, scheme 10, DT 4: the five coefficients 0, 177, 21, 0, 0 take 7 draws at both ends. Two repair symbols take those of both keys, a source packet
// takes none, and neither does scheme 9 at DT 15; a refusal tells none.
static void draws(void) {
  struct room sender = sender_of(4, 5), receiver = receiver_of(4, 5), work = work_of(4, 5), source = room(5), repair = room(12), both = room(16);
  SAYS(rlc_sender_open(LENT(sender), 10, 4, 5, all), 0);
  SAYS(rlc_receiver_open(LENT(receiver), 10, 4, 5, all), 0);
  for (uint8_t i = 0; i < 5; i++) {
    const uint8_t adu = 0x41 + i;
    SAYS(rlc_sender_add_adu(LENT(sender), 1, &adu, 1, LENT(source)), 5);
    if (i <= 1) TELLS(rlc_receive_source(LENT(receiver), LENT(work), 1, LENT(source)), 1, 0);
  }
  SAYS(rlc_sender_make_repair(LENT(sender), 1, 4, 1, LENT(repair)), INT64_C(30064771084));
  TELLS(rlc_sender_make_repair(LENT(sender), 1, 4, 1, LENT(repair)), 12, 7);
  BYTES(repair.bytes, 0, 1, 0x40, 5, 0, 0, 0, 0, 0xa4, 0, 0xa4, 0x32);
  SAYS(rlc_receive_repair(LENT(receiver), LENT(work), LENT(repair)), INT64_C(30064771073));
  SHOWS(receiver, 2, SOLVED, 1, 0, 1, 0x43);
  TELLS(rlc_receive_repair(LENT(receiver), LENT(work), LENT(repair)), 0, 7);
  TELLS(rlc_sender_make_repair(LENT(sender), 1, 4, 2, LENT(both)), 16, 14);
  TELLS(rlc_receive_repair(LENT(receiver), LENT(work), LENT(both)), 1, 14);
  SHOWS(receiver, 4, SOLVED, 1, 0, 1, 0x45);
  repair.bytes[11] ^= 1;
  SAYS(rlc_receive_repair(LENT(receiver), LENT(work), LENT(repair)), -RLC_CONTRADICTION);
  TELLS(INT64_C(297898931650815), 255, 69360);
  check(rlc_value(-RLC_CONTRADICTION) == 0 && rlc_draws(-RLC_CONTRADICTION) == 0, "a refusal has neither value nor draws");
}

// A source packet of one symbol, and a repair packet of scheme 9 over that symbol alone, which solves it.
static int64_t hear(struct room receiver, struct room work, uint32_t esi, uint8_t adu) {
  uint8_t packet[] = {adu, 0, 0, 0, 0};
  number(packet + 1, esi);
  return rlc_receive_source(LENT(receiver), LENT(work), 1, packet, sizeof packet);
}
static int64_t solve(struct room receiver, struct room work, uint32_t esi, uint8_t adu) {
  uint8_t packet[] = {0, 0, 0xf0, 1, 0, 0, 0, 0, 1, 0, 1, adu};
  number(packet + 4, esi);
  return rlc_receive_repair(LENT(receiver), LENT(work), packet, sizeof packet);
}

// A known symbol is heard once its source packet was accepted, before it was solved or after; a refused one counts for nothing.
static void heard_later(uint32_t width) {
  struct room receiver = receiver_of(4, width), work = work_of(4, width);
  SAYS(rlc_receiver_open(LENT(receiver), 9, 4, width, all), 0);
  check(!rlc_heard(rlc_symbol(LENT(receiver), 7)), "no symbol is heard before any packet");
  SAYS(solve(receiver, work, 7, 0x41), 1);
  SHOWS(receiver, 7, SOLVED, 1, 0, 1, 0x41);
  SAYS(hear(receiver, work, 7, 0x42), -RLC_CONTRADICTION);
  SHOWS(receiver, 7, SOLVED, 1, 0, 1, 0x41);
  SAYS(hear(receiver, work, 7, 0x41), 0);
  SHOWS(receiver, 7, HEARD, 1, 0, 1, 0x41);
  SAYS(hear(receiver, work, 7, 0x41), 0);
  SAYS(solve(receiver, work, 7, 0x41), 0);
  SAYS(hear(receiver, work, 7, 0x42), -RLC_CONTRADICTION);
  SHOWS(receiver, 7, HEARD, 1, 0, 1, 0x41);
  check(!rlc_heard(rlc_symbol(LENT(receiver), 6)) && !rlc_heard(rlc_symbol(LENT(receiver), 7 + width)), "none is heard outside the window");
  check(untouched(receiver, receiver.length) && untouched(work, work.length), "the receiver stays in its memory");
}

// The window moves on, by one and by its width and more: what stays in it is heard as before, and what comes into it is not.
static void jumps(uint32_t width) {
  struct room receiver = receiver_of(4, width), work = work_of(4, width);
  const uint32_t ahead[] = {width, 2 * width - 1, 2 * width, 2 * width + 1, 65535};
  uint32_t base = 0xfffffffe;
  SAYS(rlc_receiver_open(LENT(receiver), 9, 4, width, all), 0);
  for (size_t k = 0; k < sizeof ahead / sizeof *ahead; k++) {
    for (uint32_t esi = base; esi != base + width; esi++) SAYS(hear(receiver, work, esi, (uint8_t)esi), k == 0);
    const uint32_t last = base + ahead[k], next = last + 1 - width;
    SAYS(solve(receiver, work, last, (uint8_t)last), 1);
    for (uint32_t esi = next; esi != last + 1; esi++) {
      const int stayed = esi - base < width;
      if (!stayed && esi != last) {
        HIDES(receiver, esi, RLC_UNKNOWN);
        SAYS(solve(receiver, work, esi, (uint8_t)esi), 1);
      }
      SHOWS(receiver, esi, stayed ? HEARD : SOLVED, 1, 0, 1, (uint8_t)esi);
    }
    base = next;
  }
  check(untouched(receiver, receiver.length) && untouched(work, work.length), "the receiver stays in its memory");
}

// A source packet of two symbols, the second of which was solved, and with which a repair packet solves a third: the two are heard, the third is not.
static void heard_in_part(void) {
  struct room receiver = receiver_of(4, 3), work = work_of(4, 3);
  const uint8_t sum[] = {0, 0, 0xf0, 3, 0, 0, 0, 0, 2, 3, 0, 0x47}, second[] = {0, 0, 0xf0, 1, 0, 0, 0, 1, 2, 3, 4, 5};
  const uint8_t two[] = {1, 2, 3, 4, 5, 0, 0, 0, 0}, unlike[] = {1, 2, 3, 4, 6, 0, 0, 0, 0};
  SAYS(rlc_receiver_open(LENT(receiver), 9, 4, 3, all), 0);
  SAYS(rlc_receive_repair(LENT(receiver), LENT(work), sum, sizeof sum), 0);
  SAYS(rlc_receive_repair(LENT(receiver), LENT(work), second, sizeof second), 1);
  SAYS(rlc_receive_source(LENT(receiver), LENT(work), 1, unlike, sizeof unlike), -RLC_CONTRADICTION);
  HIDES(receiver, 0, RLC_UNKNOWN);
  SHOWS(receiver, 1, SOLVED, 2, 3, 4, 5);
  SAYS(rlc_receive_source(LENT(receiver), LENT(work), 1, two, sizeof two), 2);
  SHOWS(receiver, 0, HEARD, 1, 0, 5, 1);
  SHOWS(receiver, 1, HEARD, 2, 3, 4, 5);
  SHOWS(receiver, 2, SOLVED, 1, 0, 1, 0x43);
}

static void heard_or_solved(void) {
  check(rlc_heard(HEARD) == 1 && rlc_value(HEARD) == 0, "heard, and the value is 0");
  check(rlc_heard(SOLVED) == 0 && rlc_value(SOLVED) == 0, "solved, and the value is 0");
  for (int number = RLC_VALUES; number <= RLC_BLOCK; number++) check(rlc_heard(-number) == 0, "a refusal is not heard");
  const uint32_t widths[] = {1, 2, 3, 8};
  for (size_t i = 0; i < sizeof widths / sizeof *widths; i++) {
    heard_later(widths[i]);
    jumps(widths[i]);
  }
  heard_in_part();
}

// A packet of at most 12 bytes: a source packet of flow 1, of 5 bytes, or a repair packet; and what a receiver answers to it.
struct packet {
  size_t length;
  uint8_t bytes[12];
};
static int64_t take(struct room receiver, struct room work, const struct packet *packet) {
  if (packet->length == 5) return rlc_receive_source(LENT(receiver), LENT(work), 1, packet->bytes, 5);
  return rlc_receive_repair(LENT(receiver), LENT(work), packet->bytes, packet->length);
}

// Two receivers show the same: each symbol of the window, one behind it and one past it, at the same place, with the same four bytes.
static void shows_alike(struct room one, struct room two, uint32_t base, uint32_t width) {
  for (uint32_t esi = base - 1; esi != base + width + 1; esi++) {
    SAYS(rlc_symbol(LENT(one), esi), rlc_symbol(LENT(two), esi));
    const int64_t place = rlc_symbol_place(LENT(one), esi);
    SAYS(rlc_symbol_place(LENT(two), esi), place);
    if (place >= 0) check(memcmp(one.bytes + place, two.bytes + place, 4) == 0, "both show the same bytes");
  }
}

// Two receivers that are opened alike and accept the same packets in unlike orders: the packets of C12, of which the counts differ and all else is the same;
// and packets after which a start differs too, since the window of the second had moved on before the start was found.
static void two_orders(void) {
  static const struct packet twelve[] = {{12, {0, 0, 0xf0, 2, 0, 0, 0, 0, 0, 0, 0, 3}}, {12, {0, 0, 0xf0, 4, 0, 0, 0, 0, 0, 0, 0, 4}},
                                         {5, {0x44, 0, 0, 0, 3}}, {5, {0x45, 0, 0, 0, 4}}, {5, {0x46, 0, 0, 0, 5}}};
  static const struct packet starts[] = {{5, {0x41, 0, 0, 0, 0}}, {12, {0, 0, 0xf0, 1, 0, 0, 0, 1, 1, 0, 5, 0x42}},
                                         {12, {0, 0, 0xf0, 1, 0, 0, 0, 2, 0x43, 0x44, 0x45, 0x46}}, {12, {0, 0, 0xf0, 1, 0, 0, 0, 3, 1, 0, 1, 0x47}}};
  const struct { size_t packet; int64_t says; } orders[2][5] = {{{0, 0}, {1, 0}, {3, 1}, {4, 1}, {2, 2}}, {{1, 0}, {2, 1}, {0, 1}, {4, 1}, {3, 1}}};
  const size_t late[2][4] = {{0, 1, 2, 3}, {0, 1, 3, 2}};
  struct room ends[2] = {receiver_of(4, 4), receiver_of(4, 4)}, narrow[2] = {receiver_of(4, 2), receiver_of(4, 2)}, work = work_of(4, 4);
  for (size_t i = 0; i < 2; i++) {
    SAYS(rlc_receiver_open(LENT(ends[i]), 9, 4, 4, all), 0);
    for (size_t k = 0; k < 5; k++) SAYS(take(ends[i], work, &twelve[orders[i][k].packet]), orders[i][k].says);
    for (uint8_t esi = 2; esi < 6; esi++) SHOWS(ends[i], esi, esi == 2 ? SOLVED : HEARD, 1, 0, 1, 0x41 + esi);
    SAYS(rlc_receiver_open(LENT(narrow[i]), 9, 4, 2, all), 0);
    for (size_t k = 0; k < 4; k++) SAYS(take(narrow[i], work, &starts[late[i][k]]), 1);
    SHOWS(narrow[i], 2, SOLVED, 0x43, 0x44, 0x45, 0x46);
    SHOWS(narrow[i], 3, SOLVED, 1, 0, 1, 0x47);
    WITHHOLDS(narrow[i], 2, RLC_NO_START);
  }
  shows_alike(ends[0], ends[1], 2, 4);
  shows_alike(narrow[0], narrow[1], 2, 2);
  HANDS(narrow[0], 3, 1, 0x47);
  WITHHOLDS(narrow[1], 3, RLC_NO_START);
  for (size_t i = 0; i < 2; i++)
    check(untouched(ends[i], ends[i].length) && untouched(narrow[i], narrow[i].length), "the receivers stay in their memory");
}

// The largest repair packet, 16 symbols over a window of 255, in both schemes.
static void many_draws(void) {
  struct room sender = sender_of(4, 255), receiver = receiver_of(4, 255), work = work_of(4, 255), source = room(4), repair = room(8 + 16 * 4);
  for (uint32_t scheme = 9; scheme <= 10; scheme++) {
    SAYS(rlc_sender_open(LENT(sender), scheme, 4, 255, all), 0);
    SAYS(rlc_receiver_open(LENT(receiver), scheme, 4, 255, all), 0);
    for (int i = 0; i < 255; i++) SAYS(rlc_sender_add_adu(LENT(sender), 1, source.bytes, 0, LENT(source)), 4);
    TELLS(rlc_sender_make_repair(LENT(sender), 48229, 14, 16, LENT(repair)), 8 + 16 * 4, scheme == 9 ? 16 * 255 : 7934);
    TELLS(rlc_receive_repair(LENT(receiver), LENT(work), LENT(repair)), 0, scheme == 9 ? 16 * 255 : 7934);
    TELLS(rlc_sender_make_repair(LENT(sender), 48229, 15, 16, LENT(repair)), 8 + 16 * 4, scheme == 9 ? 0 : 4095);
  }
}

// The ADU call's own small examples: a joining repair packet makes a symbol known and no start, until its source packet comes; and at the start that a
// source packet marks after its own, an ADUI of more symbols than the width, and padding that is not zero.
static void thirteen_and_fourteen(void) {
  struct room receiver = receiver_of(4, 2), narrow = receiver_of(4, 1), work = work_of(4, 2);
  const uint8_t second[] = {0, 0, 0xf0, 1, 0, 0, 0, 1, 1, 0, 1, 0x42}, heard[] = {0x42, 0, 0, 0, 1}, empty[] = {0, 0, 0, 0};
  const uint8_t longer[] = {0, 0, 0xf0, 1, 0, 0, 0, 1, 1, 0, 2, 0x41}, padded[] = {0, 0, 0xf0, 1, 0, 0, 0, 1, 1, 0, 0, 7};
  SAYS(rlc_receiver_open(LENT(receiver), 9, 4, 2, all), 0);
  SAYS(rlc_receive_repair(LENT(receiver), LENT(work), second, sizeof second), 1);
  SHOWS(receiver, 1, SOLVED, 1, 0, 1, 0x42);
  WITHHOLDS(receiver, 1, RLC_NO_START);
  WITHHOLDS(receiver, 2, RLC_NO_START);
  SAYS(rlc_receive_source(LENT(receiver), LENT(work), 1, heard, sizeof heard), 0);
  SHOWS(receiver, 1, HEARD, 1, 0, 1, 0x42);
  HANDS(receiver, 1, 1, 0x42);
  WITHHOLDS(receiver, 2, RLC_UNKNOWN);
  SAYS(rlc_receiver_open(LENT(narrow), 9, 4, 1, all), 0);
  SAYS(rlc_receive_source(LENT(narrow), LENT(work), 1, empty, sizeof empty), 1);
  SAYS(rlc_receive_repair(LENT(narrow), LENT(work), longer, sizeof longer), 1);
  WITHHOLDS(narrow, 1, RLC_PADDING);
  SAYS(rlc_receiver_open(LENT(narrow), 9, 4, 1, all), 0);
  SAYS(rlc_receive_source(LENT(narrow), LENT(work), 1, empty, sizeof empty), 1);
  SAYS(rlc_receive_repair(LENT(narrow), LENT(work), padded, sizeof padded), 1);
  WITHHOLDS(narrow, 1, RLC_PADDING);
}

// The two functions that set the bytes of flows: F is bit F mod 8, lowest first, of byte F div 8, and the others stay.
static void announcing(void) {
  const struct { uint8_t flow, byte, bit; } places[] = {{0, 0, 1}, {7, 0, 128}, {8, 1, 1}, {255, 31, 128}};
  struct room flows = room(RLC_FLOWS);
  check(sizeof all == 32, "the flows have 32 bytes");
  for (size_t i = 0; i < sizeof places / sizeof *places; i++)
    for (int others = 0; others < 2; others++) {
      memset(flows.bytes, others ? 0x66 : 0, RLC_FLOWS);
      uint8_t expected[RLC_FLOWS];
      memcpy(expected, flows.bytes, RLC_FLOWS);
      expected[places[i].byte] |= places[i].bit;
      for (int again = 0; again < 2; again++) {
        rlc_announce(flows.bytes, places[i].flow);
        check(memcmp(flows.bytes, expected, RLC_FLOWS) == 0, "one more flow is announced");
      }
    }
  memset(flows.bytes, 0, RLC_FLOWS);
  for (int flow = 0; flow < 256; flow++) {
    check(memcmp(flows.bytes, all, RLC_FLOWS) != 0, "not all flows are announced yet");
    rlc_announce(flows.bytes, (uint8_t)flow);
  }
  check(memcmp(flows.bytes, all, RLC_FLOWS) == 0, "one after the other they are all announced");
  memset(flows.bytes, 0x66, RLC_FLOWS);
  rlc_announce_all(flows.bytes);
  for (size_t i = 0; i < RLC_FLOWS; i++) check(flows.bytes[i] == 255, "all flows are announced");
  check(untouched(flows, RLC_FLOWS), "the bytes past the flows are as they were");
}

// An end that announces these flows, whose bytes are then changed: the end has its own.
typedef int64_t opening(uint8_t *, size_t, uint32_t, uint32_t, uint32_t, const uint8_t *);
static void open_with(opening *open, struct room end, uint32_t width, const char *announced) {
  uint8_t flows[RLC_FLOWS] = {0};
  for (; *announced; announced++) rlc_announce(flows, (uint8_t)*announced);
  SAYS(open(LENT(end), 9, 4, width, flows), 0);
  memset(flows, 0x99, sizeof flows);
}

// The call says that the flow is not announced (-16), and changes no byte of an end's memory.
#define REFUSES(call, end)                                                                        \
  do {                                                                                            \
    struct room before = room((end).length);                                                      \
    memcpy(before.bytes, (end).bytes, (end).length);                                              \
    SAYS(call, -RLC_UNANNOUNCED);                                                                 \
    check(memcmp(before.bytes, (end).bytes, (end).length) == 0, "a stray changes nothing");       \
    free(before.bytes);                                                                           \
  } while (0)

// A sender that announces flows 1 and 2 refuses the ADUs of others, after 3 and before 4 and 2, and gives them no ESI.
static void strays_at_the_sender(void) {
  struct room sender = room((size_t)rlc_sender_memory(4, 2)), unopened = room(sender.length), out = room(9);
  const uint8_t adu[6] = {1, 2, 3, 4, 5, 6};
  static const uint8_t longer[65536];
  open_with(rlc_sender_open, sender, 2, "\1\2");
  SAYS(rlc_sender_add_adu(LENT(unopened), 3, adu, 6, LENT(out)), -RLC_UNOPENED);
  REFUSES(rlc_sender_add_adu(LENT(sender), 3, adu, 6, out.bytes, 0), sender);
  REFUSES(rlc_sender_add_adu(LENT(sender), 3, longer, sizeof longer, LENT(out)), sender);
  REFUSES(rlc_sender_add_adu(LENT(sender), 0, adu, 5, out.bytes, 0), sender);
  REFUSES(rlc_sender_add_adu(LENT(sender), 255, adu, 1, LENT(out)), sender);
  SAYS(rlc_sender_make_repair(LENT(sender), 1, 15, 1, LENT(out)), -RLC_EMPTY);
  SAYS(rlc_sender_add_adu(LENT(sender), 2, adu, 6, out.bytes, 0), -RLC_LONG);
  SAYS(rlc_sender_add_adu(LENT(sender), 2, adu, 5, out.bytes, 8), -RLC_SHORT);
  check(untouched(out, 0), "refusals leave the output");
  SAYS(rlc_sender_add_adu(LENT(sender), 2, adu, 1, LENT(out)), 5);
  BYTES(out.bytes, 1, 0, 0, 0, 0);
  check(untouched(sender, sender.length), "the sender stays in its memory");
}

// A receiver that announces flow 1 refuses source packets of others, after 3, 2 and 5 and before 4, 8, 9 and 11; the first packet too, so that the next one
// begins the window.
static void strays_at_the_receiver(void) {
  struct room receiver = receiver_of(4, 2), unopened = room(receiver.length), work = work_of(4, 2);
  uint8_t stray[] = {9, 9, 9, 9, 9, 9, 0, 0, 0, 0};
  static const uint8_t longer[65540];
  open_with(rlc_receiver_open, receiver, 2, "\1");
  SAYS(rlc_receive_source(LENT(unopened), work.bytes, 0, 3, stray, 3), -RLC_UNOPENED);
  SAYS(rlc_receive_source(LENT(receiver), work.bytes, work.length - 1, 3, stray, 3), -RLC_SHORT);
  SAYS(rlc_receive_source(LENT(receiver), LENT(work), 3, stray, 3), -RLC_FORM);
  number(stray + 6, 70000);
  for (size_t shorter = 0; shorter <= 6; shorter++)
    REFUSES(rlc_receive_source(LENT(receiver), LENT(work), 3, stray + shorter, sizeof stray - shorter), receiver);
  REFUSES(rlc_receive_source(LENT(receiver), LENT(work), 3, longer, sizeof longer), receiver);
  SAYS(rlc_receive_source(LENT(receiver), LENT(work), 1, longer, sizeof longer), -RLC_LONG);
  SAYS(rlc_receive_source(LENT(receiver), LENT(work), 1, stray, sizeof stray), -RLC_LONG);
  HIDES(receiver, 70000, RLC_UNKNOWN);
  WITHHOLDS(receiver, 70000, RLC_UNKNOWN);
  SAYS(hear(receiver, work, 7, 0x41), 1);
  SHOWS(receiver, 7, HEARD, 1, 0, 1, 0x41);
  HIDES(receiver, 6, RLC_BEHIND);
  const struct { uint32_t esi; int64_t says; } places[] = {{6, -RLC_BEHIND}, {7 + 65536, -RLC_AHEAD}, {7, -RLC_CONTRADICTION}, {8, 1}};
  for (size_t i = 0; i < sizeof places / sizeof *places; i++) {
    number(stray + 6, places[i].esi);
    REFUSES(rlc_receive_source(LENT(receiver), LENT(work), 3, stray + 5, 5), receiver);
    SAYS(rlc_receive_source(LENT(receiver), LENT(work), 1, stray + 5, 5), places[i].says);
  }
  check(untouched(receiver, receiver.length) && untouched(work, work.length), "the receiver stays in its memory");
}

// The sender announces flows 1 and 2, the receiver flow 1 alone. By repair the receiver solves an ADU of flow 2, of two symbols: they are counted and shown,
// the ADU is withheld (after 12 and 14, before 2), and the one after it, found through its length, is handed out.
static void strays_that_are_solved(void) {
  struct room sender = sender_of(4, 4), receiver = receiver_of(4, 4), work = work_of(4, 4), source[3], repair[3];
  const uint8_t adus[3][3] = {{0x41}, {1, 2, 3}, {0x43}};
  open_with(rlc_sender_open, sender, 4, "\1\2");
  open_with(rlc_receiver_open, receiver, 4, "\1");
  for (size_t i = 0; i < 3; i++) {
    const size_t length = i == 1 ? 3 : 1;
    source[i] = room(length + 4), repair[i] = room(12);
    SAYS(rlc_sender_add_adu(LENT(sender), i == 1 ? 2 : 1, adus[i], length, LENT(source[i])), (int64_t)length + 4);
    SAYS(rlc_sender_make_repair(LENT(sender), 0, 15, 1, LENT(repair[i])), 12);
  }
  const uint8_t second[] = {0, 0, 0xf0, 1, 0, 0, 0, 2, 2, 3, 0, 0};
  SAYS(rlc_receive_source(LENT(receiver), LENT(work), 1, LENT(source[0])), 1);
  REFUSES(rlc_receive_source(LENT(receiver), LENT(work), 2, LENT(source[1])), receiver);
  WITHHOLDS(receiver, 1, RLC_UNKNOWN);
  SAYS(rlc_receive_repair(LENT(receiver), LENT(work), LENT(repair[1])), 0);
  SAYS(rlc_receive_repair(LENT(receiver), LENT(work), second, sizeof second), 2);
  SHOWS(receiver, 1, SOLVED, 2, 0, 3, 1);
  SHOWS(receiver, 2, SOLVED, 2, 3, 0, 0);
  WITHHOLDS(receiver, 1, RLC_UNANNOUNCED);
  SAYS(rlc_adu(LENT(receiver), 1, source[0].bytes, 0), -RLC_UNANNOUNCED);
  WITHHOLDS(receiver, 3, RLC_UNKNOWN);
  SAYS(rlc_receive_repair(LENT(receiver), LENT(work), LENT(repair[2])), 1);
  SHOWS(receiver, 3, SOLVED, 1, 0, 1, 0x43);
  WITHHOLDS(receiver, 1, RLC_UNANNOUNCED);
  WITHHOLDS(receiver, 2, RLC_NO_START);
  HANDS(receiver, 0, 1, 0x41);
  HANDS(receiver, 3, 1, 0x43);
  REFUSES(rlc_receive_source(LENT(receiver), LENT(work), 2, LENT(source[1])), receiver);
  SHOWS(receiver, 1, SOLVED, 2, 0, 3, 1);

  const uint8_t padded[] = {0, 0, 0xf0, 1, 0, 0, 0, 1, 2, 0, 0, 7}, started[] = {0x41, 0, 0, 0, 0};
  open_with(rlc_receiver_open, receiver, 4, "\1");
  SAYS(rlc_receive_source(LENT(receiver), LENT(work), 1, started, sizeof started), 1);
  SAYS(rlc_receive_repair(LENT(receiver), LENT(work), padded, sizeof padded), 1);
  WITHHOLDS(receiver, 1, RLC_PADDING);
  check(untouched(sender, sender.length) && untouched(receiver, receiver.length) && untouched(work, work.length), "all stay in their memory");
}

// A grid, as one of the two calls takes it.
typedef int64_t rearranging(const uint8_t *, size_t, uint32_t, uint32_t, uint32_t, uint8_t *, size_t);

// The call rearranges the input, whose symbols have 4 bytes, into these; output that is as long, or longer, is as it was past them, and the input stays.
static void rearranges(rearranging *call, uint32_t rows, uint32_t columns, const char *in, const char *expected) {
  const size_t length = strlen(in);
  for (size_t more = 0; more < 3; more++) {
    struct room input = room(length), out = room(length + more);
    memcpy(input.bytes, in, length);
    SAYS(call(LENT(input), 4, rows, columns, LENT(out)), (int64_t)length);
    check(memcmp(out.bytes, expected, length) == 0, "each symbol at its place");
    check(untouched(out, length), "output past the grid is as it was");
    check(memcmp(input.bytes, in, length) == 0 && untouched(input, length), "the input is as it was");
    free(input.bytes), free(out.bytes);
  }
}

// The call refuses so many bytes of input, with room for so many bytes of output, which are as they were.
static void refuses(rearranging *call, uint32_t symbol_size, uint32_t rows, uint32_t columns, size_t length, size_t space, int64_t refusal) {
  struct room input = room(length), out = room(space);
  memset(input.bytes, 0x11, length);
  SAYS(call(LENT(input), symbol_size, rows, columns, LENT(out)), -refusal);
  check(untouched(out, 0), "a refusal leaves the output");
  free(input.bytes), free(out.bytes);
}

// Grids: row by row in, column by column out, and back; E, rows, columns and lengths at their limits and past them; refusals in their order: 1, 17, 2.
static void grids(void) {
  rearranges(rlc_interleave, 2, 3, "1aaa2bbb3ccc4ddd5eee6fff", "1aaa4ddd2bbb5eee3ccc6fff");
  rearranges(rlc_deinterleave, 2, 3, "1aaa4ddd2bbb5eee3ccc6fff", "1aaa2bbb3ccc4ddd5eee6fff");
  rearranges(rlc_interleave, 3, 2, "1aaa2bbb3ccc4ddd5eee6fff", "1aaa3ccc5eee2bbb4ddd6fff");
  rearranges(rlc_deinterleave, 3, 2, "1aaa3ccc5eee2bbb4ddd6fff", "1aaa2bbb3ccc4ddd5eee6fff");
  rearranging *calls[] = {rlc_interleave, rlc_deinterleave};
  for (size_t i = 0; i < 2; i++) {
    rearranges(calls[i], 1, 1, "1aaa", "1aaa");
    rearranges(calls[i], 1, 3, "1aaa2bbb3ccc", "1aaa2bbb3ccc");
    rearranges(calls[i], 3, 1, "1aaa2bbb3ccc", "1aaa2bbb3ccc");
    const uint32_t sizes[] = {0, 3, 1501, 65536 + 4, 0xffffffff}, wrong[] = {0, 256, 257, 65536 + 2, 0xffffffff};
    for (size_t k = 0; k < sizeof sizes / sizeof *sizes; k++) {
      refuses(calls[i], sizes[k], 2, 3, 24, 24, RLC_VALUES);
      refuses(calls[i], sizes[k], 0, 256, 0, 0, RLC_VALUES);
    }
    for (size_t k = 0; k < sizeof wrong / sizeof *wrong; k++) {
      refuses(calls[i], 4, wrong[k], 3, 24, 24, RLC_GRID);
      refuses(calls[i], 4, 2, wrong[k], 24, 0, RLC_GRID);
    }
    refuses(calls[i], 3, 2, 3, 18, 18, RLC_VALUES);
    refuses(calls[i], 1501, 1, 1, 1501, 1501, RLC_VALUES);
    refuses(calls[i], 4, 256, 1, 1024, 1024, RLC_GRID);
    refuses(calls[i], 4, 1, 256, 1024, 1024, RLC_GRID);
    refuses(calls[i], 4, 2, 3, 23, 24, RLC_GRID);
    refuses(calls[i], 4, 2, 3, 25, 24, RLC_GRID);
    refuses(calls[i], 4, 2, 3, 24, 23, RLC_SHORT);
    refuses(calls[i], 4, 2, 3, 24, 0, RLC_SHORT);
  }
}

// The largest grid of symbols of 4 bytes, and one of the longest symbols: each symbol at its place, and back.
static void large_grids(void) {
  const struct { uint32_t size, rows, columns; } grids[] = {{4, 255, 255}, {1500, 255, 2}, {1500, 2, 255}};
  for (size_t i = 0; i < sizeof grids / sizeof *grids; i++) {
    const size_t e = grids[i].size, d = grids[i].rows, l = grids[i].columns;
    struct room in = room(d * l * e), out = room(d * l * e), back = room(d * l * e);
    for (size_t k = 0; k < in.length; k++) in.bytes[k] = (uint8_t)(k * 151 ^ k >> 8);
    SAYS(rlc_interleave(LENT(in), grids[i].size, grids[i].rows, grids[i].columns, LENT(out)), (int64_t)in.length);
    size_t right = 0;
    for (size_t r = 0; r < d; r++)
      for (size_t c = 0; c < l; c++) right += memcmp(out.bytes + (c * d + r) * e, in.bytes + (r * l + c) * e, e) == 0;
    check(right == d * l, "each symbol of a large grid at its place");
    SAYS(rlc_deinterleave(LENT(out), grids[i].size, grids[i].rows, grids[i].columns, LENT(back)), (int64_t)in.length);
    check(memcmp(back.bytes, in.bytes, in.length) == 0, "a large grid is put back");
    check(untouched(out, out.length) && untouched(back, back.length), "nothing past the output is written");
    free(in.bytes), free(out.bytes), free(back.bytes);
  }
}

// An end of a block of 3 ADUs and 2 repair symbols, of 5 bytes each: its opening's refusals, in their order, leave the memory.
typedef int64_t block_opening(uint8_t *, size_t, uint32_t, uint32_t, uint32_t, uint32_t);
static struct room block_end(block_opening *open) {
  static const struct { uint32_t symbol_size, k, total, block; int64_t refusal; } wrong[] = {
    {3, 0, 0, 0, RLC_VALUES}, {1501, 3, 5, 7, RLC_VALUES}, {65541, 3, 5, 7, RLC_VALUES}, {5, 0, 5, 7, RLC_BLOCK}, {5, 3, 2, 7, RLC_BLOCK},
    {5, 3, 256, 7, RLC_BLOCK}, {5, 256, 256, 7, RLC_BLOCK}, {5, 259, 261, 7, RLC_BLOCK}, {5, 3, 5, 16777216, RLC_BLOCK}, {5, 3, 5, UINT32_MAX, RLC_BLOCK}};
  struct room small = room(1), end = receiver_of(5, 3);
  for (size_t i = 0; i < sizeof wrong / sizeof *wrong; i++)
    SAYS(open(LENT(small), wrong[i].symbol_size, wrong[i].k, wrong[i].total, wrong[i].block), -wrong[i].refusal);
  SAYS(open(LENT(small), 5, 3, 5, 7), -RLC_SHORT);
  SAYS(open(end.bytes, end.length - 1, 5, 3, 5, 7), -RLC_SHORT);
  check(untouched(small, 0), "a refused opening leaves the memory");
  SAYS(open(LENT(end), 5, 3, 3, 0xffffff), 0);
  SAYS(open(LENT(end), 5, 3, 5, 7), 0);
  return end;
}

// A block of three ADUs, whose bytes are x and x squared at the points 1, 2 and 4, and so are those of its two repair symbols at 8 and 16. Two source packets
// are lost, and the two repair packets bring them; then the refusals of all calls, those of a stream on a block's memory and the other way round among them.
static void blocks(void) {
  struct room encoder = block_end(rlc_block_open_encoder), recovery = block_end(rlc_block_open_recovery), work = work_of(5, 3);
  struct room source[3], repair[2], out = room(32), zero = room(encoder.length);
  static const uint8_t adus[3][3] = {{1, 1}, {2, 4}, {4, 16}};
  memset(zero.bytes, 0, zero.length);
  SAYS(rlc_block_add_adu(LENT(encoder), 1, adus[0], 2, out.bytes, 7), -RLC_SHORT);
  SAYS(rlc_block_add_adu(LENT(encoder), 1, adus[0], 3, out.bytes, 8), -RLC_SHORT);
  SAYS(rlc_block_add_adu(LENT(encoder), 1, adus[0], 3, LENT(out)), -RLC_LONG);
  for (uint8_t esi = 0; esi < 3; esi++) {
    SAYS(rlc_block_make_repair(LENT(encoder), 3, out.bytes, 10), -RLC_SHORT);
    SAYS(rlc_block_make_repair(LENT(encoder), 3, LENT(out)), -RLC_EMPTY);
    source[esi] = room(8);
    SAYS(rlc_block_add_adu(LENT(encoder), 1, adus[esi], 2, LENT(source[esi])), 8);
    BYTES(source[esi].bytes, adus[esi][0], adus[esi][1], 0, 0, 7, esi, 0, 3);
  }
  SAYS(rlc_block_add_adu(LENT(encoder), 1, adus[0], 3, LENT(out)), -RLC_BLOCK);
  const uint32_t esis[] = {0, 2, 5, 6, 256 + 3, 65536 + 3, UINT32_MAX};
  for (size_t i = 0; i < sizeof esis / sizeof *esis; i++) SAYS(rlc_block_make_repair(LENT(encoder), esis[i], LENT(out)), -RLC_BLOCK);
  check(untouched(out, 0), "refusals leave the output");
  for (uint8_t i = 0; i < 2; i++) {
    repair[i] = room(14);
    SAYS(rlc_block_make_repair(LENT(encoder), 3 + i, LENT(repair[i])), 11);
    check(untouched(repair[i], 11) && untouched(source[i], 8), "output past the packet is as it was");
  }
  BYTES(repair[0].bytes, 0, 0, 7, 3, 0, 3, 1, 0, 2, 8, 64);
  BYTES(repair[1].bytes, 0, 0, 7, 4, 0, 3, 1, 0, 2, 16, 29);

  SAYS(rlc_block_receive_source(LENT(recovery), work.bytes, work.length - 1, 1, source[1].bytes, 5), -RLC_SHORT);
  SAYS(rlc_block_receive_source(LENT(recovery), LENT(work), 1, source[1].bytes, 5), -RLC_FORM);
  SAYS(rlc_block_receive_repair(LENT(recovery), LENT(work), repair[0].bytes, 10), -RLC_FORM);
  SAYS(rlc_block_receive_repair(LENT(recovery), LENT(work), repair[0].bytes, 12), -RLC_FORM);
  LACKS(recovery, 1, RLC_UNKNOWN);
  SAYS(rlc_block_receive_source(LENT(recovery), LENT(work), 1, LENT(source[1])), 1);
  SAYS(rlc_block_receive_source(LENT(recovery), LENT(work), 1, LENT(source[1])), 0);
  SAYS(rlc_block_receive_source(LENT(recovery), LENT(work), 2, LENT(source[1])), -RLC_CONTRADICTION);
  SAYS(rlc_block_receive_repair(LENT(recovery), LENT(work), repair[1].bytes, 11), 0);
  RECOVERS(recovery, 1, HEARD, 1, 0, 2, 2, 4);
  LACKS(recovery, 0, RLC_UNKNOWN);
  SAYS(rlc_block_receive_repair(LENT(recovery), LENT(work), repair[0].bytes, 11), 2);
  RECOVERS(recovery, 0, SOLVED, 1, 0, 2, 1, 1);
  RECOVERS(recovery, 1, HEARD, 1, 0, 2, 2, 4);
  RECOVERS(recovery, 2, SOLVED, 1, 0, 2, 4, 16);
  LACKS(recovery, 3, RLC_UNKNOWN);
  LACKS(recovery, 256, RLC_UNKNOWN);
  SAYS(rlc_block_receive_repair(LENT(recovery), LENT(work), repair[0].bytes, 11), 0);
  SAYS(rlc_block_receive_source(LENT(recovery), LENT(work), 1, LENT(source[0])), 0);
  RECOVERS(recovery, 0, HEARD, 1, 0, 2, 1, 1);

  // Each byte of a packet changed: of the identifier, and of the symbol, which contradicts.
  for (size_t at = 0; at < 11; at++) {
    repair[0].bytes[at] ^= 0x80;
    SAYS(rlc_block_receive_repair(LENT(recovery), LENT(work), repair[0].bytes, 11), at < 6 ? -RLC_BLOCK : -RLC_CONTRADICTION);
    repair[0].bytes[at] ^= 0x80;
  }
  uint8_t longer[] = {4, 16, 0, 0, 0, 7, 2, 0, 3};
  SAYS(rlc_block_receive_source(LENT(recovery), LENT(work), 1, longer, sizeof longer), -RLC_LONG);
  longer[6] = 3;
  SAYS(rlc_block_receive_source(LENT(recovery), LENT(work), 1, longer, sizeof longer), -RLC_BLOCK);
  RECOVERS(recovery, 2, SOLVED, 1, 0, 2, 4, 16);

  // Memory of other kinds of ends, and none at all.
  struct room sender = sender_of(5, 3), receiver = receiver_of(5, 3);
  SAYS(rlc_sender_open(LENT(sender), 10, 5, 3, all), 0);
  SAYS(rlc_receiver_open(LENT(receiver), 10, 5, 3, all), 0);
  struct room ends[] = {sender, receiver, encoder, recovery, zero};
  for (size_t i = 0; i < 5; i++) {
    if (i != 3) {
      SAYS(rlc_block_receive_source(LENT(ends[i]), LENT(work), 1, LENT(source[0])), -RLC_UNOPENED);
      SAYS(rlc_block_receive_repair(LENT(ends[i]), LENT(work), repair[0].bytes, 11), -RLC_UNOPENED);
      LACKS(ends[i], 0, RLC_UNOPENED);
    }
    if (i != 2) {
      SAYS(rlc_block_add_adu(LENT(ends[i]), 1, adus[0], 2, LENT(out)), -RLC_UNOPENED);
      SAYS(rlc_block_make_repair(LENT(ends[i]), 3, LENT(out)), -RLC_UNOPENED);
    }
    if (i != 1) {
      HIDES(ends[i], 0, RLC_UNOPENED);
      WITHHOLDS(ends[i], 0, RLC_UNOPENED);
      SAYS(rlc_receive_source(LENT(ends[i]), LENT(work), 1, LENT(source[0])), -RLC_UNOPENED);
    }
    if (i != 0) SAYS(rlc_sender_add_adu(LENT(ends[i]), 1, adus[0], 2, LENT(out)), -RLC_UNOPENED);
  }
  check(untouched(encoder, encoder.length) && untouched(recovery, recovery.length) && untouched(work, work.length), "all stay in their memory");
}

// A block of as many symbols as there can be: 127 repair packets and one source packet bring all 128 ADUs.
static void large_block(void) {
  const uint32_t k = 128, total = 255;
  struct room encoder = receiver_of(4, k), recovery = receiver_of(4, k), work = work_of(4, k), source = room(7), repair = room(10);
  SAYS(rlc_block_open_encoder(LENT(encoder), 4, k, total, 0), 0);
  SAYS(rlc_block_open_recovery(LENT(recovery), 4, k, total, 0), 0);
  for (uint32_t esi = 0; esi < k; esi++) {
    const uint8_t adu = (uint8_t)(esi * 7 + 3);
    SAYS(rlc_block_add_adu(LENT(encoder), (uint8_t)esi, &adu, 1, LENT(source)), 7);
    if (esi == 40) SAYS(rlc_block_receive_source(LENT(recovery), LENT(work), 40, LENT(source)), 1);
  }
  for (uint32_t esi = k; esi < total; esi++) {
    SAYS(rlc_block_make_repair(LENT(encoder), esi, LENT(repair)), 10);
    SAYS(rlc_block_receive_repair(LENT(recovery), LENT(work), LENT(repair)), esi == total - 1 ? k - 1 : 0);
  }
  for (uint32_t esi = 0; esi < k; esi++) {
    check(rlc_heard(rlc_block_symbol(LENT(recovery), esi)) == (esi == 40), "one symbol was heard");
    RECOVERS(recovery, esi, esi == 40 ? HEARD : SOLVED, (uint8_t)esi, 0, 1, (uint8_t)(esi * 7 + 3));
  }
}

int main(int count, char **words) {
  unset = count == 2 && strcmp(words[1], "unset") == 0;
  rlc_announce_all(all);
  sizes();
  windows();
  grids();
  large_grids();
  seven_and_eight();
  nine();
  ten();
  twelve();
  draws();
  heard_or_solved();
  two_orders();
  many_draws();
  thirteen_and_fourteen();
  announcing();
  strays_at_the_sender();
  strays_at_the_receiver();
  strays_that_are_solved();
  blocks();
  large_block();
  printf("%d passed, %d failed\n", passed, failed);
  return failed != 0;
}
