// The calls of a block's two ends: opening the memory to recover a block, its source packets where none is lost, making a repair packet, a repair packet
// where all is known, and the repair packets that recover what a burst took; and the coefficients of a repair symbol by themselves.
#include "library.h"
#include "table.h"
#include "isal.h"
#include "limit.h"
#define REPAIRS 32
#define NUMBER 1
#define IDENTIFIER 6

#define BLOCK_FUNCTIONS(F)                                                                                     \
  F(void, block_fill, (uint8_t *, size_t, size_t))                                                             \
  F(size_t, block_open_encoder, (uint8_t *, size_t, size_t, size_t, size_t, size_t))                           \
  F(size_t, block_add_adu, (uint8_t *, size_t, uint8_t, const uint8_t *, size_t, uint8_t *, size_t))           \
  F(size_t, block_make_repair, (const uint8_t *, size_t, size_t, uint8_t *, size_t))                           \
  F(size_t, block_open_recovery, (uint8_t *, size_t, size_t, size_t, size_t, size_t))                          \
  F(size_t, block_receive_source, (uint8_t *, size_t, uint8_t *, size_t, uint8_t, const uint8_t *, size_t))    \
  F(size_t, block_receive_repair, (uint8_t *, size_t, uint8_t *, size_t, const uint8_t *, size_t))

struct block_library {
  BLOCK_FUNCTIONS(MEMBER)
};
BLOCK_FUNCTIONS(PROVED)
BLOCK_FUNCTIONS(PLAIN)
static const struct block_library proved_block = {BLOCK_FUNCTIONS(PROVED_NAME)}, plain_block = {BLOCK_FUNCTIONS(PLAIN_NAME)};

// The packets of a block, which all ways take: k source packets and REPAIRS repair packets; and its symbols.
struct packets {
  size_t source_size, repair_size;
  u8 *sources, *repairs, *symbols;
};

// An end of a block. Its answer stands before its memory and a packet after it, so that all three are compared. `lost` are the last symbols of a burst.
struct end {
  const struct block_library *library;
  const struct packets *packets;
  size_t k, size, lost, memory_size, work_size, *answer;
  u8 *memory, *packet, *work, *before, coefficients[255], rows[255];
};

static size_t adu_size(const struct end *e) { return e->size - 3; }
static size_t row_size(const struct end *e) { return e->k + e->size + 4; }
static size_t compared(const struct end *e) { return sizeof(size_t) + e->memory_size + IDENTIFIER + e->size; }
static u8 *symbol_of(const struct end *e, size_t row) { return e->memory + RECEIVER_HEADER + row * row_size(e) + e->k; }
static size_t esi_of(const struct end *e, size_t i) { return e->k + i % REPAIRS; }
static const u8 *repair_of(const struct end *e, size_t i) { return e->packets->repairs + i % REPAIRS * e->packets->repair_size; }
// The i-th repair packet of a key: the other half of the keys takes every third.
static size_t turn_of(size_t key, size_t i) { return key + (key < KEYS / 2 ? i : 3 * i); }

static void answer(struct end *e, size_t n, size_t expected) {
  *e->answer = n;
  expect("a block", n == expected);
}
static size_t hear(struct end *e, size_t k) {
  const struct packets *p = e->packets;
  return e->library->block_receive_source(e->memory, e->memory_size, e->work, e->work_size, 1, p->sources + k * p->source_size, p->source_size);
}
static size_t mend(struct end *e, size_t i) {
  return e->library->block_receive_repair(e->memory, e->memory_size, e->work, e->work_size, repair_of(e, i), e->packets->repair_size);
}

static void run_open(void *of, size_t key) {
  struct end *e = of;
  answer(e, e->library->block_open_recovery(e->memory, e->memory_size, e->size, e->k, e->k + REPAIRS, NUMBER), 0);
}
static void run_sources(void *of, size_t key) {
  struct end *e = of;
  size_t sum = 0;
  for (size_t k = 0; k < e->k; k++) sum += hear(e, (k + key) % e->k);
  answer(e, sum, e->k);
}
static void run_make(void *of, size_t key) {
  struct end *e = of;
  size_t n = IDENTIFIER + e->size;
  answer(e, e->library->block_make_repair(e->memory, e->memory_size, esi_of(e, key), e->packet, n), n);
}
static void run_fill(void *of, size_t key) {
  struct end *e = of;
  e->library->block_fill(e->packet, e->k, esi_of(e, key));
}
static void run_known(void *of, size_t key) {
  struct end *e = of;
  answer(e, mend(e, key), 0);
}
static void run_burst(void *of, size_t key) {
  struct end *e = of;
  size_t sum = 0;
  for (size_t i = 0; i < e->lost; i++) sum += mend(e, turn_of(key, i));
  answer(e, sum, e->lost);
}
static void ready_memory(void *of, size_t key) {
  struct end *e = of;
  memcpy(e->memory, e->before, e->memory_size);
}

// The limit of opening: the memory becomes zero.
static void limit_open(void *of, size_t key) {
  struct end *e = of;
  memset(e->memory, 0, e->memory_size);
}
// The limit of source packets: each ADU is copied into a row.
static void limit_sources(void *of, size_t key) {
  struct end *e = of;
  for (size_t k = 0; k < e->k; k++) memcpy(symbol_of(e, k) + 3, e->packets->sources + k * e->packets->source_size, adu_size(e));
}
// The limit of making a repair packet: the coefficients are filled in, the source symbols are read, all of which they meet, and a symbol is written.
static void limit_make(void *of, size_t key) {
  struct end *e = of;
  plain_block_fill(e->coefficients, e->k, esi_of(e, key));
  limit_sum(e->packet + IDENTIFIER, e->size, e->memory + RECEIVER_HEADER, e->size, e->rows, e->k);
}
// The limit of repair packets: for each the coefficients are filled in and the known symbols and the packet's are read; and each symbol that becomes
// known is read and written once.
static void limit_mend(struct end *e, size_t i) {
  plain_block_fill(e->coefficients, e->k, esi_of(e, i));
  limit_sum(e->work, e->size, symbol_of(e, 0), row_size(e), e->rows, e->k - e->lost);
  limit_add(e->work, repair_of(e, i) + IDENTIFIER, e->size);
}
static void limit_known(void *of, size_t key) { limit_mend(of, key); }
static void limit_burst(void *of, size_t key) {
  struct end *e = of;
  for (size_t i = 0; i < e->lost; i++) limit_mend(e, turn_of(key, i));
  for (size_t i = 0; i < e->lost; i++) limit_add(symbol_of(e, e->k - 1 - i), e->work, e->size);
}

static struct end *end_of(const struct block_library *library, const struct packets *packets, size_t k, size_t size) {
  struct end *e = (struct end *)room(sizeof *e);
  e->library = library, e->packets = packets, e->k = k, e->size = size;
  e->memory_size = RECEIVER_HEADER + k * (row_size(e) + 1), e->work_size = e->memory_size + row_size(e) + 1;
  e->answer = (size_t *)room(compared(e)), e->memory = (u8 *)(e->answer + 1), e->packet = e->memory + e->memory_size;
  e->work = room(e->work_size), e->before = room(e->memory_size);
  for (size_t row = 0; row < k; row++) e->rows[row] = row;
  return e;
}

// An encoder that took its k ADUs, which are the same for all; their source packets are written to `sources`, where it is not 0.
static struct end *encoder_of(const struct block_library *library, size_t k, size_t size, u8 *sources) {
  struct end *e = end_of(library, 0, k, size);
  size_t n = adu_size(e);
  u8 *adu = room(n), *packet = room(n + IDENTIFIER);
  srand(6865);
  expect("open_encoder", library->block_open_encoder(e->memory, e->memory_size, size, k, k + REPAIRS, NUMBER) == 0);
  for (size_t i = 0; i < k; i++) {
    for (size_t b = 0; b < n; b++) adu[b] = rand();
    expect("add_adu", library->block_add_adu(e->memory, e->memory_size, 1, adu, n, packet, n + IDENTIFIER) == n + IDENTIFIER);
    if (sources) memcpy(sources + i * (n + IDENTIFIER), packet, n + IDENTIFIER);
  }
  return e;
}
static struct packets *packets_of(size_t k, size_t size) {
  struct packets *p = (struct packets *)room(sizeof *p);
  *p = (struct packets){size - 3 + IDENTIFIER, IDENTIFIER + size};
  p->sources = room(k * p->source_size), p->repairs = room(REPAIRS * p->repair_size);
  struct end *e = encoder_of(&proved_block, k, size, p->sources);
  p->symbols = e->memory + RECEIVER_HEADER;
  for (size_t i = 0; i < REPAIRS; i++) {
    run_make(e, i);
    memcpy(p->repairs + i * p->repair_size, e->packet, p->repair_size);
  }
  return p;
}

static struct line *block_line(struct table *t, size_t k, size_t size, size_t operations, size_t symbols) {
  struct line *l = &t->lines[t->count++];
  sprintf(l->name, "k %zu of %zu, E %s", k, k + REPAIRS, with_comma(size));
  l->operations = operations, l->symbols = symbols, l->size = size;
  return l;
}
static void add_ways(struct line *l, struct end *ends[2], action *run, action *ready) {
  for (int k = 0; k < 2; k++) l->ways[k] = (struct way){run, ends[k], ready, (u8 *)ends[k]->answer, compared(ends[k])};
}

// Receivers to which all but the last `lost` source packets came, of the proved code, of plain Rust and one for the limit.
static void receivers_of(struct end *ends[3], size_t k, size_t size, size_t lost) {
  const struct packets *p = packets_of(k, size);
  for (int e = 0; e < 3; e++) {
    ends[e] = end_of(e ? &plain_block : &proved_block, p, k, size);
    ends[e]->lost = lost;
    run_open(ends[e], 0);
    for (size_t i = 0; i + lost < k; i++) expect("receive_source", hear(ends[e], i) == 1);
    memcpy(ends[e]->before, ends[e]->memory, ends[e]->memory_size);
  }
}

static void fill_open(struct table *t, size_t k, size_t size) {
  struct line *l = block_line(t, k, size, 1, k);
  struct end *ends[3];
  receivers_of(ends, k, size, k);
  add_ways(l, ends, run_open, 0);
  l->ways[LIMIT] = (struct way){limit_open, ends[2]};
}
static void fill_sources(struct table *t, size_t k, size_t size) {
  struct line *l = block_line(t, k, size, k, 1);
  struct end *ends[3];
  receivers_of(ends, k, size, k);
  add_ways(l, ends, run_sources, ready_memory);
  l->ways[LIMIT] = (struct way){limit_sources, ends[2]};
}
// ISA-L takes the coefficients as given, and the source symbols where they stand.
static void fill_make(struct table *t, size_t k, size_t size) {
  struct line *l = block_line(t, k, size, 1, 1);
  struct end *ends[2] = {encoder_of(&proved_block, k, size, 0), encoder_of(&plain_block, k, size, 0)};
  struct end *other = encoder_of(&plain_block, k, size, 0), *limit = encoder_of(&plain_block, k, size, 0);
  u8 *coefficients = room(KEYS * k), **rows = (u8 **)room(k * sizeof *rows);
  add_ways(l, ends, run_make, 0);
  for (size_t key = 0; key < KEYS; key++) plain_block_fill(coefficients + key * k, k, esi_of(other, key));
  for (size_t i = 0; i < k; i++) rows[i] = other->memory + RECEIVER_HEADER + i * size;
  add_isal(l, 2, 0, size, k, k, coefficients, rows);
  for (int w = 2; w < 6; w++) l->ways[w].from = sizeof(size_t) + ends[0]->memory_size + IDENTIFIER;
  l->ways[LIMIT] = (struct way){limit_make, limit};
}
// The coefficients go where the packet would; the third way is the whole call.
static void fill_fill(struct table *t, size_t k, size_t size) {
  struct line *l = block_line(t, k, size, 1, 1);
  struct end *ends[2] = {end_of(&proved_block, 0, k, size), end_of(&plain_block, 0, k, size)};
  for (int e = 0; e < 2; e++) {
    ends[e]->packet = room(k);
    l->ways[e] = (struct way){run_fill, ends[e], 0, ends[e]->packet, k};
  }
  l->ways[2] = (struct way){run_make, encoder_of(&proved_block, k, size, 0)};
}
static void fill_known(struct table *t, size_t k, size_t size) {
  struct line *l = block_line(t, k, size, 1, 1);
  struct end *ends[3];
  receivers_of(ends, k, size, 0);
  add_ways(l, ends, run_known, 0);
  l->ways[LIMIT] = (struct way){limit_known, ends[2]};
}

static void add_burst(struct table *t, size_t k, size_t size, size_t lost) {
  struct line *l = block_line(t, k, size, 1, lost);
  struct end *ends[3], *r;
  receivers_of(ends, k, size, lost);
  r = ends[0];
  for (size_t key = 0; key < KEYS; key++) {
    ready_memory(r, key), run_burst(r, key);
    for (size_t i = 0; i < k; i++) expect("a recovered symbol", !memcmp(symbol_of(r, i), r->packets->symbols + i * size, size));
  }
  sprintf(l->name + strlen(l->name), ", %zu lost", lost);
  add_ways(l, ends, run_burst, ready_memory);
  l->ways[LIMIT] = (struct way){limit_burst, ends[2]};
}
static void fill_burst(struct table *t, size_t k, size_t size) {
  add_burst(t, k, size, k == 16 ? 4 : k == 64 ? 8 : 16);
  if (k == 223) add_burst(t, k, size, REPAIRS);
}

static void make_blocks(struct table *t, void (*fill)(struct table *, size_t, size_t)) {
  static const size_t ks[] = {16, 64, 223}, sizes[] = {64, 1400};
  for (int k = 0; k < 3; k++)
    for (int e = 0; e < 2; e++) fill(t, ks[k], sizes[e]);
  check(t), measure(t), print(t);
}

#define NAMES {"", "plain Rust"}
int main(void) {
  static struct table open = {"Opening the memory to recover a block", NAMES}, sources = {"Source packet of a block, none lost", NAMES},
    make = {"Making a repair packet of a block", {"", "plain Rust", ISAL_NAMES}},
    coefficients = {"The coefficients of a repair packet of a block", {"", "plain Rust", "the whole call that makes the packet"}},
    known = {"Repair packet of a block, all k symbols known", NAMES}, burst = {"Recovery of a block after a burst", NAMES};
  make_blocks(&make, fill_make);
  make_blocks(&coefficients, fill_fill);
  make_blocks(&open, fill_open);
  make_blocks(&sources, fill_sources);
  make_blocks(&known, fill_known);
  make_blocks(&burst, fill_burst);
}
