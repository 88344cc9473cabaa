// The sender's calls: adding an ADU of one symbol, and making a repair packet of one symbol over a full window, DT 15.
#include "library.h"
#include "table.h"
#include "isal.h"
#include "limit.h"
#define DT 15

// A sender: its memory stands after the packet that it writes, so that both are compared. It takes the ADUs in turn.
struct sender {
  const struct library *library;
  struct setting setting;
  size_t packet_size, memory_size, slot;
  u8 *adus, *packet, *memory, *coefficients, *rows;
};

static size_t adu_size(struct setting s) { return s.size - 3; }

static void run_add(void *of, size_t key) {
  struct sender *s = of;
  size_t n = adu_size(s->setting);
  expect("add_adu", s->library->add_adu(s->memory, s->memory_size, 1, s->adus + key * n, n, s->packet, n + 4) == n + 4);
}
static void run_repair(void *of, size_t key) {
  struct sender *s = of;
  size_t answer = s->library->make_repair(s->memory, s->memory_size, key, DT, 1, s->packet, s->packet_size);
  expect("make_repair", value(answer) == s->packet_size);
}
// The limit of adding: the ADU is copied into the window's next slot and into the packet.
static void limit_adding(void *of, size_t key) {
  struct sender *s = of;
  size_t n = adu_size(s->setting);
  memcpy(s->memory + SENDER_HEADER + s->slot * s->setting.size, s->adus + key * n, n);
  memcpy(s->packet, s->adus + key * n, n);
  s->slot = s->slot + 1 == s->setting.width ? 0 : s->slot + 1;
}
// The limit of making repair: the coefficients are drawn, the window's symbols are read, all of which they meet at DT 15, and a symbol is written.
static void limit_repair(void *of, size_t key) {
  struct sender *s = of;
  plain_coefficients(s->coefficients, s->setting.width, s->setting.scheme, key, DT);
  limit_sum(s->packet + 8, s->setting.size, s->memory + SENDER_HEADER, s->setting.size, s->rows, s->setting.width);
}

// A sender whose window is full and begins in the middle of its memory.
static struct sender *sender_of(const struct library *library, struct setting setting) {
  struct sender *s = (struct sender *)room(sizeof *s);
  size_t packet_size = 8 + setting.size, memory_size = SENDER_HEADER + setting.width * setting.size;
  *s = (struct sender){library, setting, packet_size, memory_size, 0, room(KEYS * adu_size(setting)), room(packet_size + memory_size), 0,
    room(setting.width), room(setting.width)};
  s->memory = s->packet + packet_size;
  for (size_t k = 0; k < setting.width; k++) s->rows[k] = k;
  for (size_t key = 0; key < KEYS; key++)
    for (size_t i = 0; i < adu_size(setting); i++) s->adus[key * adu_size(setting) + i] = i * i + 13 * key;
  expect("sender_open", library->sender_open(s->memory, memory_size, setting.scheme, setting.size, setting.width, all_flows) == 0);
  for (size_t k = 0; k < setting.width + setting.width / 2; k++) run_add(s, k % KEYS);
  return s;
}

static void add_ways(struct line *l, struct setting s, action *run, action *limit) {
  struct sender *ours = sender_of(&proved, s), *theirs = sender_of(&plain, s);
  size_t compared = ours->packet_size + ours->memory_size;
  l->ways[0] = (struct way){run, ours, 0, ours->packet, compared};
  l->ways[1] = (struct way){run, theirs, 0, theirs->packet, compared};
  l->ways[LIMIT] = (struct way){limit, sender_of(&plain, s)};
}

static void fill_add(struct table *t, struct setting s) { add_ways(add_line(t, s), s, run_add, limit_adding); }

// ISA-L takes the coefficients as given, and the window's symbols where they stand.
static void fill_repair(struct table *t, struct setting s) {
  struct line *l = add_line(t, s);
  add_ways(l, s, run_repair, limit_repair);
  if (s.scheme != 10) return;
  struct sender *other = sender_of(&plain, s);
  u8 *coefficients = room(KEYS * s.width), **rows = (u8 **)room(s.width * sizeof *rows);
  for (size_t key = 0; key < KEYS; key++) plain_coefficients(coefficients + key * s.width, s.width, s.scheme, key, DT);
  for (size_t k = 0; k < s.width; k++) rows[k] = other->memory + SENDER_HEADER + (s.width / 2 + k) % s.width * s.size;
  add_isal(l, 2, 0, s.size, s.width, s.width, coefficients, rows);
  for (int k = 2; k < 6; k++) l->ways[k].from = 8;
}

int main(void) {
  static struct table add = {"Adding an ADU of one symbol", {"", "plain Rust"}};
  static struct table repair = {"Making a repair packet of one symbol over the full window, DT 15", {"", "plain Rust", ISAL_NAMES}};
  make(&add, fill_add);
  make(&repair, fill_repair);
}
