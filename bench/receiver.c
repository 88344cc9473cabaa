// The receiver's calls: a source packet that is new or known already, a repair packet over known symbols, the repair packets that recover what a
// burst took, the longest call of those tried, and handing out an ADU of one symbol; and the work on marks in a new source packet.
#include "library.h"
#include "table.h"
#include "limit.h"
#define PACKETS 40
#define TRIED 3
#define ADU_MOST 65535

// What comes to a line's receivers with a key: `count` source or repair packets of `size` bytes, one after the other, with which `known` symbols become
// known; the memory before them; and of each repair packet the known rows that its coefficients meet.
struct arrival {
  int source;
  size_t count, size, known;
  u8 *packets, *before;
  struct met *met;
};

// A receiver, its answer before its memory and an ADU after it, so that all three are compared.
struct receiver {
  const struct library *library;
  struct setting setting;
  struct arrival *arrivals;
  size_t memory_size, work_size, slot, *answer;
  u8 *memory, *adu, *work, coefficients[255];
  uint32_t esi;
};

static size_t adu_size(struct setting s) { return s.size - 3; }
static size_t source_size(struct setting s) { return adu_size(s) + 4; }
static size_t repair_size(struct setting s, size_t symbols) { return 8 + symbols * s.size; }
static size_t row_size(struct setting s) { return s.width + s.size + 4; }
// The bytes of a receiver, and of its working memory: past the rows a byte for each.
static size_t memory_of(struct setting s) { return RECEIVER_HEADER + s.width * (row_size(s) + 1); }
static size_t work_of(struct setting s) { return RECEIVER_HEADER + (s.width + 1) * (row_size(s) + 1); }
static size_t compared(const struct receiver *r) { return sizeof(size_t) + r->memory_size + adu_size(r->setting); }
static u8 *row_of(const struct receiver *r, size_t row) { return r->memory + RECEIVER_HEADER + row * row_size(r->setting); }
static u8 *symbol_of(const struct receiver *r, size_t row) { return row_of(r, row) + r->setting.width; }

static size_t take(struct receiver *r, int source, const u8 *packet, size_t n) {
  if (source) return r->library->receive_source(r->memory, r->memory_size, r->work, r->work_size, 1, packet, n);
  return r->library->receive_repair(r->memory, r->memory_size, r->work, r->work_size, packet, n);
}

// What the receiver answered, of several packets added up; the draws are compared with the other ways' too.
static void answer(struct receiver *r, size_t n, size_t expected) {
  *r->answer = n;
  expect("the receiver", value(n) == expected);
}

static void run_packets(void *of, size_t key) {
  struct receiver *r = of;
  const struct arrival *a = &r->arrivals[key];
  size_t sum = 0;
  for (size_t k = 0; k < a->count; k++) sum += take(r, a->source, a->packets + k * a->size, a->size);
  answer(r, sum, a->known);
}
static void ready_memory(void *of, size_t key) {
  struct receiver *r = of;
  memcpy(r->memory, r->arrivals[key].before, r->memory_size);
}
// The packet gets the next ESI.
static void run_new(void *of, size_t key) {
  struct receiver *r = of;
  u8 *packet = r->arrivals[key].packets, *esi = packet + adu_size(r->setting);
  r->esi++;
  esi[0] = r->esi >> 24, esi[1] = r->esi >> 16, esi[2] = r->esi >> 8, esi[3] = r->esi;
  answer(r, take(r, 1, packet, source_size(r->setting)), 1);
}
// The next row in turn.
static size_t next_row(struct receiver *r) { return r->slot = r->slot + 1 == r->setting.width ? 0 : r->slot + 1; }
// The ADU of each position in turn.
static void run_adu(void *of, size_t key) {
  struct receiver *r = of;
  size_t n = adu_size(r->setting);
  answer(r, r->library->adu(r->memory, r->memory_size, r->esi - next_row(r), r->adu, n), n);
}
// The window's newest position is taken for one that a packet has just brought: the window began a row before. Bytes 8 and 9 of the memory are one more
// than the base's row.
static void run_marks(void *of, size_t key) {
  struct receiver *r = of;
  size_t w = r->setting.width, row = r->memory[8] * 256 + r->memory[9] - 1;
  r->library->marks(r->memory, r->memory_size, r->setting.size, w, row ? row - 1 : w - 1);
}

// The limit of a new source packet: its ADU is copied into a row.
static void limit_new(void *of, size_t key) {
  struct receiver *r = of;
  memcpy(symbol_of(r, next_row(r)) + 3, r->arrivals[key].packets, adu_size(r->setting));
}
// The limit of a repeated one: its ADU is compared with the one in its row.
static size_t position_of(struct setting s, size_t key) { return key * ((s.width + KEYS - 1) / KEYS) % s.width; }
static void limit_repeated(void *of, size_t key) {
  struct receiver *r = of;
  expect("memcmp", !memcmp(symbol_of(r, position_of(r->setting, key)) + 3, r->arrivals[key].packets, adu_size(r->setting)));
}
// The limit of handing out: the ADU is copied.
static void limit_adu(void *of, size_t key) {
  struct receiver *r = of;
  memcpy(r->adu, symbol_of(r, next_row(r)) + 3, adu_size(r->setting));
}
// Draws the coefficients of a repair packet's i-th symbol; all packets here name a whole window.
static void draw(u8 *coefficients, struct setting s, const u8 *packet, size_t i) {
  plain_coefficients(coefficients, s.width, s.scheme, packet[0] * 256 + packet[1] + i, packet[2] / 16);
}
// The limit of repair packets of one symbol: for each the coefficients are drawn and the known symbols that they meet and the packet's are read; and
// each symbol that becomes known is read and written once.
static void limit_repairs(void *of, size_t key) {
  struct receiver *r = of;
  const struct arrival *a = &r->arrivals[key];
  struct setting s = r->setting;
  for (size_t k = 0; k < a->count; k++) {
    const u8 *packet = a->packets + k * a->size;
    draw(r->coefficients, s, packet, 0);
    limit_sum(r->work, s.size, symbol_of(r, 0), row_size(s), a->met[k].rows, a->met[k].count);
    limit_add(r->work, packet + 8, s.size);
  }
  for (size_t k = 0; k < a->known; k++) limit_add(symbol_of(r, s.width - 1 - k), r->work, s.size);
}
// The limit of the longest call: the coefficients of a repair packet are drawn, and each row of the window, width + E bytes, is read and written once.
static void limit_longest(void *of, size_t key) {
  struct receiver *r = of;
  const struct arrival *a = &r->arrivals[key];
  struct setting s = r->setting;
  if (!a->source) for (size_t i = 0; i < (a->size - 8) / s.size; i++) draw(r->coefficients, s, a->packets, i);
  for (size_t row = 0; row < s.width; row++) limit_add(row_of(r, row), r->work, s.width + s.size);
}

// A sender, of the proved code: all ways take its packets.
struct sender {
  struct setting setting;
  size_t size;
  u8 *memory;
};
static struct sender sender_of(struct setting s) {
  size_t size = SENDER_HEADER + s.width * s.size;
  return (struct sender){s, size, room(size)};
}
static void open_sender(struct sender *s) {
  expect("sender_open", proved.sender_open(s->memory, s->size, s->setting.scheme, s->setting.size, s->setting.width, all_flows) == 0);
}
// Writes the source packet of an ADU of so many symbols, the k-th. Gives its size.
static size_t send(struct sender *s, size_t symbols, size_t k, u8 *packet) {
  static u8 adu[ADU_MOST];
  size_t n = symbols * s->setting.size - 3;
  if (ADU_MOST < n) n = ADU_MOST;
  for (size_t i = 0; i < n; i++) adu[i] = i * i + 13 * k;
  expect("add_adu", proved.add_adu(s->memory, s->size, 1, adu, n, packet, n + 4) == n + 4);
  return n + 4;
}
// Writes a repair packet of so many symbols. Gives its size.
static size_t mend(struct sender *s, uint16_t key, size_t dt, size_t symbols, u8 *packet) {
  size_t n = repair_size(s->setting, symbols);
  expect("make_repair", value(proved.make_repair(s->memory, s->size, key, dt, symbols, packet, n)) == n);
  return n;
}
// At DT 15 scheme 9 has but one equation; at DT 7 it has half of all.
static size_t recovering_dt(struct setting s) { return s.scheme == 9 ? 7 : 15; }

static void open_receiver(struct receiver *r) {
  struct setting s = r->setting;
  expect("receiver_open", r->library->receiver_open(r->memory, r->memory_size, s.scheme, s.size, s.width, all_flows) == 0);
}
// The receivers of a line, of the proved code, of plain Rust and one for the limit or another way of the proved code.
static void receivers_of(struct receiver *ends[3], struct setting s) {
  struct arrival *arrivals = (struct arrival *)room(KEYS * sizeof *arrivals);
  for (int k = 0; k < 3; k++) {
    struct receiver *r = ends[k] = (struct receiver *)room(sizeof *r);
    r->library = k == 1 ? &plain : &proved, r->setting = s, r->arrivals = arrivals;
    r->memory_size = memory_of(s), r->work_size = work_of(s);
    r->answer = (size_t *)room(compared(r)), r->memory = (u8 *)(r->answer + 1), r->adu = r->memory + r->memory_size, r->work = room(r->work_size);
    open_receiver(r);
  }
}
// All take the next of the sender's ADUs, of one symbol, unless it is lost; its source packet is written to `packet`.
static void hear(struct receiver *ends[3], struct sender *sender, size_t k, int lost, u8 *packet) {
  size_t n = send(sender, 1, k, packet);
  for (int e = 0; e < 3; e++) {
    if (!lost) expect("receive_source", value(take(ends[e], 1, packet, n)) == 1);
    ends[e]->esi = k;
  }
}
static void add_ways(struct line *l, action *run, action *ready, int third, action *other, struct receiver *ends[3]) {
  for (int k = 0; k < 2; k++) l->ways[k] = (struct way){run, ends[k], ready, (u8 *)ends[k]->answer, compared(ends[k])};
  l->ways[third] = (struct way){other, ends[2]};
}

// The known rows, of the first `heard`, that the packets' coefficients meet.
static void meet(struct arrival *a, struct setting s, size_t heard) {
  u8 coefficients[255];
  a->met = (struct met *)room(a->count * sizeof *a->met);
  for (size_t k = 0; k < a->count; k++) {
    draw(coefficients, s, a->packets + k * a->size, 0);
    a->met[k] = met_by(coefficients, heard);
  }
}

// A line on receivers to which all symbols of two windows came. With each key comes one packet: the source packet of one of the window's positions, or
// a repair packet.
static void fill(struct table *t, struct setting s, int source, action *run, int third, action *other) {
  struct receiver *ends[3];
  struct sender sender = sender_of(s);
  size_t n = source_size(s);
  u8 *sources = room(2 * s.width * n);
  receivers_of(ends, s);
  open_sender(&sender);
  for (size_t k = 0; k < 2 * s.width; k++) hear(ends, &sender, k, 0, sources + k * n);
  for (size_t key = 0; key < KEYS; key++) {
    struct arrival *a = &ends[0]->arrivals[key];
    *a = (struct arrival){source, 1, n, 0, sources + (s.width + position_of(s, key)) * n};
    if (source) continue;
    a->packets = room(repair_size(s, 1));
    a->size = mend(&sender, key, 15, 1, a->packets);
    meet(a, s, s.width);
  }
  add_ways(add_line(t, s), run, 0, third, other, ends);
}
static void fill_new(struct table *t, struct setting s) { fill(t, s, 1, run_new, LIMIT, limit_new); }
static void fill_marks(struct table *t, struct setting s) { fill(t, s, 1, run_marks, 2, run_new); }
static void fill_repeated(struct table *t, struct setting s) { fill(t, s, 1, run_packets, LIMIT, limit_repeated); }
static void fill_known(struct table *t, struct setting s) { fill(t, s, 0, run_packets, LIMIT, limit_repairs); }
static void fill_adu(struct table *t, struct setting s) { fill(t, s, 1, run_adu, LIMIT, limit_adu); }

// A line on a burst: a quarter, an eighth or a sixteenth of the window is lost. With each key come other repair packets, as many as recover it.
static void fill_burst(struct table *t, struct setting s) {
  size_t lost = s.width == 16 ? 4 : s.width == 64 ? 8 : 16, all = 0;
  struct line *l = add_line(t, s);
  struct receiver *ends[3], *r;
  struct sender sender = sender_of(s);
  u8 *packet = room(source_size(s));
  receivers_of(ends, s);
  open_sender(&sender);
  for (size_t k = 0; k < s.width; k++) hear(ends, &sender, k, s.width <= k + lost, packet);
  r = ends[0];
  u8 *before = memcpy(room(r->memory_size), r->memory, r->memory_size);
  for (size_t key = 0; key < KEYS; key++) {
    struct arrival *a = &r->arrivals[key];
    *a = (struct arrival){.size = repair_size(s, 1), .packets = room(PACKETS * repair_size(s, 1)), .before = before};
    ready_memory(r, key);
    while (a->known < lost) {
      expect("receive_repair", a->count < PACKETS);
      u8 *next = a->packets + a->count * a->size;
      mend(&sender, key * PACKETS + a->count++, recovering_dt(s), 1, next);
      a->known += value(take(r, 0, next, a->size));
    }
    meet(a, s, s.width - lost);
    all += a->count;
  }
  sprintf(l->name + strlen(l->name), ", %zu lost, %.1f repair", lost, (double)all / KEYS);
  l->symbols = lost;
  add_ways(l, run_packets, ready_memory, LIMIT, limit_repairs, ends);
}

// A call that may be the longest: a repair packet of so many symbols, or the source packet of an ADU of so many symbols from a position on. Only repair
// packets came before, so many that `missing` equations lack to know the whole window; with the call it is known.
struct call {
  int source;
  size_t symbols, position, missing;
  double ns;
};

// How many rows have a flag that is at least this: from 1 on they are in use, from 2 on known.
static size_t rows_with(const struct receiver *r, u8 flag) {
  size_t count = 0;
  for (size_t row = 0; row < r->setting.width; row++) count += flag <= row_of(r, row)[r->setting.width + r->setting.size];
  return count;
}

// Makes an arrival of a call. The repair packets before it, of one symbol, have keys from one on that no other arrival begins with.
static void arrange(struct arrival *a, struct receiver *r, struct sender *sender, struct call c) {
  struct setting s = r->setting;
  size_t dt = recovering_dt(s), known;
  uint16_t key = (a - r->arrivals) * (65536 / KEYS);
  static u8 packet[ADU_MOST + 4];
  a->source = c.source, a->count = 1;
  open_sender(sender);
  for (size_t k = 0; k < s.width; k++) {
    if (!c.source || k != c.position) send(sender, 1, k, packet);
    else a->size = send(sender, c.symbols, k, a->packets), k += c.symbols - 1;
  }
  do {
    open_receiver(r);
    while (rows_with(r, 1) + c.missing < s.width) take(r, 0, packet, mend(sender, key++, dt, 1, packet));
    memcpy(a->before, r->memory, r->memory_size);
    known = rows_with(r, 2);
    if (!c.source) a->size = mend(sender, key, dt, c.symbols, a->packets), key += c.symbols;
    a->known = value(take(r, a->source, a->packets, a->size));
  } while (known + a->known < s.width);
}

// The time of a call with the proved code: the mean of TRIED keys, of each the best of TRIED times.
static double time_of(struct call c, struct receiver *r, struct sender *sender) {
  double sum = 0;
  for (size_t key = 0; key < TRIED; key++) {
    double best = 0;
    arrange(&r->arrivals[key], r, sender, c);
    for (int k = 0; k < TRIED; k++) {
      ready_memory(r, key);
      double start = now();
      run_packets(r, key);
      double ns = now() - start;
      if (!k || ns < best) best = ns;
    }
    sum += best;
  }
  return sum / TRIED;
}

static int longer_first(const void *a, const void *b) {
  double x = ((const struct call *)a)->ns, y = ((const struct call *)b)->ns;
  return (x < y) - (y < x);
}

// Finds the longest call: repair packets of n symbols where n equations lack, and of 16 where fewer do; and the same of source packets, of the oldest or
// the newest symbols of the window, up to as many as an ADU can have. Where none lacks, the packet's symbols are all known. All are tried, then again
// and again the longest third of them, and the least time of each counts.
static struct call longest_of(struct receiver *r, struct sender *sender) {
  size_t w = r->setting.width, most = (3 + ADU_MOST + r->setting.size - 1) / r->setting.size, count = 0;
  struct call calls[100];
  if (w < most) most = w;
  for (size_t n = 1; n <= 16; n++) calls[count++] = (struct call){0, n, 0, n}, calls[count++] = (struct call){0, 16, 0, n - 1};
  for (size_t k = 0; k <= 16; k++)
    for (int newest = 0; newest < 2; newest++) {
      size_t n = most * k / 16;
      if (n) calls[count++] = (struct call){1, n, newest ? w - n : 0, n};
      if (n < most && (!newest || most < w)) calls[count++] = (struct call){1, most, newest ? w - most : 0, n};
    }
  for (size_t left = count; left; left /= 3) {
    for (struct call *c = calls; c < calls + left; c++) {
      double ns = time_of(*c, r, sender);
      if (!c->ns || ns < c->ns) c->ns = ns;
    }
    qsort(calls, left, sizeof *calls, longer_first);
  }
  return calls[0];
}

static void fill_longest(struct table *t, struct setting s) {
  struct receiver *ends[3];
  struct sender sender = sender_of(s);
  struct line *l = add_line(t, s);
  receivers_of(ends, s);
  for (size_t key = 0; key < KEYS; key++) {
    struct arrival *a = &ends[0]->arrivals[key];
    a->before = room(ends[0]->memory_size), a->packets = room(ADU_MOST + 4);
  }
  struct call c = longest_of(ends[0], &sender);
  for (size_t key = 0; key < KEYS; key++) arrange(&ends[0]->arrivals[key], ends[0], &sender, c);
  sprintf(l->name + strlen(l->name), ": %s packet of %s%zu symbols after %zu equation%s", c.source ? "source" : "repair",
    !c.source || c.symbols == s.width ? "" : c.position ? "the newest " : "the oldest ", c.symbols, s.width - c.missing,
    s.width - c.missing == 1 ? "" : "s");
  add_ways(l, run_packets, ready_memory, LIMIT, limit_longest, ends);
}

// Both join alike, just below the wrap: nothing is shown before, and a repair packet of two unlike symbols sets no base. Then all is heard, but what a
// repair packet over one symbol brings.
static void check_joining(void) {
  const struct setting s = {9, 4, 4};
  const struct library *ways[2] = {&proved, &plain};
  const size_t size = memory_of(s), work_size = work_of(s), refused = 1000000, solved = 0, heard = (size_t)1 << 32;
  const u8 unlike[] = {0, 0, 0xf0, 2, 0, 0, 1, 0, 0, 0, 0, 3, 0, 0, 0, 4}, eighth[] = {0, 0, 0xf0, 1, 0, 0, 0, 5, 1, 0, 1, 0x48};
  u8 *memory[2] = {room(size), room(size)}, *work = room(work_size), adu;
  for (int k = 0; k < 2; k++) {
    const struct library *l = ways[k];
    expect("receiver_open", l->receiver_open(memory[k], size, s.scheme, s.size, s.width, all_flows) == 0);
    expect("receive_repair", l->receive_repair(memory[k], size, work, work_size, unlike, sizeof unlike) == refused);
    expect("symbol", l->symbol(memory[k], size, 256) == refused && l->symbol(memory[k], size, 0xfffffffe) == refused);
    for (uint32_t i = 0; i < 7; i++) {
      const uint32_t esi = 0xfffffffe + i;
      const u8 source[] = {0x41 + i, esi >> 24, esi >> 16, esi >> 8, esi};
      expect("receive_source", l->receive_source(memory[k], size, work, work_size, 1, source, sizeof source) == 1);
      expect("adu", l->adu(memory[k], size, esi, &adu, 1) == 1 && adu == 0x41 + i && l->symbol(memory[k], size, 0xfffffffd) == refused);
      expect("symbol", l->symbol(memory[k], size, esi) == heard);
    }
    expect("receive_repair", l->receive_repair(memory[k], size, work, work_size, eighth, sizeof eighth) == 1);
    expect("symbol", l->symbol(memory[k], size, 5) == solved && l->symbol(memory[k], size, 4) == heard);
  }
  expect("joining", !memcmp(memory[0], memory[1], size));
}

#define NAMES {"", "plain Rust"}
int main(void) {
  static struct table news = {"New source packet of one symbol", NAMES}, repeated = {"Repeated source packet of one symbol", NAMES},
    known = {"Repair packet of one symbol, DT 15, all symbols of the window known", NAMES}, burst = {"Recovery after a burst", NAMES},
    adu = {"Handing out an ADU of one symbol", NAMES},
    longest = {"Longest call: of those tried, a packet with which the whole window is known, after equations of repair packets alone", NAMES},
    marks = {"The work on marks in a new source packet of one symbol, all positions marked and known", {"", "plain Rust", "the whole call for a new source packet"}};
  check_joining();
  make(&news, fill_new);
  make(&marks, fill_marks);
  make(&repeated, fill_repeated);
  make(&known, fill_known);
  make(&burst, fill_burst);
  make(&longest, fill_longest);
  make(&adu, fill_adu);
}
