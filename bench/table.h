// Tables of measurements: one line for each scheme, width and E; on a line the ways to do the same thing, crate `bench`'s first. All take the same KEYS
// keys in turn, so that no coefficients are learnt by heart. With each key the ways must give the same bytes before they are measured. Each way's time
// is the best of ROUNDS rounds, in which all ways of all lines take turns.
#include <stdint.h>
#include <stdio.h>
#include <stdlib.h>
#include <string.h>
#include <time.h>
typedef uint8_t u8;
#define KEYS 64
#define ROUNDS 40
#define ROUND_NS 200000.0
#define WAYS 8
#define LIMIT 7
#define LINES 32

// What is done with a key, and on what.
typedef void action(void *of, size_t key);

// A way: what is run with a key, on what; what makes it ready for the key, not measured (or 0); the bytes that it leaves (or 0), which are those that
// the first way leaves, from byte `from` on; and its time. The way LIMIT is the physical limit, see limit.h: its time is printed, not its ratio.
struct way {
  action *run;
  void *of;
  action *ready;
  const u8 *left;
  size_t count, from;
  double ns;
};

// A line: how many operations a run has, how many symbols of `size` bytes one operation is about, and its ways. A way that is not there has no `run`.
struct line {
  char name[120];
  int operations, symbols;
  size_t size;
  struct way ways[WAYS];
};

// A table: its title, the names of its ways, and its lines.
struct table {
  const char *title, *ways[WAYS];
  struct line lines[LINES];
  int count;
};

struct setting {
  size_t scheme, width, size;
};

// The ways to the same thing differ, or a call answers something else.
static void wrong(const char *table, const char *line, const char *what) {
  printf("WRONG: %s, %s: %s\n", table, line, what);
  exit(1);
}
static void expect(const char *call, int holds) {
  if (!holds) wrong(call, "its answer", "another one was expected");
}

// A block of zeros that begins where a cache line does.
static u8 *room(size_t n) {
  u8 *block = aligned_alloc(64, (n + 63) / 64 * 64);
  if (!block) exit(2);
  return memset(block, 0, n);
}

static const char *with_comma(double x) {
  static char text[4][32];
  static int turn;
  char *t = text[turn++ % 4];
  if (x < 10) sprintf(t, "%.1f", x);
  else if (x < 999.5) sprintf(t, "%.0f", x);
  else if (x < 999999.5) sprintf(t, "%ld,%03ld", (long)(x + 0.5) / 1000, (long)(x + 0.5) % 1000);
  else sprintf(t, "%ld,%03ld,%03ld", (long)(x + 0.5) / 1000000, (long)(x + 0.5) / 1000 % 1000, (long)(x + 0.5) % 1000);
  return t;
}

static double now(void) {
  struct timespec t;
  clock_gettime(CLOCK_MONOTONIC, &t);
  return t.tv_sec * 1e9 + t.tv_nsec;
}

// The time of a run, in so many turns of all keys. Where nothing makes it ready, a turn before them is not measured.
static double batch(const struct way *w, int turns) {
  double spent = 0;
  for (int turn = w->ready ? 0 : -1; turn < turns; turn++) {
    double start = now();
    for (size_t key = 0; key < KEYS; key++) {
      if (w->ready) w->ready(w->of, key), start = now();
      w->run(w->of, key);
      if (w->ready) spent += now() - start;
    }
    if (!w->ready && turn >= 0) spent += now() - start;
  }
  return spent / turns / KEYS;
}

// Each way once with each key; then the bytes that it left are those of the first.
static void check(const struct table *t) {
  for (const struct line *l = t->lines; l < t->lines + t->count; l++)
    for (size_t key = 0; key < KEYS; key++)
      for (const struct way *w = l->ways; w < l->ways + WAYS; w++) {
        if (!w->run) continue;
        if (w->ready) w->ready(w->of, key);
        w->run(w->of, key);
        if (w->left && memcmp(w->left, l->ways->left + w->from, w->count)) wrong(t->title, l->name, t->ways[w - l->ways]);
      }
}

static void measure(struct table *t) {
  for (int round = -1; round < ROUNDS; round++)
    for (struct line *l = t->lines; l < t->lines + t->count; l++)
      for (struct way *w = l->ways; w < l->ways + WAYS; w++) {
        if (!w->run) continue;
        double ns = batch(w, round < 0 ? 1 : (int)(ROUND_NS / KEYS / w->ns) + 1);
        if (round < 0 || ns < w->ns) w->ns = ns;
      }
}

// The time of a symbol at 33.6 Mbit/s, in ns.
static double symbol_time(size_t size) { return size * 8 / 0.0336; }

static void print(const struct table *t) {
  int present[WAYS] = {0};
  for (const struct line *l = t->lines; l < t->lines + t->count; l++)
    for (int w = 1; w < WAYS; w++) present[w] |= l->ways[w].run != 0;
  printf("\n### %s\n\n| what | ns |%s", t->title, present[LIMIT] ? " limit, ns |" : "");
  for (int w = 1; w < LIMIT; w++) if (present[w]) printf(" to %s |", t->ways[w]);
  printf(" share |\n|---|---|");
  for (int w = 1; w < WAYS; w++) if (present[w]) printf("---|");
  printf("---|\n");
  for (const struct line *l = t->lines; l < t->lines + t->count; l++) {
    double ns = l->ways->ns / l->operations;
    printf("| %s | %s |", l->name, with_comma(ns));
    if (present[LIMIT]) printf(" %s |", with_comma(l->ways[LIMIT].ns / l->operations));
    for (int w = 1; w < LIMIT; w++)
      if (present[w] && l->ways[w].run) printf(" %.2f |", l->ways->ns / l->ways[w].ns);
      else if (present[w]) printf(" |");
    printf(" %.2f %% |\n", 100 * ns / l->symbols / symbol_time(l->size));
  }
  fflush(stdout);
}

// A new line of the table, named after its setting.
static inline struct line *add_line(struct table *t, struct setting s) {
  struct line *l = &t->lines[t->count++];
  sprintf(l->name, "scheme %zu, width %zu, E %s", s.scheme, s.width, with_comma(s.size));
  l->operations = l->symbols = 1;
  l->size = s.size;
  return l;
}

// Makes a table: a line for each scheme, width and E; then checks, measures and prints it.
static inline void make(struct table *t, void (*fill)(struct table *, struct setting)) {
  static const size_t schemes[] = {9, 10}, widths[] = {16, 64, 255}, sizes[] = {64, 1400};
  for (int s = 0; s < 2; s++)
    for (int w = 0; w < 3; w++)
      for (int e = 0; e < 2; e++) fill(t, (struct setting){schemes[s], widths[w], sizes[e]});
  check(t);
  measure(t);
  print(t);
}
