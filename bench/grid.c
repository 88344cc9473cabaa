// A grid of symbols put into send order: by the proved call and by plain Rust, by a loop of the C library's memcpy over the symbols, and, as the limit, by one
// memcpy of all bytes in their order.
#include "table.h"

typedef size_t interleaving(const u8 *, size_t, size_t, size_t, size_t, u8 *, size_t);
interleaving bench_interleave, plain_interleave;

// A grid and its output: the input of a key begins a cache line after that of the key before.
struct grid {
  interleaving *call;
  size_t size, rows, columns, bytes;
  const u8 *in;
  u8 *out;
};

static const u8 *of_key(const struct grid *g, size_t key) { return g->in + 64 * key; }

static void run_call(void *of, size_t key) {
  struct grid *g = of;
  expect("interleave", g->call(of_key(g, key), g->bytes, g->size, g->rows, g->columns, g->out, g->bytes) == g->bytes);
}
static void run_memcpy(void *of, size_t key) {
  struct grid *g = of;
  const u8 *in = of_key(g, key);
  u8 *out = g->out;
  for (size_t c = 0; c < g->columns; c++)
    for (size_t r = 0; r < g->rows; r++, out += g->size) memcpy(out, in + (r * g->columns + c) * g->size, g->size);
}
static void limit_copy(void *of, size_t key) {
  struct grid *g = of;
  memcpy(g->out, of_key(g, key), g->bytes);
}

static struct grid *grid_of(interleaving *call, size_t size, size_t rows, size_t columns, const u8 *in) {
  struct grid *g = (struct grid *)room(sizeof *g);
  *g = (struct grid){call, size, rows, columns, rows * columns * size, in, room(rows * columns * size)};
  return g;
}

static void add_grid(struct table *t, size_t size, size_t rows, size_t columns) {
  struct line *l = &t->lines[t->count++];
  const size_t bytes = rows * columns * size, all = bytes + 64 * KEYS;
  sprintf(l->name, "%zu by %zu symbols, E %s, %s bytes", rows, columns, size == 4 ? "4" : with_comma(size), with_comma(bytes));
  l->operations = 1, l->symbols = rows * columns, l->size = size;
  u8 *in = room(all);
  for (size_t i = 0; i < all; i++) in[i] = rand();
  struct grid *ours = grid_of(bench_interleave, size, rows, columns, in), *theirs = grid_of(plain_interleave, size, rows, columns, in);
  struct grid *copied = grid_of(0, size, rows, columns, in);
  l->ways[0] = (struct way){run_call, ours, 0, ours->out, bytes};
  l->ways[1] = (struct way){run_call, theirs, 0, theirs->out, bytes};
  l->ways[2] = (struct way){run_memcpy, copied, 0, copied->out, bytes};
  l->ways[LIMIT] = (struct way){limit_copy, grid_of(0, size, rows, columns, in)};
}

int main(void) {
  static struct table t = {"A grid put into send order", {"crate bench", "plain Rust", "memcpy, a symbol"}};
  static const size_t sizes[] = {4, 64, 1400}, grids[][2] = {{4, 16}, {16, 64}, {64, 64}};
  for (int e = 0; e < 3; e++)
    for (int g = 0; g < 3; g++) add_grid(&t, sizes[e], grids[g][0], grids[g][1]);
  add_grid(&t, 4, 255, 255);
  check(&t), measure(&t), print(&t);
}
