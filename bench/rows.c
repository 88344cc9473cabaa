// The row operation dst += c * src, and a repair symbol as the sum of many rows, each times a coefficient.
#include "library.h"
#include "table.h"
#include "isal.h"
#include "limit.h"
#define OPERATIONS 16

// `count` rows of n bytes, one after the other; coefficients, those of a key `step` after those of the key before, and the rows that they meet; and
// what the rows are added to.
struct rows {
  const struct library *library;
  size_t n, count, step;
  u8 *bytes, *coefficients;
  struct met *met;
  u8 *dst;
};

static void run_add(void *of, size_t key) {
  struct rows *r = of;
  const u8 *c = r->coefficients + key * r->step;
  for (size_t k = 0; k < r->count; k++) r->library->add_scaled(r->dst, r->n, r->bytes + k * r->n, r->n, c[k]);
}
static void run_tables(void *of, size_t key) {
  struct rows *r = of;
  const u8 *c = r->coefficients + key * r->step;
  for (size_t k = 0; k < r->count; k++) r->library->add_by_tables(r->dst, r->n, r->bytes + k * r->n, r->n, c[k]);
}
static void run_combine(void *of, size_t key) {
  struct rows *r = of;
  r->library->combine(r->dst, r->n, r->coefficients + key * r->step, r->count, r->bytes, r->count * r->n);
}
static void run_each(void *of, size_t key) {
  struct rows *r = of;
  memset(r->dst, 0, r->n);
  run_add(r, key);
}
// The limit of a row operation: both rows are read, one is written; here one after the other of the rows, to which the same row is added.
static void limit_operation(void *of, size_t key) {
  struct rows *r = of;
  for (size_t k = 0; k < r->count; k++) limit_add(r->bytes + k * r->n, r->dst, r->n);
}
// The limit of a sum: the rows whose coefficients are not 0 are read, and a row is written. Which rows these are is listed beforehand.
static void limit_combine(void *of, size_t key) {
  struct rows *r = of;
  limit_sum(r->dst, r->n, r->bytes, r->n, r->met[key].rows, r->met[key].count);
}

static u8 *noise(size_t n) {
  u8 *block = room(n);
  for (size_t i = 0; i < n; i++) block[i] = rand();
  return block;
}

// Rows with coefficients from `lowest` to `highest`.
static struct rows some_rows(size_t n, size_t count, size_t step, int lowest, int highest) {
  size_t all = (KEYS - 1) * step + count;
  struct rows r = {0, n, count, step, noise(n * count), room(all)};
  for (size_t k = 0; k < all; k++) r.coefficients[k] = lowest + rand() % (highest - lowest + 1);
  return r;
}

static u8 **pointers(const struct rows *r) {
  u8 **rows = (u8 **)room(r->count * sizeof *rows);
  for (size_t k = 0; k < r->count; k++) rows[k] = r->bytes + k * r->n;
  return rows;
}

// A way of a library on the rows; the limit's gives other bytes.
static void add_way(struct line *l, int way, action *run, const struct library *library, struct rows like) {
  struct rows *r = (struct rows *)room(sizeof *r);
  *r = like, r->library = library, r->dst = room(r->n);
  l->ways[way] = (struct way){run, r, 0, library ? r->dst : 0, r->n};
}

// With each key so many operations: with the key's coefficient, the next key's and so on. KEYS coefficients of scheme 10 are all different.
static void fill_operation(struct table *t, struct setting s) {
  struct line *l = add_line(t, s);
  struct rows r = some_rows(s.width + s.size, OPERATIONS, 1, 1, 1);
  if (s.scheme == 10) for (size_t k = 0; k < KEYS - 1 + OPERATIONS; k++) r.coefficients[k] = 2 + k % KEYS * 67 % 254;
  l->operations = OPERATIONS;
  add_way(l, 0, run_add, &proved, r);
  add_way(l, 1, run_add, &plain, r);
  add_way(l, 2, run_tables, &proved, r);
  if (s.scheme == 10) add_isal(l, 3, 1, r.n, r.count, r.step, r.coefficients, pointers(&r));
  r.bytes = noise(r.n * r.count);
  add_way(l, LIMIT, limit_operation, 0, r);
}

static void fill_sum(struct table *t, struct setting s) {
  struct line *l = add_line(t, s);
  struct rows r = s.scheme == 9 ? some_rows(s.size, s.width, s.width, 0, 1) : some_rows(s.size, s.width, s.width, 1, 255);
  add_way(l, 0, run_combine, &proved, r);
  add_way(l, 1, run_combine, &plain, r);
  add_way(l, 2, run_each, &proved, r);
  if (s.scheme == 10) add_isal(l, 3, 0, r.n, r.count, r.step, r.coefficients, pointers(&r));
  r.met = (struct met *)room(KEYS * sizeof *r.met);
  for (size_t key = 0; key < KEYS; key++) r.met[key] = met_by(r.coefficients + key * r.step, r.count);
  add_way(l, LIMIT, limit_combine, 0, r);
}

// The operations that no table has give the same bytes too, and sums do in rows of any length and of any number: one after the other, by lists, in
// buckets and in buckets from sorted rows, each of these in more than one block.
static void check_others(size_t n, int highest) {
  struct rows r = some_rows(n, 300, 0, 0, highest);
  size_t all = r.n * r.count;
  u8 *ours = memcpy(room(all), r.bytes, all), *theirs = memcpy(room(all), r.bytes, all);
  for (size_t k = 0; k + 1 < r.count; k++) {
    proved.add_within(ours, all, (k + 1) * r.n, k * r.n, r.n, r.coefficients[k]);
    plain.add_within(theirs, all, (k + 1) * r.n, k * r.n, r.n, r.coefficients[k]);
  }
  for (size_t k = 0; k < r.count; k++) {
    proved.add_combination(ours, r.n, r.coefficients, k + 1, r.bytes, (k + 1) * r.n);
    plain.add_combination(theirs, r.n, r.coefficients, k + 1, r.bytes, (k + 1) * r.n);
    plain.add_by_tables(ours, r.n, r.bytes, r.n, r.coefficients[k]);
    proved.add_by_tables(theirs, r.n, r.bytes, r.n, r.coefficients[k]);
  }
  expect("add_within, add_combination or add_by_tables", !memcmp(ours, theirs, all));
}

int main(void) {
  static struct table operation = {"Row operation: a row of width + E bytes += c × another", {"", "plain Rust", "products", ISAL_NAMES}};
  static struct table sum = {"Repair symbol: the sum of `width` rows of E bytes, each times a coefficient", {"", "plain Rust", "rows", ISAL_NAMES}};
  static const size_t lengths[] = {1, 4, 33, 63, 64, 65, 100, 319, 320, 321, 512, 1400};
  srand(8681);
  for (int k = 0; k < 12; k++) check_others(lengths[k], 1), check_others(lengths[k], 2), check_others(lengths[k], 255);
  make(&operation, fill_operation);
  make(&sum, fill_sum);
}
