// Intel's ISA-L, where bench/run finds it (ISAL): rows[k], of n bytes, times the k-th coefficient of a key, summed up; by the functions that it picks
// for the machine, with its tables made beforehand or in the call, by its SSE4.1 functions and by its base functions, which are plain C.
#define ISAL_NAMES "ISA-L", "ISA-L, tables", "its SSE4.1", "its C"
#ifdef ISAL
#include <isa-l.h>

// The coefficients of a key begin `step` after those of the key before. Of each coefficient there is a table made beforehand, and for those of one key
// there is room to make them in the call.
struct encoding {
  size_t n, count, step;
  u8 *coefficients, *tables, *made, **rows, *dst;
};

static u8 *tables_of(const u8 *coefficients, size_t n) {
  u8 *tables = room(32 * n);
  for (size_t k = 0; k < n; k++) ec_init_tables(1, 1, (u8 *)coefficients + k, tables + 32 * k);
  return tables;
}
static u8 *beforehand(struct encoding *e, size_t key) { return e->tables + 32 * key * e->step; }
static u8 *in_the_call(struct encoding *e, size_t key) {
  ec_init_tables(e->count, 1, e->coefficients + key * e->step, e->made);
  return e->made;
}

// Clears the upper halves of the vector registers, which ISA-L leaves in use: until then SSE2 code, which knows nothing of them, is slow.
static __attribute__((target("avx"))) void clear_upper_halves(void) { __builtin_ia32_vzeroupper(); }
static void leave(void) {
  if (__builtin_cpu_supports("avx")) clear_upper_halves();
}

// dst becomes the sum.
#define ENCODE(name, call, tables)                                                                 \
  static void name(void *of, size_t key) {                                                         \
    struct encoding *e = of;                                                                       \
    call(e->n, e->count, 1, tables(e, key), e->rows, &e->dst);                                     \
    leave();                                                                                       \
  }
ENCODE(run_encode, ec_encode_data, beforehand)
ENCODE(run_encode_tables, ec_encode_data, in_the_call)
ENCODE(run_encode_sse, ec_encode_data_sse, beforehand)
ENCODE(run_encode_base, ec_encode_data_base, beforehand)

// The rows are added to dst one by one.
#define ADD(name, call, tables)                                                                    \
  static void name(void *of, size_t key) {                                                         \
    struct encoding *e = of;                                                                       \
    u8 *first = tables(e, key);                                                                    \
    for (size_t k = 0; k < e->count; k++) call(e->n, 1, 0, first + 32 * k, e->rows[k], e->dst);    \
    leave();                                                                                       \
  }
ADD(run_mad, gf_vect_mad, beforehand)
ADD(run_mad_tables, gf_vect_mad, in_the_call)
ADD(run_mad_sse, gf_vect_mad_sse, beforehand)
ADD(run_mad_base, gf_vect_mad_base, beforehand)

static action *const encodings[] = {run_encode, run_encode_tables, run_encode_sse, run_encode_base};
static action *const additions[] = {run_mad, run_mad_tables, run_mad_sse, run_mad_base};
#endif

// The four ways of ISA-L, from `way` on.
static void add_isal(struct line *l, int way, int one_by_one, size_t n, size_t count, size_t step, u8 *coefficients, u8 **rows) {
#ifdef ISAL
  u8 *tables = tables_of(coefficients, (KEYS - 1) * step + count);
  for (int k = 0; k < 4; k++) {
    struct encoding *e = (struct encoding *)room(sizeof *e);
    *e = (struct encoding){n, count, step, coefficients, tables, room(32 * count), rows, room(n)};
    l->ways[way + k] = (struct way){one_by_one ? additions[k] : encodings[k], e, 0, e->dst, n};
  }
#endif
}
