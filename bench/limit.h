// The physical limit of a call: the time that merely reading the bytes that it must read and writing those that it must write takes, by the widest
// vector registers of the machine, with no product and no decision; and drawing the coefficients, where it must draw them. What is read and written
// is said before each table's function.
#define HELD 8

// So many registers of `bytes` bytes at a time: dst, of n bytes, becomes the sum of rows of mem, one every `stride` bytes; dst becomes dst + src.
// The last register's bytes begin early enough to be within the n, which are at least as many.
#define READING(name, isa, bytes)                                                                                                              \
  typedef uint64_t name##_block __attribute__((vector_size(bytes), aligned(1), may_alias));                                                    \
  static __attribute__((target(isa))) void name##_sum(u8 *dst, size_t n, const u8 *mem, size_t stride, const u8 *rows, size_t count) {         \
    typedef name##_block block;                                                                                                                \
    size_t i = 0;                                                                                                                              \
    for (; i + HELD * bytes <= n; i += HELD * bytes) {                                                                                         \
      block sum[HELD] = {0};                                                                                                                   \
      for (size_t k = 0; k < count; k++) {                                                                                                     \
        const block *row = (const block *)(mem + rows[k] * stride + i);                                                                        \
        _Pragma("GCC unroll 8") for (int j = 0; j < HELD; j++) sum[j] ^= row[j];                                                               \
      }                                                                                                                                        \
      _Pragma("GCC unroll 8") for (int j = 0; j < HELD; j++) ((block *)(dst + i))[j] = sum[j];                                                 \
    }                                                                                                                                          \
    for (; i < n; i += bytes) {                                                                                                                \
      block even = {0}, odd = {0};                                                                                                             \
      const u8 *from = mem + (i = i + bytes <= n ? i : n - bytes);                                                                             \
      for (size_t k = 0; k + 1 < count; k += 2) {                                                                                              \
        even ^= *(const block *)(from + rows[k] * stride);                                                                                     \
        odd ^= *(const block *)(from + rows[k + 1] * stride);                                                                                  \
      }                                                                                                                                        \
      if (count % 2) even ^= *(const block *)(from + rows[count - 1] * stride);                                                                \
      *(block *)(dst + i) = even ^ odd;                                                                                                        \
    }                                                                                                                                          \
  }                                                                                                                                            \
  static __attribute__((target(isa))) void name##_add(u8 *dst, const u8 *src, size_t n) {                                                      \
    typedef name##_block block;                                                                                                                \
    block last = *(block *)(dst + n - bytes) ^ *(const block *)(src + n - bytes);                                                              \
    for (size_t i = 0; i + bytes < n; i += bytes) *(block *)(dst + i) ^= *(const block *)(src + i);                                            \
    *(block *)(dst + n - bytes) = last;                                                                                                        \
  }
READING(avx512, "avx512f", 64)
READING(avx2, "avx2", 32)
READING(sse2, "sse2", 16)

static inline void limit_sum(u8 *dst, size_t n, const u8 *mem, size_t stride, const u8 *rows, size_t count) {
  if (__builtin_cpu_supports("avx512f")) avx512_sum(dst, n, mem, stride, rows, count);
  else if (__builtin_cpu_supports("avx2")) avx2_sum(dst, n, mem, stride, rows, count);
  else sse2_sum(dst, n, mem, stride, rows, count);
}
static inline void limit_add(u8 *dst, const u8 *src, size_t n) {
  if (__builtin_cpu_supports("avx512f")) avx512_add(dst, src, n);
  else if (__builtin_cpu_supports("avx2")) avx2_add(dst, src, n);
  else sse2_add(dst, src, n);
}

// The rows that a list of coefficients meets: those whose coefficient is not 0.
struct met {
  u8 count, rows[255];
};
static inline struct met met_by(const u8 *coefficients, size_t n) {
  struct met m = {0};
  for (size_t k = 0; k < n; k++) if (coefficients[k]) m.rows[m.count++] = k;
  return m;
}
