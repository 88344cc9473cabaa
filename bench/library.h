// The functions of crate `bench` and those of plain.rs, which have the same shapes; a slice is a pointer and a length, and the flows, last, are 32 bytes.
// Nothing checks these declarations against the sources.
#include <stddef.h>
#include <stdint.h>

#define FUNCTIONS(F)                                                                                           \
  F(void, add_scaled, (uint8_t *, size_t, const uint8_t *, size_t, uint8_t))                                   \
  F(void, add_by_tables, (uint8_t *, size_t, const uint8_t *, size_t, uint8_t))                                \
  F(void, add_within, (uint8_t *, size_t, size_t, size_t, size_t, uint8_t))                                    \
  F(void, combine, (uint8_t *, size_t, const uint8_t *, size_t, const uint8_t *, size_t))                      \
  F(void, add_combination, (uint8_t *, size_t, const uint8_t *, size_t, const uint8_t *, size_t))              \
  F(size_t, sender_open, (uint8_t *, size_t, size_t, size_t, size_t, const uint8_t *))                         \
  F(size_t, add_adu, (uint8_t *, size_t, uint8_t, const uint8_t *, size_t, uint8_t *, size_t))                 \
  F(size_t, make_repair, (const uint8_t *, size_t, uint16_t, size_t, size_t, uint8_t *, size_t))               \
  F(size_t, receiver_open, (uint8_t *, size_t, size_t, size_t, size_t, const uint8_t *))                       \
  F(size_t, receive_source, (uint8_t *, size_t, uint8_t *, size_t, uint8_t, const uint8_t *, size_t))          \
  F(size_t, receive_repair, (uint8_t *, size_t, uint8_t *, size_t, const uint8_t *, size_t))                   \
  F(size_t, symbol, (const uint8_t *, size_t, uint32_t))                                                       \
  F(size_t, adu, (const uint8_t *, size_t, uint32_t, uint8_t *, size_t))                                       \
  F(void, marks, (uint8_t *, size_t, size_t, size_t, size_t))

#define MEMBER(result, name, parameters) result(*name) parameters;
#define PROVED(result, name, parameters) result bench_##name parameters;
#define PLAIN(result, name, parameters) result plain_##name parameters;
#define PROVED_NAME(result, name, parameters) bench_##name,
#define PLAIN_NAME(result, name, parameters) plain_##name,

struct library {
  FUNCTIONS(MEMBER)
};
FUNCTIONS(PROVED)
FUNCTIONS(PLAIN)
static const struct library proved = {FUNCTIONS(PROVED_NAME)}, plain = {FUNCTIONS(PLAIN_NAME)};

// The bytes of an end's header, and those that announce all flows.
#define SENDER_HEADER 64
#define RECEIVER_HEADER 96
static const uint8_t all_flows[32] = {[0 ... 31] = 255};

// The number that make_repair, receive_source or receive_repair answers, without the draws, which stand from bit 32 on.
static inline size_t value(size_t answer) { return answer & 0xffffffff; }

// The coefficients of a key and a DT: for ISA-L, which doesn't draw them, and for the limits of calls that must.
size_t plain_coefficients(uint8_t *, size_t, size_t, uint16_t, uint8_t);
