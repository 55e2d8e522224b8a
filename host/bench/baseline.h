#ifndef BASELINE_H
#define BASELINE_H
#include "../../include/yard.h" /* struct yard_lane */
#include <stddef.h>
#include <stdint.h>
#define CALLS(pre) \
  uint32_t pre##_check(const uint8_t *, size_t); \
  uint32_t pre##_start(const uint8_t *, size_t, uint8_t *, size_t); \
  uint32_t pre##_offered(const uint8_t *, size_t, const uint8_t *, size_t); \
  uint64_t pre##_offered_bits(const uint8_t *, size_t, const uint8_t *, size_t); \
  uint32_t pre##_try(const uint8_t *, size_t, uint8_t *, size_t, uint32_t); \
  uint32_t pre##_settle(const uint8_t *, size_t, uint8_t *, size_t); \
  uint32_t pre##_list(const uint8_t *, size_t, uint8_t *, size_t, const uint8_t *, size_t); \
  uint32_t pre##_turn(const uint8_t *, size_t, struct yard_lane *, size_t, uint8_t *, size_t); \
  uint32_t pre##_log(const uint8_t *, size_t, const uint8_t *, size_t); \
  uint64_t pre##_log_index(const uint8_t *, size_t, const uint8_t *, size_t);
CALLS(base)
CALLS(native) /* baseline.c again, built with other flags */
CALLS(self)   /* and once more with these: what placement and noise alone do */
CALLS(yard)
#endif
