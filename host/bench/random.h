/* A small random number generator (splitmix64). */
#ifndef RANDOM_H
#define RANDOM_H
#include <stdint.h>

static uint64_t rng_state = 1;

static inline uint64_t rnd64(void) {
  uint64_t z = (rng_state += 0x9e3779b97f4a7c15ull);
  z = (z ^ z >> 30) * 0xbf58476d1ce4e5b9ull;
  z = (z ^ z >> 27) * 0x94d049bb133111ebull;
  return z ^ z >> 31;
}

/* A bit that is set in m, which is not 0. */
static inline unsigned some_bit(uint64_t m) {
  unsigned s = (unsigned)(rnd64() >> 58);
  while (!(m >> s & 1)) s = (s + 1) % 64;
  return s;
}
#endif
