/* The engine of 01 and 02 in plain C, written for speed: the yardstick for libyard.a. Stateless; each call checks plan and
   image anew. Little-endian hosts only (fields are read by memcpy). */
#include "baseline.h"
#include <string.h>

#define ANSWER(kind, number) ((kind) * 65536u + (number))
enum { ACCEPTED, COMMITTED, CANCELLED, STALLED, PENNED, REFUSED, WRONG, IDLE };

static inline unsigned r16(const uint8_t *p) { uint16_t v; memcpy(&v, p, 2); return v; }
static inline uint32_t r32(const uint8_t *p) { uint32_t v; memcpy(&v, p, 4); return v; }
static inline uint64_t r64(const uint8_t *p) { uint64_t v; memcpy(&v, p, 8); return v; }
static inline unsigned lowest(uint64_t m) { return (unsigned)__builtin_ctzll(m); }

typedef struct {
  const uint8_t *p;
  unsigned C, V, T, I, K, S, W, first, row, A; /* A: added oracles */
  const uint8_t *comp, *var, *trans, *inter, *rank, *prop, *oracle, *code;
  const uint8_t *added[3]; /* the tables of the added oracles */
  uint64_t owned[16];      /* the variables of each component */
} Plan;

/* What a move changes, laid out as image bytes 24 to 311. */
typedef struct {
  uint8_t loc[16], last[16];
  int32_t val[64];
} Lane;

/* The components that take part in an interaction, eight to a word: a byte that is not 0 for each. */
typedef struct { uint64_t half[2]; } Parts;

static inline Parts parts(const uint8_t *inter) { return (Parts){{~r64(inter), ~r64(inter + 8)}}; }

/* Runs the body for each c that takes part. */
#define EACH_PART(c, inter, body) do { \
  Parts left_ = parts(inter); \
  for (unsigned h_ = 0; h_ < 2; h_++) for (uint64_t w_ = left_.half[h_]; w_;) { \
    unsigned b_ = lowest(w_) & 56u, c = 8 * h_ + b_ / 8; \
    w_ &= ~(255ull << b_); \
    body \
  } } while (0)

/* ---- the plan's check: 1 to 10, 20 ---- */

static inline int head_ok(const uint8_t *p, size_t len) {
  return len >= 48 && !memcmp(p, "PLAN", 4) && !r16(p + 46);
}

/* What added oracles need is kept out of the way of plans without them. */
#define ASIDE static __attribute__((noinline, cold))
#define ADDED(x) __builtin_expect((x)->A != 0, 0)

ASIDE int added_counts_ok(const uint8_t *p) {
  unsigned added = p[42];
  for (unsigned k = 0; k < 3; k++) if (k < added ? p[43 + k] - 1u >= 32 : p[43 + k]) return 0;
  return added <= 3;
}

static inline int counts_ok(Plan *x, const uint8_t *p) {
  x->p = p;
  x->C = r16(p + 10); x->V = r16(p + 12); x->T = r16(p + 14); x->I = r16(p + 16);
  x->K = r16(p + 18); x->S = r16(p + 20); x->first = r16(p + 22); x->W = r16(p + 24); x->A = p[42];
  return x->C - 1 < 16 && x->V <= 64 && x->T <= 256 && x->I - 1 < 64 && x->K <= 4 && x->S - 1 < 32 &&
         x->first < x->S && x->W <= 4096 && (__builtin_expect(!r32(p + 42), 1) || added_counts_ok(p));
}

/* Finds the added tables, which begin at an offset; answers their end. */
ASIDE unsigned added_tables(Plan *x, unsigned at) {
  for (unsigned k = 0; k < x->A; k++) { x->added[k] = x->p + at; at += x->row * x->p[43 + k]; }
  return at;
}

static inline int layout_ok(Plan *x, size_t len) {
  const uint8_t *p = x->p;
  x->row = 1 + (1u << x->K);
  unsigned s0 = 48, s1 = s0 + 4 * x->C, s2 = s1 + 8 * x->V, s3 = s2 + 12 * x->T, s4 = s3 + 24 * x->I;
  unsigned s5 = s4 + 8 * x->I, s6 = s5 + 4 * x->K, s7 = s6 + x->row * x->S;
  if (ADDED(x)) s7 = added_tables(x, s7);
  unsigned end = s7 + 2 * x->W;
  x->comp = p + s0; x->var = p + s1; x->trans = p + s2; x->inter = p + s3;
  x->rank = p + s4; x->prop = p + s5; x->oracle = p + s6; x->code = p + s7;
  return r16(p + 26) == s0 && r16(p + 28) == s1 && r16(p + 30) == s2 && r16(p + 32) == s3 && r16(p + 34) == s4 &&
         r16(p + 36) == s5 && r16(p + 38) == s6 && r16(p + 40) == s7 && r16(p + 8) == end && len == end;
}

static inline int components_ok(const Plan *x) {
  for (const uint8_t *r = x->comp; r < x->var; r += 4)
    if (r[0] - 1u >= 16 || r[1] >= r[0] || r[2] - 1u >= 16 || r[3]) return 0;
  return 1;
}

static inline int variables_ok(Plan *x) {
  memset(x->owned, 0, sizeof x->owned);
  for (unsigned v = 0; v < x->V; v++) {
    const uint8_t *r = x->var + 8 * v;
    if (r[0] >= x->C || r[1] || r[2] || r[3]) return 0;
    x->owned[r[0]] |= 1ull << v;
  }
  return 1;
}

static inline int transitions_ok(const Plan *x) {
  for (const uint8_t *r = x->trans; r < x->inter; r += 12) {
    if (r[0] >= x->C) return 0;
    const uint8_t *c = x->comp + 4 * r[0];
    if (r[1] >= c[0] || r[2] >= c[2] || r[3] >= c[0]) return 0;
  }
  return 1;
}

typedef uint8_t Row __attribute__((vector_size(16))); /* the port bytes of an interaction */

static inline int any(Row r) { uint64_t w[2]; memcpy(w, &r, 16); return (w[0] | w[1]) != 0; }

static inline int interactions_ok(const Plan *x) {
  Row row, ports = {0};
  for (unsigned c = 0; c < x->C; c++) ports[c] = x->comp[4 * c + 2];
  for (const uint8_t *r = x->inter; r < x->rank; r += 24) {
    memcpy(&row, r, 16);
    Row taken = (Row)(row != 255);
    if (!any(taken) || any(taken & (Row)(row >= ports))) return 0;
  }
  return 1;
}

static inline int ranks_ok(const Plan *x) {
  uint64_t none = x->I < 64 ? ~0ull << x->I : 0;
  for (unsigned i = 0; i < x->I; i++) {
    uint64_t row = r64(x->rank + 8 * i), above = 0;
    for (uint64_t m = row & ~none; m; m &= m - 1) above |= r64(x->rank + 8 * lowest(m));
    if (row & (none | 1ull << i) || above & ~row) return 0;
  }
  return 1;
}

static inline int oracle_ok(const Plan *x, const uint8_t *table, unsigned states) {
  const uint8_t *end = table + x->row * states;
  for (const uint8_t *r = table; r < end; r += x->row) {
    if (r[0] > 3) return 0;
    int final = r[0] == 0 || r[0] == 3;
    for (unsigned a = 1; a < x->row; a++) {
      if (r[a] >= states) return 0;
      if (final && table[x->row * r[a]] != r[0]) return 0;
    }
  }
  return 1;
}

static inline int added_ok(const Plan *x) {
  for (unsigned k = 0; k < x->A; k++) if (!oracle_ok(x, x->added[k], x->p[43 + k])) return 0;
  return 1;
}

#define ALWAYS_INLINE static inline __attribute__((always_inline))

/* stores: an action or a transfer. prop: a proposition. */
ALWAYS_INLINE int span_ok(const Plan *x, int stores, int prop, uint64_t names, const uint8_t *rec) {
  unsigned start = r16(rec), size = r16(rec + 2), d = 0, two;
  if (size > 64 || start + size > x->W) return 0;
  if (size == 0) return !prop;
  const uint8_t *w = x->code + 2 * start, *end = w + 2 * size;
  for (; w < end; w += 2) {
    unsigned word = r16(w), n = word & 4095, c = n >> 8, l = n & 255;
    if (word >= 0x6000) {
      two = n != 6;
      if (word > 0x6007 || d <= two) return 0;
      d -= two;
    } else if (word < 0x2000) {
      if (word < 0x1000) d++;
      else if (d < 1) return 0;
    } else if (word < 0x4000) {
      if (n >= 64 || !(names >> n & 1)) return 0;
      if (word < 0x3000) d++;
      else if (!stores || d < 1) return 0;
      else d--;
    } else {
      if (!prop || c >= x->C) return 0;
      if (word < 0x5000 ? l >= x->comp[4 * c] : l != 255 && l >= x->comp[4 * c + 2]) return 0;
      d++;
    }
    if (d > 8) return 0;
  }
  return d == (stores ? 0u : 1u);
}

static int guard_ok(const Plan *x, uint64_t names, const uint8_t *rec) { return span_ok(x, 0, 0, names, rec); }
static int action_ok(const Plan *x, uint64_t names, const uint8_t *rec) { return span_ok(x, 1, 0, names, rec); }
static int prop_ok(const Plan *x, uint64_t names, const uint8_t *rec) { return span_ok(x, 0, 1, names, rec); }

static inline int code_ok(const Plan *x) {
  for (const uint8_t *r = x->trans; r < x->inter; r += 12) {
    uint64_t names = x->owned[r[0]];
    if (!guard_ok(x, names, r + 4) || !action_ok(x, names, r + 8)) return 0;
  }
  for (const uint8_t *r = x->inter; r < x->rank; r += 24) {
    uint64_t names = 0;
    if (r16(r + 18) | r16(r + 22)) EACH_PART(c, r, names |= x->owned[c];);
    if (!guard_ok(x, names, r + 16) || !action_ok(x, names, r + 20)) return 0;
  }
  uint64_t all = x->V == 64 ? ~0ull : (1ull << x->V) - 1;
  for (const uint8_t *r = x->prop; r < x->oracle; r += 4) if (!prop_ok(x, all, r)) return 0;
  return 1;
}

static unsigned check(Plan *x, const uint8_t *p, size_t len) {
  if (!head_ok(p, len)) return 1;
  if (!counts_ok(x, p)) return 2;
  if (!layout_ok(x, len)) return 3;
  if (!components_ok(x)) return 4;
  if (!variables_ok(x)) return 5;
  if (!transitions_ok(x)) return 6;
  if (!interactions_ok(x)) return 7;
  if (!ranks_ok(x)) return 8;
  if (!oracle_ok(x, x->oracle, x->S)) return 9;
  if (ADDED(x) && !added_ok(x)) return 20;
  if (!code_ok(x)) return 10;
  return 0;
}

/* ---- code ---- */

#ifndef WRAPS
#define WRAPS 0 /* 1 plants a fault, for host/compare to find: sums that wrap */
#endif

/* An exact result, held at the ends of signed 32 bits. Without a branch this is no slower than a sum that wraps. */
static inline int32_t held(int64_t exact) {
  int32_t low = (int32_t)exact, end = (int32_t)(exact >> 63) ^ INT32_MAX;
  return WRAPS || low == exact ? low : end;
}

/* What operator n, any but 6, makes of two values. */
static inline int32_t operated(unsigned n, int32_t left, int32_t right) {
  if (n < 2) return n == 0 ? held((int64_t)left + right) : held((int64_t)left - right);
  if (n < 4) return n == 2 ? left == right : left >= right;
  if (n == 4) return (left != 0) & (right != 0);
  if (n == 5) return (left | right) != 0;
  return (left == 0) | (right != 0);
}

/* Runs a span that passed the check. Answers the value left on the stack (guards and propositions). In a tree of tests, as in span_ok: a switch jumps
   through a table, and the maximal plans take 1.15 times as long. */
static int32_t run(const Plan *x, const uint8_t *rec, Lane *lane) {
  int32_t st[9], top = 0, *sp = st; /* the top lies beside the stack; st[0] is no value */
  const uint8_t *w = x->code + 2 * r16(rec), *end = w + 2 * r16(rec + 2);
  for (; w < end; w += 2) {
    unsigned word = r16(w), n = word & 4095;
    if (word >= 0x6000) {
      if (n == 6) top = !top;
      else top = operated(n, *--sp, top);
    } else if (word < 0x2000) {
      if (word < 0x1000) { *sp++ = top; top = (int32_t)n; }
      else top = held((int64_t)top * 4096 + n);
    } else if (word < 0x4000) {
      if (word < 0x3000) { *sp++ = top; top = lane->val[n]; }
      else { lane->val[n] = top; top = *--sp; }
    } else {
      const uint8_t *at = word < 0x5000 ? lane->loc : lane->last;
      *sp++ = top;
      top = at[n >> 8] == (n & 255);
    }
  }
  return top;
}

static inline int holds(const Plan *x, const uint8_t *rec, const Lane *lane) {
  return r16(rec + 2) == 0 || run(x, rec, (Lane *)lane) != 0;
}

/* ---- moves ---- */

typedef struct {
  uint16_t chosen[16][16]; /* lowest transition of component and port whose guard holds, plus 1; 0 none */
  uint64_t enabled;
} Moves;

/* Chooses transition t, which leaves from the component's location, where no lower one is and its guard holds. */
static inline void consider(const Plan *x, const Lane *lane, Moves *m, unsigned t) {
  const uint8_t *r = x->trans + 12 * t;
  uint16_t *slot = &m->chosen[r[0]][r[2]];
  if (*slot == 0 && holds(x, r + 4, lane)) *slot = (uint16_t)(t + 1);
}

static inline void choose(const Plan *x, const Lane *lane, Moves *m) {
  memset(m->chosen, 0, x->C * sizeof m->chosen[0]);
  for (unsigned t = 0; t < x->T; t++) {
    const uint8_t *r = x->trans + 12 * t;
    if (lane->loc[r[0]] == r[1]) consider(x, lane, m, t);
  }
}

static inline int enabled(const Plan *x, const Lane *lane, const Moves *m, const uint8_t *inter) {
  EACH_PART(c, inter, if (!m->chosen[c][inter[c]]) return 0;);
  return holds(x, inter + 16, lane);
}

static void moves(const Plan *x, const Lane *lane, Moves *m) {
  choose(x, lane, m);
  m->enabled = 0;
  for (unsigned i = 0; i < x->I; i++) if (enabled(x, lane, m, x->inter + 24 * i)) m->enabled |= 1ull << i;
}

/* The interactions above i. */
static inline uint64_t above(const Plan *x, unsigned i) { return r64(x->rank + 8 * i); }

/* The states of the four oracles, laid out as image bytes 8 to 11: the first in the low byte. */
typedef uint32_t States;

/* The state of added oracle k. */
static inline unsigned added_state(States q, unsigned k) { return q >> (8 * k + 8) & 255; }

static inline States added_next(const Plan *x, States q, unsigned letter) {
  States next = 0;
  for (unsigned k = 0; k < x->A; k++)
    next |= (States)x->added[k][x->row * added_state(q, k) + 1 + letter] << (8 * k + 8);
  return next;
}

/* The lowest of v and the verdicts of the added oracles. */
static inline unsigned added_verdict(const Plan *x, States q, unsigned v) {
  for (unsigned k = 0; k < x->A; k++) {
    unsigned own = x->added[k][x->row * added_state(q, k)];
    if (own < v) v = own;
  }
  return v;
}

static inline States judged(const Plan *x, States q, Lane *lane) {
  unsigned letter = 0;
  for (unsigned k = 0; k < x->K; k++) letter |= (unsigned)(run(x, x->prop + 4 * k, lane) != 0) << k;
  States next = x->oracle[x->row * (q & 255) + 1 + letter];
  return ADDED(x) ? next | added_next(x, q, letter) : next;
}

/* The lowest of the oracles' verdicts. */
static inline unsigned verdict(const Plan *x, States q) {
  unsigned v = x->oracle[x->row * (q & 255)];
  return ADDED(x) ? added_verdict(x, q, v) : v;
}

#ifndef GOOD
#define GOOD 2 /* the lowest good verdict; 1 plants a fault, for host/compare to find */
#endif

static inline int good(const Plan *x, States q) { return verdict(x, q) >= GOOD; }

/* Not good, perhaps, but inside a list it may be passed through. */
static inline int tolerable(const Plan *x, States q) { return verdict(x, q) != 0; }

/* Makes enabled move i on the lane; the oracles' states after its event. */
ALWAYS_INLINE States make(const Plan *x, Lane *lane, States q, const Moves *m, unsigned i) {
  const uint8_t *r = x->inter + 24 * i;
  if (r16(r + 22)) run(x, r + 20, lane);
  EACH_PART(c, r, {
    const uint8_t *t = x->trans + 12 * (m->chosen[c][r[c]] - 1u);
    if (r16(t + 10)) run(x, t + 8, lane);
    lane->loc[c] = t[3];
    lane->last[c] = r[c];
  });
  return judged(x, q, lane);
}

/* The same on a copy. */
static States fire(const Plan *x, const Lane *old, States q, const Moves *m, unsigned i, Lane *new) {
  *new = *old;
  return make(x, new, q, m, i);
}

/* The starting lane, and the oracles' states after its event. */
static inline States begin(const Plan *x, Lane *lane) {
  memset(lane, 0, sizeof *lane);
  memset(lane->last, 255, 16);
  for (unsigned c = 0; c < x->C; c++) lane->loc[c] = x->comp[4 * c + 1];
  for (unsigned v = 0; v < x->V; v++) memcpy(&lane->val[v], x->var + 8 * v + 4, 4);
  return judged(x, x->first, lane);
}

/* ---- images ---- */

static void put_head(const Plan *x, uint8_t *b) {
  memcpy(b, "YARD", 4);
  b[4] = 1; b[5] = (uint8_t)x->C; b[6] = (uint8_t)x->V; b[7] = (uint8_t)x->I;
  memcpy(b + 12, x->p + 4, 4);
}

static inline void commit(uint8_t *b, States q, const Lane *lane) {
  memcpy(b + 8, &q, 4);
  memset(b + 16, 0, 8);
  memcpy(b + 24, lane, 288);
}

static inline int head_matches(const Plan *x, const uint8_t *b) {
  return !memcmp(b, "YARD", 4) && b[4] == 1 && b[5] == x->C && b[6] == x->V && b[7] == x->I &&
         !memcmp(b + 12, x->p + 4, 4);
}

static inline int oracles_ok(const Plan *x, States q) {
  if ((q & 255) >= x->S || (uint64_t)q >> (8 * x->A + 8)) return 0;
  for (unsigned k = 0; k < x->A; k++) if (added_state(q, k) >= x->p[43 + k]) return 0;
  return good(x, q);
}

static inline int state_ok(const Plan *x, States q, const Lane *lane) {
  if (!oracles_ok(x, q)) return 0;
  for (unsigned c = 0; c < x->C; c++) {
    const uint8_t *r = x->comp + 4 * c;
    if (lane->loc[c] >= r[0] || (lane->last[c] != 255 && lane->last[c] >= r[2])) return 0;
  }
  for (unsigned c = x->C; c < 16; c++) if (lane->loc[c] || lane->last[c] != 255) return 0;
  int32_t filled = 0;
  for (unsigned v = x->V; v < 64; v++) filled |= lane->val[v];
  return !filled;
}

/* A plan and an image that were read. */
typedef struct {
  Plan plan;
  Lane lane;
  Moves moves;
  States oracles;
  uint64_t marks, open; /* open: enabled and not marked */
} Site;

static States made(const Site *s, unsigned i, Lane *new) {
  return fire(&s->plan, &s->lane, s->oracles, &s->moves, i, new);
}

static int marks_ok(const Site *s) {
  Lane new;
  if (s->marks & ~s->moves.enabled) return 0;
  for (uint64_t k = s->marks; k; k &= k - 1)
    if (above(&s->plan, lowest(k)) & s->open || good(&s->plan, made(s, lowest(k), &new))) return 0;
  return 1;
}

/* An image of 312 bytes in, refusals 12 to 14. */
ALWAYS_INLINE unsigned enter_image(Site *s, const uint8_t *b) {
  if (!head_matches(&s->plan, b)) return 12;
  s->oracles = r32(b + 8);
  s->marks = r64(b + 16);
  memcpy(&s->lane, b + 24, 288);
  if (!state_ok(&s->plan, s->oracles, &s->lane)) return 13;
  moves(&s->plan, &s->lane, &s->moves);
  s->open = s->moves.enabled & ~s->marks;
  return marks_ok(s) ? 0 : 14;
}

/* Plan and image in, refusals 1 to 14 and 20. */
static unsigned enter(Site *s, const uint8_t *plan, size_t plan_len, const uint8_t *b, size_t image_len) {
  unsigned n = check(&s->plan, plan, plan_len);
  if (n) return n;
  return image_len == 312 ? enter_image(s, b) : 11;
}

/* ---- the calls ---- */

uint32_t base_check(const uint8_t *plan, size_t plan_len) {
  Plan x;
  unsigned n = check(&x, plan, plan_len);
  return n ? ANSWER(REFUSED, n) : ANSWER(ACCEPTED, 0);
}

uint32_t base_start(const uint8_t *plan, size_t plan_len, uint8_t *image, size_t image_len) {
  Plan x;
  Lane lane;
  unsigned n = check(&x, plan, plan_len);
  if (n) return ANSWER(REFUSED, n);
  if (image_len != 312) return ANSWER(REFUSED, 11);
  States q = begin(&x, &lane);
  if (!good(&x, q)) return ANSWER(REFUSED, 15);
  put_head(&x, image);
  commit(image, q, &lane);
  return ANSWER(ACCEPTED, 0);
}

uint32_t base_offered(const uint8_t *plan, size_t plan_len, const uint8_t *image, size_t image_len) {
  Site s;
  unsigned n = enter(&s, plan, plan_len, image, image_len);
  return n ? ANSWER(REFUSED, n) : ANSWER(ACCEPTED, 0);
}

uint64_t base_offered_bits(const uint8_t *plan, size_t plan_len, const uint8_t *image, size_t image_len) {
  Site s;
  if (enter(&s, plan, plan_len, image, image_len)) return 0;
  uint64_t offered = 0;
  for (uint64_t k = s.open; k; k &= k - 1) if (!(above(&s.plan, lowest(k)) & s.open)) offered |= k & -k;
  return offered;
}

uint32_t base_try(const uint8_t *plan, size_t plan_len, uint8_t *image, size_t image_len, uint32_t i) {
  Site s;
  Lane new;
  unsigned n = enter(&s, plan, plan_len, image, image_len);
  if (n) return ANSWER(REFUSED, n);
  if (i >= s.plan.I) return ANSWER(REFUSED, 16);
  if (!(s.moves.enabled >> i & 1)) return ANSWER(REFUSED, 17);
  if (above(&s.plan, i) & s.open) return ANSWER(REFUSED, 18);
  if (s.marks >> i & 1) return ANSWER(REFUSED, 19);
  States q = made(&s, i, &new);
  if (good(&s.plan, q)) { commit(image, q, &new); return ANSWER(COMMITTED, i); }
  s.marks |= 1ull << i;
  memcpy(image + 16, &s.marks, 8);
  return ANSWER(CANCELLED, i);
}

/* The first found, going up from i, with nothing open above it. */
static inline unsigned top(const Plan *x, uint64_t open, unsigned i) {
  for (uint64_t up; (up = above(x, i) & open); i = lowest(up));
  return i;
}

/* Those of a set that have a lower number than n and do not lie below it. */
static inline uint64_t beside(const Plan *x, uint64_t set, unsigned n) {
  uint64_t rest = 0;
  for (uint64_t k = set & ((1ull << n) - 1); k; k &= k - 1) if (!(above(x, lowest(k)) >> n & 1)) rest |= k & -k;
  return rest;
}

/* Each open move is made at most once before the one that is committed: one without open ones above is judged, a bad one is open no
   more, and after a good one only what could come before it is left. */
ALWAYS_INLINE uint32_t settled(Site *s, uint8_t *image) {
  Lane new;
  unsigned best = s->plan.I;
  for (uint64_t left = s->open; left;) {
    unsigned i = top(&s->plan, s->open, lowest(left));
    States q = made(s, i, &new);
    if (good(&s->plan, q)) {
      left = beside(&s->plan, left, i);
      if (i >= best) continue;
      if (!left) { commit(image, q, &new); return ANSWER(COMMITTED, i); }
      best = i;
    } else {
      s->open &= ~(1ull << i);
      left &= ~(1ull << i);
    }
  }
  if (best < s->plan.I) { States q = made(s, best, &new); commit(image, q, &new); return ANSWER(COMMITTED, best); }
  if (!s->moves.enabled) return ANSWER(STALLED, 0);
  memcpy(image + 16, &s->moves.enabled, 8);
  return ANSWER(PENNED, 0);
}

uint32_t base_settle(const uint8_t *plan, size_t plan_len, uint8_t *image, size_t image_len) {
  Site s;
  unsigned n = enter(&s, plan, plan_len, image, image_len);
  return n ? ANSWER(REFUSED, n) : settled(&s, image);
}

/* ---- turns ---- */

typedef struct yard_lane Record;

static inline int roster_ok(const Record *roster, size_t lanes, size_t images_len) {
  if (lanes - 1 >= 8 || images_len != 312 * lanes) return 0;
  for (size_t k = 0; k < lanes; k++) if (roster[k].number != k) return 0;
  return 1;
}

/* The unheld lane that waited longest, the first of them on a tie; the number of lanes where all are held. */
static inline size_t next_lane(const Record *roster, size_t lanes) {
  size_t next = lanes;
  for (size_t k = 0; k < lanes; k++)
    if (!roster[k].held && (next == lanes || roster[k].wait > roster[next].wait)) next = k;
  return next;
}

/* All waits grow but the one of the lane that had the turn. */
static inline void move_on(Record *roster, size_t lanes, size_t served) {
  for (size_t k = 0; k < lanes; k++) roster[k].wait = (uint16_t)(roster[k].wait + (roster[k].wait < 65535));
  roster[served].wait = 0;
}

uint32_t base_turn(const uint8_t *plan, size_t plan_len, Record *roster, size_t lanes, uint8_t *images, size_t images_len) {
  Site s;
  unsigned n = check(&s.plan, plan, plan_len);
  if (n) return ANSWER(REFUSED, n);
  if (!roster_ok(roster, lanes, images_len)) return ANSWER(REFUSED, 23);
  size_t lane = next_lane(roster, lanes);
  if (lane == lanes) return ANSWER(IDLE, 0);
  uint8_t *image = images + 312 * lane;
  n = enter_image(&s, image);
  uint32_t answer = n ? ANSWER(REFUSED, n) : settled(&s, image);
  move_on(roster, lanes, lane);
  return (uint32_t)lane << 24 | answer;
}

/* ---- lists ---- */

/* Chooses anew for the components of an interaction that was made: a guard reads its own component's variables, so no other choice changes. */
static inline void choose_again(const Plan *x, const Lane *lane, Moves *m, const uint8_t *inter) {
  EACH_PART(c, inter, memset(m->chosen[c], 0, sizeof m->chosen[c]););
  for (unsigned t = 0; t < x->T; t++) {
    const uint8_t *r = x->trans + 12 * t;
    if (inter[r[0]] != 255 && lane->loc[r[0]] == r[1]) consider(x, lane, m, t);
  }
}

static inline int enabled_now(const Site *s, unsigned i) {
  return enabled(&s->plan, &s->lane, &s->moves, s->plan.inter + 24 * i);
}

/* Whether one of these interactions is enabled and leads to a verdict other than 0. */
static __attribute__((noinline)) int some_tolerable(const Site *s, uint64_t set) {
  Lane new;
  for (; set; set &= set - 1) {
    unsigned i = lowest(set);
    if (enabled_now(s, i) && tolerable(&s->plan, made(s, i, &new))) return 1;
  }
  return 0;
}

/* Makes an entry on the lane itself; 0 where it is not allowed. */
static inline int passed(Site *s, unsigned i) {
  if (i >= s->plan.I || !enabled_now(s, i)) return 0;
  uint64_t up = above(&s->plan, i);
  if (up && some_tolerable(s, up)) return 0;
  s->oracles = make(&s->plan, &s->lane, s->oracles, &s->moves, i);
  return tolerable(&s->plan, s->oracles);
}

/* The image is written once all entries are made. */
uint32_t base_list(const uint8_t *plan, size_t plan_len, uint8_t *image, size_t image_len, const uint8_t *list, size_t list_len) {
  Site s;
  unsigned n = enter(&s, plan, plan_len, image, image_len), entries = (unsigned)(list_len / 2);
  if (n) return ANSWER(REFUSED, n);
  if (!list_len || list_len % 2 || list_len > 16) return ANSWER(REFUSED, 22);
  for (unsigned k = 0; k < entries; k++) {
    if (k) choose_again(&s.plan, &s.lane, &s.moves, s.plan.inter + 24 * r16(list + 2 * k - 2));
    if (!passed(&s, r16(list + 2 * k))) return ANSWER(CANCELLED, k);
  }
  if (!good(&s.plan, s.oracles)) return ANSWER(CANCELLED, entries);
  commit(image, s.oracles, &s.lane);
  return ANSWER(COMMITTED, entries);
}

/* ---- logs ---- */

/* A walk along a log. Each entry is made on the lane itself; those above it are judged on a copy. */
typedef struct {
  Plan plan;
  Lane lane;
  States oracles;
  Moves moves;                           /* only what ready chose counts */
  uint16_t first[16][16][16], next[256]; /* by component, location and port the lowest transition, plus 1; after each the next such one */
  uint64_t fits[16][16];                 /* by component and location the interactions that have a transition for it, or do without it */
} Walk;

/* The interactions that a component takes part in, by its ports, and those without it. */
static inline void sort_interactions(const Plan *x, uint64_t with[16][16], uint64_t *without) {
  uint64_t all = x->I == 64 ? ~0ull : (1ull << x->I) - 1;
  for (unsigned c = 0; c < x->C; c++) without[c] = all;
  memset(with, 0, x->C * sizeof with[0]);
  for (unsigned i = 0; i < x->I; i++) {
    const uint8_t *r = x->inter + 24 * i;
    EACH_PART(c, r, { with[c][r[c]] |= 1ull << i; without[c] &= ~(1ull << i); });
  }
}

static inline void index_transitions(Walk *s) {
  uint64_t with[16][16], without[16];
  sort_interactions(&s->plan, with, without);
  memset(s->first, 0, s->plan.C * sizeof s->first[0]);
  for (unsigned c = 0; c < s->plan.C; c++) for (unsigned l = 0; l < 16; l++) s->fits[c][l] = without[c];
  for (unsigned t = s->plan.T; t-- > 0;) {
    const uint8_t *r = s->plan.trans + 12 * t;
    uint16_t *slot = &s->first[r[0]][r[1]][r[2]];
    s->next[t] = *slot;
    *slot = (uint16_t)(t + 1);
    s->fits[r[0]][r[1]] |= with[r[0]][r[2]];
  }
}

/* The interactions that are enabled but for guards. */
static inline uint64_t fitting(const Walk *s) {
  uint64_t set = ~0ull;
  for (unsigned c = 0; c < s->plan.C; c++) set &= s->fits[c][s->lane.loc[c]];
  return set;
}

/* Whether interaction i is enabled; chooses the transitions of its components. */
static inline int ready(Walk *s, unsigned i) {
  const Plan *x = &s->plan;
  const uint8_t *r = x->inter + 24 * i;
  EACH_PART(c, r, {
    unsigned t = s->first[c][s->lane.loc[c]][r[c]];
    while (t && !holds(x, x->trans + 12 * t - 8, &s->lane)) t = s->next[t - 1];
    if (!t) return 0;
    s->moves.chosen[c][r[c]] = (uint16_t)t;
  });
  return holds(x, r + 16, &s->lane);
}

/* Whether one of these interactions is enabled and ends good. */
static __attribute__((noinline)) int some_good(Walk *s, uint64_t set) {
  Lane new;
  for (; set; set &= set - 1) {
    unsigned i = lowest(set);
    if (ready(s, i) && good(&s->plan, fire(&s->plan, &s->lane, s->oracles, &s->moves, i, &new))) return 1;
  }
  return 0;
}

enum { BAD = 0, RIGHT = 1 };

/* Makes an entry, or says why it is wrong. */
static inline unsigned entered(Walk *s, unsigned i) {
  if (i >= s->plan.I) return 16;
  if (!ready(s, i)) return 17;
  uint64_t up = above(&s->plan, i);
  if (up && some_good(s, up & fitting(s))) return 18;
  s->oracles = make(&s->plan, &s->lane, s->oracles, &s->moves, i);
  return good(&s->plan, s->oracles) ? RIGHT : BAD;
}

/* The answer; *at: the index of the first wrong entry, 0 where there is none. */
static inline uint32_t walk(const uint8_t *plan, size_t plan_len, const uint8_t *log, size_t log_len, uint64_t *at) {
  Walk s;
  *at = 0;
  unsigned n = check(&s.plan, plan, plan_len);
  if (n) return ANSWER(REFUSED, n);
  if (log_len % 2) return ANSWER(REFUSED, 21);
  s.oracles = begin(&s.plan, &s.lane);
  if (!good(&s.plan, s.oracles)) return ANSWER(REFUSED, 15);
  index_transitions(&s);
  for (size_t k = 0; k < log_len / 2; k++) {
    unsigned why = entered(&s, r16(log + 2 * k));
    if (why != RIGHT) { *at = k; return ANSWER(WRONG, why); }
  }
  return ANSWER(ACCEPTED, 0);
}

uint32_t base_log(const uint8_t *plan, size_t plan_len, const uint8_t *log, size_t log_len) {
  uint64_t at;
  return walk(plan, plan_len, log, log_len, &at);
}

uint64_t base_log_index(const uint8_t *plan, size_t plan_len, const uint8_t *log, size_t log_len) {
  uint64_t at;
  walk(plan, plan_len, log, log_len, &at);
  return at;
}
