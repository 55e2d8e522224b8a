/* ns an entry of a long log: by yard_log, by the baseline's, the better of its two builds, and by calls of yard_try that commit the same moves, interleaved, best of rounds.
   The log is a run by settling; once it comes back to a state it goes round from there. Plans whose run ends sooner are named and left out.
   A try goes past marked interactions alone, so that before a move all enabled ones above it are tried.
   logs ROUNDS ENTRIES PLAN... */
#define _GNU_SOURCE
#include "machine.h"
#include "scenes.h"

enum { ENTRY = 128 }; /* set in the try that commits an entry; the low bits are the interaction */

typedef struct { uint8_t *bytes; size_t len, room; } Bytes;

static void add(Bytes *b, unsigned byte) {
  if (b->len == b->room) {
    b->room = 2 * b->room + 4096;
    b->bytes = realloc(b->bytes, b->room);
    if (!b->bytes) { perror("logs"); exit(2); }
  }
  b->bytes[b->len++] = (uint8_t)byte;
}

/* The interactions above i. */
static uint64_t above(const Plan *p, unsigned i) {
  uint64_t row;
  memcpy(&row, p->bytes + (p->bytes[34] | p->bytes[35] << 8) + 8 * i, 8);
  return row;
}

/* Tries i, and where it is refused first the enabled ones above it, from the top. */
static void try_down_to(const Plan *p, uint8_t *b, unsigned i, Bytes *tries) {
  while (base_try(p->bytes, p->len, b, IMAGE, i) >> 16 != 1) {
    uint64_t up = base_offered_bits(p->bytes, p->len, b, IMAGE) & above(p, i);
    if (!up) { fprintf(stderr, "a settled move cannot be tried\n"); exit(1); }
    unsigned bad = (unsigned)__builtin_ctzll(up);
    base_try(p->bytes, p->len, b, IMAGE, bad);
    add(tries, bad);
  }
  add(tries, ENTRY | i);
}

/* Adds so many entries by going on as from a place. */
static void go_round(Bytes *tries, size_t from, size_t entries) {
  for (size_t k = from; entries; k++) {
    entries -= tries->bytes[k] / ENTRY;
    add(tries, tries->bytes[k]);
  }
}

/* The tries of a run of so many entries; gives how many it has. */
static size_t make_run(const Plan *p, size_t entries, Bytes *tries) {
  uint8_t b[IMAGE], next[IMAGE], seen[IMAGE];
  size_t count = 0, seen_at = 0, look = 1; /* the state after `look` entries, a power of 2, is looked out for */
  tries->len = 0;
  if (base_start(p->bytes, p->len, b, IMAGE)) return 0;
  memcpy(seen, b, IMAGE);
  while (count < entries) {
    memcpy(next, b, IMAGE);
    uint32_t answer = base_settle(p->bytes, p->len, next, IMAGE);
    if (answer >> 16 != 1) break;
    try_down_to(p, b, answer & 63, tries);
    if (memcmp(b, next, IMAGE)) { fprintf(stderr, "tries and settling differ\n"); exit(1); }
    count++;
    if (!memcmp(b, seen, IMAGE)) { go_round(tries, seen_at, entries - count); return entries; }
    if (count == look) { memcpy(seen, b, IMAGE); seen_at = tries->len; look *= 2; }
  }
  return count;
}

static void make_log(const Bytes *tries, Bytes *log) {
  log->len = 0;
  for (size_t k = 0; k < tries->len; k++)
    if (tries->bytes[k] & ENTRY) { add(log, tries->bytes[k] & 63); add(log, 0); }
}

enum { YARD, BASE, NATIVE, TRIES, WAYS };

/* How many entries a way accepts, all or nothing but for the tries. */
static size_t accepted(int way, const Plan *p, const Bytes *log, const Bytes *tries) {
  uint8_t b[IMAGE];
  size_t committed = 0;
  if (way == YARD) return yard_log(p->bytes, p->len, log->bytes, log->len) ? 0 : log->len / 2;
  if (way == BASE) return base_log(p->bytes, p->len, log->bytes, log->len) ? 0 : log->len / 2;
  if (way == NATIVE) return native_log(p->bytes, p->len, log->bytes, log->len) ? 0 : log->len / 2;
  yard_start(p->bytes, p->len, b, IMAGE);
  for (size_t k = 0; k < tries->len; k++)
    committed += yard_try(p->bytes, p->len, b, IMAGE, tries->bytes[k] & 63) >> 16 == 1;
  return committed;
}

/* Lowers best to the best ns an entry of each way; 0 where one of them finds the log wrong. */
static int time_ways(int rounds, const Plan *p, const Bytes *log, const Bytes *tries, double *best) {
  size_t entries = log->len / 2;
  for (int r = 0; r < rounds; r++)
    for (int turn = 0; turn < WAYS; turn++) {
      int way = whose(WAYS, r, turn);
      double begin = now();
      if (accepted(way, p, log, tries) != entries) return 0;
      double took = (now() - begin) / (double)entries;
      if (took < best[way]) best[way] = took;
    }
  return 1;
}

/* A line of the table, or why there is none; 0 where a log was found wrong. */
static int print_plan(int rounds, size_t entries, char *path) {
  static Bytes log, tries;
  double best[WAYS] = {1e18, 1e18, 1e18, 1e18};
  load(path, &plans[0]);
  size_t count = make_run(&plans[0], entries, &tries);
  if (count < entries) {
    printf("| %s | left out: its run ends after %zu | | | | | |\n", basename(path), count);
    return 1;
  }
  make_log(&tries, &log);
  if (!time_ways(rounds, &plans[0], &log, &tries, best)) { printf("| %s | differs | | | | | |\n", basename(path)); return 0; }
  double c = best[BASE] < best[NATIVE] ? best[BASE] : best[NATIVE];
  printf("| %s | %.1f | %.1f | %.2f | %zu | %.1f | %.1f |\n", basename(path), best[YARD], c, best[YARD] / c,
         tries.len, best[TRIES], best[TRIES] / best[YARD]);
  fflush(stdout);
  return 1;
}

int main(int argc, char **argv) {
  int rounds = argc < 4 ? 0 : atoi(argv[1]), alike = 1;
  long entries = argc < 4 ? 0 : atol(argv[2]);
  if (rounds < 1 || entries < 1) { fprintf(stderr, "usage: %s ROUNDS ENTRIES PLAN...\n", argv[0]); return 2; }
  print_machine();
  printf("Nanoseconds an entry, logs of %ld entries, best of %d rounds.\n\n", entries, rounds);
  printf("| plan | yard_log | C | yard / C | tries for the same moves | by yard_try | yard_try / yard_log |\n|---|---|---|---|---|---|---|\n");
  for (int k = 3; k < argc; k++) alike &= print_plan(rounds, (size_t)entries, argv[k]);
  return !alike;
}
