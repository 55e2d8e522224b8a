/* ns for eight lanes of libyard.a, each served once: by eight calls of yard_turn, and by hand by eight calls of yard_settle, interleaved, best
   of rounds. A lane begins one move behind the next one; both ways go on from where they stopped.
   turns ROUNDS PLAN... */
#define _GNU_SOURCE
#include "machine.h"
#include "scenes.h"

enum { TURNS, BY_HAND, WAYS };

/* A way's lanes; the roster is that of the turns. */
static Images lanes[WAYS];
static struct yard_lane roster[LANES];

/* The lanes of a plan at their beginning: the last at the start, each before it one settling further. */
static void begin(const Plan *p) {
  for (int k = 0; k < LANES; k++) {
    uint8_t *b = lanes[TURNS].bytes + k * IMAGE;
    base_start(p->bytes, p->len, b, IMAGE);
    for (int s = k; s < LANES - 1; s++) base_settle(p->bytes, p->len, b, IMAGE);
  }
  memcpy(lanes[BY_HAND].bytes, lanes[TURNS].bytes, IMAGES);
  free_lanes(roster);
}

/* Serves every lane so often; the sum of what they were answered. */
static uint64_t serve(int way, const Plan *p, unsigned times) {
  uint8_t *b = lanes[way].bytes;
  uint64_t sum = 0;
  for (unsigned k = 0; k < times * LANES; k++)
    sum += way == TURNS ? yard_turn(p->bytes, p->len, roster, LANES, b, IMAGES) & 0xffffff
                        : yard_settle(p->bytes, p->len, b + k % LANES * IMAGE, IMAGE);
  return sum;
}

/* The same from further down the stack. */
static __attribute__((noinline)) uint64_t serve_at(int depth, int way, const Plan *p, unsigned times) {
  volatile uint8_t *room = __builtin_alloca((size_t)depth * DEPTH + 1);
  *room = 0;
  return serve(way, p, times);
}

/* How often the lanes are served in a batch. */
static unsigned often(const Plan *p) {
  unsigned times = 1;
  for (double took = 0; took < BATCH_NS; times *= 2) {
    begin(p);
    double from = now();
    serve(TURNS, p, times);
    took = now() - from;
  }
  return times;
}

/* Lowers best to the best ns of each way in the rounds from one to before another; 0 where they differ. */
static int time_ways(const Plan *p, int from, int to, double *best) {
  unsigned times = often(p);
  uint64_t sum[WAYS];
  begin(p);
  for (int r = from; r < to; r++) {
    for (int turn = 0; turn < WAYS; turn++) {
      int way = whose(WAYS, r, turn);
      double start = now();
      sum[way] = serve_at(r % DEPTHS, way, p, times);
      double took = (now() - start) / times;
      if (took < best[way]) best[way] = took;
    }
    if (sum[TURNS] != sum[BY_HAND] || memcmp(lanes[TURNS].bytes, lanes[BY_HAND].bytes, IMAGES)) return 0;
  }
  return 1;
}

int main(int argc, char **argv) {
  static double best[PLANS][WAYS];
  int count = argc - 2, rounds = argc < 3 ? 0 : (atoi(argv[1]) + PASSES - 1) / PASSES;
  if (rounds < 1 || count > PLANS) { fprintf(stderr, "usage: %s ROUNDS PLAN...\n", argv[0]); return 2; }
  for (int k = 0; k < count; k++) load(argv[2 + k], &plans[k]), best[k][TURNS] = best[k][BY_HAND] = 1e18;
  for (int from = 0; from < PASSES * rounds; from += rounds)
    for (int k = 0; k < count; k++)
      if (!time_ways(&plans[k], from, from + rounds, best[k])) { printf("%s: turns and settlings differ\n", basename(argv[2 + k])); return 1; }
  print_machine();
  printf("Nanoseconds for eight lanes, each served once, best of %d rounds.\n\n", PASSES * rounds);
  printf("| plan | eight turns | eight settlings | turns / settlings |\n|---|---|---|---|\n");
  for (int k = 0; k < count; k++)
    printf("| %s | %.0f | %.0f | %.2f |\n", basename(argv[2 + k]), best[k][TURNS], best[k][BY_HAND], best[k][TURNS] / best[k][BY_HAND]);
  return 0;
}
