/* The calls that timing and builds time over plans, the engines in turn, and the table of them. */
#ifndef SCENES_H
#define SCENES_H
#include "baseline.h"
#include "random.h"
#include <libgen.h>
#include <stdio.h>
#include <stdlib.h>
#include <string.h>
#include <time.h>

enum { IMAGE = 312, BATCH_NS = 50000 };  /* a batch is short, so that some fall where nothing else runs */
enum { ENGINES = 7 };                    /* at most */
enum { PLANS = 64, PASSES = 10 };        /* passes over all plans: other work falls on no cell's rounds alone */
enum { DEPTHS = 7, DEPTH = 592 };        /* places of the stack within a page, tried in turn */
enum { LIST = 16 };                      /* bytes of the longest list */
enum { LANES = 8, IMAGES = LANES * IMAGE }; /* the most lanes of a turn */

typedef struct {
  uint32_t (*check)(const uint8_t *, size_t);
  uint32_t (*start)(const uint8_t *, size_t, uint8_t *, size_t);
  uint64_t (*bits)(const uint8_t *, size_t, const uint8_t *, size_t);
  uint32_t (*try)(const uint8_t *, size_t, uint8_t *, size_t, uint32_t);
  uint32_t (*settle)(const uint8_t *, size_t, uint8_t *, size_t);
  uint32_t (*list)(const uint8_t *, size_t, uint8_t *, size_t, const uint8_t *, size_t);
  uint32_t (*turn)(const uint8_t *, size_t, struct yard_lane *, size_t, uint8_t *, size_t);
} Engine;

#define ENGINE(pre) {pre##_check, pre##_start, pre##_offered_bits, pre##_try, pre##_settle, pre##_list, pre##_turn}

typedef struct { uint8_t bytes[65536]; size_t len; } Plan;
typedef struct { _Alignas(4096) uint8_t bytes[IMAGES]; } Images; /* a page, so that no engine has the better place; one lane has the first of them */

enum column { CHECK, START, OFFERED, MARKED, COMMITTED, CANCELLED, FIRST, PAST_MARKS, SETTLE, WHOLE, STOPPED, TURN, COLUMNS };
static const char *const columns[COLUMNS] = {
  "check", "start", "offered", "offered, marks", "try, committed", "try, cancelled", "settle, first", "settle, marks", "settle, long run", "list, committed",
  "list, cancelled", "turn of eight lanes",
};

/* A try, a first settling, one with marks and a list begin from the image each time (its copying is timed too); the long run and the turns, whose eight lanes begin alike,
   go on from where they stopped. */
typedef struct { enum column column; uint8_t image[IMAGE]; uint32_t number; uint8_t list[LIST]; size_t list_len; } Job;

/* there: whether the plan has this job. differ: whether the engines' answers or images did. best: ns a call of each engine. */
typedef struct { int there, differ; Job job; double best[ENGINES]; } Cell;

static Plan plans[PLANS];
static Cell cells[PLANS][COLUMNS];
static int have_lists = 1, have_turns = 1; /* whether all engines do */

static double now(void) {
  struct timespec t;
  clock_gettime(CLOCK_MONOTONIC, &t);
  return (double)t.tv_sec * 1e9 + (double)t.tv_nsec;
}

/* All lanes free, with no wait. */
static void free_lanes(struct yard_lane *roster) {
  for (int k = 0; k < LANES; k++) roster[k] = (struct yard_lane){.number = (uint8_t)k};
}

/* The job's image for every lane. */
static void lay_out(const Job *job, uint8_t *b) {
  for (int k = 0; k < LANES; k++) memcpy(b + k * IMAGE, job->image, IMAGE);
}

/* Makes the call so often; the sum of the answers. */
static uint64_t repeat(const Engine *e, const Plan *p, const Job *job, uint8_t *b, unsigned times) {
  static struct yard_lane roster[LANES];
  uint64_t sum = 0;
  const uint8_t *plan = p->bytes;
  size_t len = p->len;
  switch (job->column) {
  case CHECK: for (unsigned k = 0; k < times; k++) sum += e->check(plan, len); break;
  case START: for (unsigned k = 0; k < times; k++) sum += e->start(plan, len, b, IMAGE); break;
  case OFFERED:
  case MARKED: for (unsigned k = 0; k < times; k++) sum += e->bits(plan, len, b, IMAGE); break;
  case SETTLE: for (unsigned k = 0; k < times; k++) sum += e->settle(plan, len, b, IMAGE); break;
  case TURN:
    free_lanes(roster);
    for (unsigned k = 0; k < times; k++) sum += e->turn(plan, len, roster, LANES, b, IMAGES);
    break;
  case FIRST:
  case PAST_MARKS:
    for (unsigned k = 0; k < times; k++) {
      memcpy(b, job->image, IMAGE);
      sum += e->settle(plan, len, b, IMAGE);
    }
    break;
  case WHOLE:
  case STOPPED:
    for (unsigned k = 0; k < times; k++) {
      memcpy(b, job->image, IMAGE);
      sum += e->list(plan, len, b, IMAGE, job->list, job->list_len);
    }
    break;
  default:
    for (unsigned k = 0; k < times; k++) {
      memcpy(b, job->image, IMAGE);
      sum += e->try(plan, len, b, IMAGE, job->number);
    }
  }
  return sum;
}

/* How many calls make a batch. */
static unsigned batch(const Engine *e, const Plan *p, const Job *job) {
  uint8_t b[IMAGES];
  unsigned times = 1;
  for (double took = 0; took < BATCH_NS; times *= 2) {
    lay_out(job, b);
    double begin = now();
    repeat(e, p, job, b, times);
    took = now() - begin;
  }
  return times;
}

/* The same from further down the stack: how it lies to plan and image moves a time by a tenth. */
static __attribute__((noinline)) uint64_t repeat_at(int depth, const Engine *e, const Plan *p, const Job *job, uint8_t *b,
                                                    unsigned times) {
  volatile uint8_t *room = __builtin_alloca((size_t)depth * DEPTH + 1);
  *room = 0;
  return repeat(e, p, job, b, times);
}

/* Who has this turn of n in round r: the first moves on by one each round, the direction turns after n rounds. */
static int whose(int n, int r, int turn) {
  return r / n % 2 ? (r + n - turn) % n : (r + turn) % n;
}

/* Lowers the cell's best to the best ns a call of each of n engines, in the rounds from one to before another, and notes whether they
   differ: those that do go on from images of their own. */
static void time_job(const Engine *e, int n, const Plan *p, int from, int to, Cell *cell) {
  static Images b[ENGINES];
  uint64_t sum[ENGINES];
  const Job *job = &cell->job;
  unsigned times = batch(e, p, job);
  for (int k = 0; k < n; k++) lay_out(job, b[k].bytes);
  for (int r = from; r < to; r++) {
    for (int turn = 0; turn < n; turn++) {
      int who = whose(n, r, turn);
      double begin = now();
      sum[who] = repeat_at(r % DEPTHS, &e[who], p, job, b[who].bytes, times);
      double took = (now() - begin) / times;
      if (took < cell->best[who]) cell->best[who] = took;
    }
    for (int k = 1; k < n; k++) cell->differ |= sum[k] != sum[0] || memcmp(b[k].bytes, b[0].bytes, IMAGES);
  }
}

/* Walks from the start by random tries to an image where some try is answered by this kind. */
static int find_try(const Plan *p, uint32_t kind, Job *job) {
  uint8_t b[IMAGE], c[IMAGE];
  if (base_start(p->bytes, p->len, b, IMAGE)) return 0;
  for (int step = 0; step < 100000; step++) {
    uint64_t offered = base_offered_bits(p->bytes, p->len, b, IMAGE);
    if (!offered) return 0;
    job->number = some_bit(offered);
    memcpy(c, b, IMAGE);
    if (base_try(p->bytes, p->len, c, IMAGE, job->number) >> 16 == kind) {
      memcpy(job->image, b, IMAGE);
      return 1;
    }
    memcpy(b, c, IMAGE);
  }
  return 0;
}

/* The image with the most marks on a walk from the start by random tries; where nothing is on offer it settles, or begins anew. */
static int find_marks(const Plan *p, Job *job) {
  uint8_t b[IMAGE];
  int most = 0;
  if (base_start(p->bytes, p->len, b, IMAGE)) return 0;
  for (int step = 0; step < 2000; step++) {
    uint64_t marks, offered = base_offered_bits(p->bytes, p->len, b, IMAGE);
    if (offered) base_try(p->bytes, p->len, b, IMAGE, some_bit(offered));
    else if (base_settle(p->bytes, p->len, b, IMAGE) >> 16 != 1) base_start(p->bytes, p->len, b, IMAGE);
    memcpy(&marks, b + 16, 8);
    if (__builtin_popcountll(marks) <= most) continue;
    most = __builtin_popcountll(marks);
    memcpy(job->image, b, IMAGE);
  }
  return most > 0;
}

static void add_to_list(Job *job, uint32_t number) {
  job->list[job->list_len++] = (uint8_t)number;
  job->list[job->list_len++] = (uint8_t)(number >> 8);
}

/* The answer to the job's list with one more entry. */
static uint32_t with_entry(const Plan *p, Job job, uint32_t number) {
  add_to_list(&job, number);
  return base_list(p->bytes, p->len, job.image, IMAGE, job.list, job.list_len);
}

/* An entry that goes on from the job's list: from a good state to verdict 1 where one does, else to a good state; -1 where there is none. */
static int next_entry(const Plan *p, const Job *job, int at_half) {
  int good = -1;
  for (int i = 0; i < p->bytes[16]; i++) {
    uint32_t answer = with_entry(p, *job, (uint32_t)i);
    if (answer >> 16 == 1 && good < 0) good = i;
    if (answer >> 16 == 2 && (answer & 65535) * 2 == job->list_len + 2 && !at_half) return i;
  }
  return good;
}

/* A list from the start on of up to eight moves, through verdict 1 wherever that comes next; the longest part of it that is committed. */
static int find_list(const Plan *p, Job *job) {
  size_t whole = 0;
  int at_half = 0, next;
  if (base_start(p->bytes, p->len, job->image, IMAGE)) return 0;
  while (job->list_len < LIST && (next = next_entry(p, job, at_half)) >= 0) {
    at_half = with_entry(p, *job, (uint32_t)next) >> 16 == 2;
    add_to_list(job, (uint32_t)next);
    if (!at_half) whole = job->list_len;
  }
  job->list_len = whole;
  return whole > 0;
}

/* The same, with a last entry that no plan allows. */
static int find_stop(const Plan *p, Job *job) {
  if (!find_list(p, job)) return 0;
  job->list_len -= 2;
  add_to_list(job, 65535);
  return 1;
}

/* The job of a column; 0 where the plan has none. */
static int make_job(const Plan *p, enum column column, Job *job) {
  memset(job, 0, sizeof *job);
  job->column = column;
  if (column == COMMITTED) return find_try(p, 1, job);
  if (column == CANCELLED) return find_try(p, 2, job);
  if (column == MARKED || column == PAST_MARKS) return find_marks(p, job);
  if (column == WHOLE) return have_lists && find_list(p, job);
  if (column == STOPPED) return have_lists && find_stop(p, job);
  if (column == OFFERED || column == FIRST || column == SETTLE || column == TURN) base_start(p->bytes, p->len, job->image, IMAGE);
  return column != TURN || have_turns;
}

static void load(const char *path, Plan *p) {
  FILE *f = fopen(path, "rb");
  if (!f) { perror(path); exit(2); }
  p->len = fread(p->bytes, 1, sizeof p->bytes, f);
  fclose(f);
  if (base_check(p->bytes, p->len)) { fprintf(stderr, "%s is not a lawful plan\n", path); exit(2); }
}

static void make_cells(const Plan *p, Cell *row) {
  for (int c = 0; c < COLUMNS; c++) {
    row[c].there = make_job(p, c, &row[c].job);
    row[c].differ = 0;
    for (int k = 0; k < ENGINES; k++) row[c].best[k] = 1e18;
  }
}

static void time_cells(const Engine *e, int n, const Plan *p, int from, int to, Cell *row) {
  for (int c = 0; c < COLUMNS; c++)
    if (row[c].there) time_job(e, n, p, from, to, &row[c]);
}

/* Fills the cells for the arguments ROUNDS PLAN..., in passes; gives the rounds of each. */
static int measure(const Engine *e, int n, int argc, char **argv) {
  int count = argc - 2, rounds = argc < 3 ? 0 : (atoi(argv[1]) + PASSES - 1) / PASSES;
  if (rounds < 1 || count > PLANS) { fprintf(stderr, "usage: %s ROUNDS PLAN...\n", argv[0]); exit(2); }
  for (int k = 0; k < count; k++) {
    load(argv[2 + k], &plans[k]);
    make_cells(&plans[k], cells[k]);
  }
  for (int from = 0; from < PASSES * rounds; from += rounds)
    for (int k = 0; k < count; k++) time_cells(e, n, &plans[k], from, from + rounds, cells[k]);
  return PASSES * rounds;
}

/* The better time of two builds of one engine. */
static double better(const Cell *c, int one, int other) { return c->best[one] < c->best[other] ? c->best[one] : c->best[other]; }

/* Prints a line for each cell in which the engines differ; gives how many there are. */
static int print_differing(int argc, char **argv) {
  int count = 0;
  for (int k = 2; k < argc; k++)
    for (int c = 0; c < COLUMNS; c++) {
      if (!cells[k - 2][c].differ) continue;
      printf("  %s, %s: answers or images differ\n", basename(argv[k]), columns[c]);
      count++;
    }
  return count;
}

static void print_table(int argc, char **argv, void (*print)(const Cell *)) {
  printf("| plan |");
  for (int c = 0; c < COLUMNS; c++) printf(" %s |", columns[c]);
  printf("\n|---|");
  for (int c = 0; c < COLUMNS; c++) printf("---|");
  for (int k = 2; k < argc; k++) {
    printf("\n| %s |", basename(argv[k]));
    for (int c = 0; c < COLUMNS; c++)
      if (cells[k - 2][c].there) print(&cells[k - 2][c]);
      else printf(" - |");
  }
  printf("\n");
}
#endif
