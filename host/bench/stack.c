/* The most stack that each call of libyard.a takes, in bytes below the caller's stack pointer: the calls are made on a painted stack, over
   walks by random tries through the plans, marks included. The log is that of the walk's moves with the next try behind, right or wrong; the
   list has the eight moves that settling goes on with, or fewer and the next try; the eight lanes of a turn are alike.
   measure-stack PLAN... */
#define _GNU_SOURCE
#include "scenes.h"
#include <ucontext.h>

enum { ROOM = 1 << 16, PAINT = 0xA5, STEPS = 300 };
enum { LOG = COLUMNS, LOG_INDEX, CALLS_MADE };

static const Engine yard = ENGINE(yard);
static _Alignas(16) uint8_t room[ROOM];
static ucontext_t home;
static uint8_t *top; /* the stack pointer at the call */
static const Plan *plan;
static const Job *job;
static uint8_t images[IMAGES]; /* all calls but a turn take the first of them */
static uint8_t moves[2 * STEPS]; /* those of the walk, as a log */
static size_t moves_len;

static void call(void) {
  __asm__ volatile("mov %%rsp, %0" : "=r"(top));
  switch ((int)job->column) {
  case LOG: yard_log(plan->bytes, plan->len, moves, moves_len); break;
  case LOG_INDEX: yard_log_index(plan->bytes, plan->len, moves, moves_len); break;
  default: repeat(&yard, plan, job, images, 1);
  }
}

/* The bytes that one call takes. */
static size_t taken(const Plan *p, const Job *j) {
  ucontext_t away;
  plan = p, job = j;
  lay_out(j, images);
  memset(room, PAINT, ROOM);
  getcontext(&away);
  away.uc_stack.ss_sp = room, away.uc_stack.ss_size = ROOM, away.uc_link = &home;
  makecontext(&away, call, 0);
  swapcontext(&home, &away);
  uint8_t *low = room;
  while (*low == PAINT) low++;
  return (size_t)(top - low);
}

static void add_move(uint32_t number) {
  moves[moves_len++] = (uint8_t)number;
  moves[moves_len++] = 0;
}

/* The moves that settling goes on with from the job's image, and where they end its try. */
static void list_ahead(const Plan *p, Job *j) {
  uint8_t b[IMAGE];
  uint32_t answer;
  memcpy(b, j->image, IMAGE);
  while (j->list_len < LIST && (answer = base_settle(p->bytes, p->len, b, IMAGE)) >> 16 == 1) add_to_list(j, answer & 63);
  if (j->list_len < LIST) add_to_list(j, j->number);
}

/* Raises most by every call on an image, the try by this number. */
static void measure_at(const Plan *p, const uint8_t *b, uint32_t number, size_t *most) {
  Job j = {.number = number};
  memcpy(j.image, b, IMAGE);
  list_ahead(p, &j);
  add_move(number);
  for (int c = 0; c < CALLS_MADE; c++) {
    j.column = (enum column)c;
    size_t bytes = taken(p, &j);
    if (bytes > most[c]) most[c] = bytes;
  }
  moves_len -= 2;
}

static void begin(const Plan *p, uint8_t *b) {
  base_start(p->bytes, p->len, b, IMAGE);
  moves_len = 0;
}

/* Walks from the start; where nothing is on offer, settling goes on, or the walk begins anew. Gives how many images had marks. */
static unsigned walk(const Plan *p, size_t *most) {
  static const uint8_t none[8];
  uint8_t b[IMAGE];
  unsigned marked = 0;
  begin(p, b);
  for (int step = 0; step < STEPS; step++) {
    uint64_t offered = base_offered_bits(p->bytes, p->len, b, IMAGE);
    uint32_t number = offered ? some_bit(offered) : (uint32_t)step % 64;
    measure_at(p, b, number, most);
    marked += memcmp(b + 16, none, 8) != 0;
    uint32_t answer = offered ? base_try(p->bytes, p->len, b, IMAGE, number) : base_settle(p->bytes, p->len, b, IMAGE);
    if (answer >> 16 == 1) add_move(answer & 63);
    else if (!offered) begin(p, b);
  }
  return marked;
}

int main(int argc, char **argv) {
  size_t most[CALLS_MADE] = {0}, worst = 0;
  unsigned marked = 0;
  for (int k = 1; k < argc; k++) {
    load(argv[k], &plans[0]);
    marked += walk(&plans[0], most);
  }
  for (int c = 0; c < CALLS_MADE; c++) {
    printf("%s: %zu bytes\n", c == LOG ? "log" : c == LOG_INDEX ? "log index" : columns[c], most[c]);
    if (most[c] > worst) worst = most[c];
  }
  printf("at most %zu bytes, over %d plans and %d images, %u of them with marks\n", worst, argc - 1, (argc - 1) * STEPS, marked);
  return 0;
}
