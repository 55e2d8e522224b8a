/* Two builds of the library, a second copy of the old one and the baseline in C, the better of its two builds, timed in turn in one run, best of rounds.
   What copy / old differs from 1 by is placement and noise; new / old is told from it only beyond that,
   and only if it is so again: equal builds have a cell above the greatest copy / old in about every second run.
   Plans that the old build refuses are left out, and lists or turns where it has none. Cells in which one of them answers or writes
   something else are marked and stand in no spread: there it does other work.
   builds ROUNDS PLAN... */
#define _GNU_SOURCE
#include "scenes.h"

CALLS(old)
CALLS(new)
CALLS(copy)

enum { OLD, NEW, COPY, BASE, NATIVE, BUILDS };
static const Engine engines[BUILDS] = {ENGINE(old), ENGINE(new), ENGINE(copy), ENGINE(base), ENGINE(native)};

/* new / old or copy / old. */
static double ratio(const Cell *c, int who) { return c->best[who] / c->best[OLD]; }

static void print_ratios(const Cell *c) {
  printf(" %.3f, %.3f%s |", ratio(c, NEW), ratio(c, COPY), c->differ ? ", differ" : "");
}

static void print_times(const Cell *c) { printf(" %.0f, %.0f, %.0f |", c->best[OLD], c->best[NEW], better(c, BASE, NATIVE)); }

static int alike(const Cell *c) { return c->there && !c->differ; }

/* Prints the least and the greatest ratio of all cells in which the builds do not differ; gives the greatest. */
static double spread(const char *what, int who) {
  double least = 1e18, most = 0;
  for (int k = 0; k < PLANS; k++)
    for (int c = 0; c < COLUMNS; c++) {
      if (!alike(&cells[k][c])) continue;
      double r = ratio(&cells[k][c], who);
      if (r < least) least = r;
      if (r > most) most = r;
    }
  printf("%s: %.3f to %.3f\n", what, least, most);
  return most;
}

/* The cells whose new / old lies above a limit, where the builds do not differ. */
static void print_above(double limit, int argc, char **argv) {
  int count = 0;
  printf("new / old above %.3f:\n", limit);
  for (int k = 2; k < argc; k++)
    for (int c = 0; c < COLUMNS; c++) {
      const Cell *cell = &cells[k - 2][c];
      if (!alike(cell) || ratio(cell, NEW) <= limit) continue;
      printf("  %s, %s: %.3f\n", basename(argv[k]), columns[c], ratio(cell, NEW));
      count++;
    }
  if (!count) printf("  none\n");
}

/* Takes the plans that the old build refuses out of the arguments; gives how many arguments are left. */
static int leave_out(int argc, char **argv) {
  int left = 2;
  for (int k = 2; k < argc; k++) {
    load(argv[k], &plans[0]);
    if (old_check(plans[0].bytes, plans[0].len)) printf("%s: refused by the old build\n", basename(argv[k]));
    else argv[left++] = argv[k];
  }
  return argc < 2 ? argc : left;
}

/* no-list.c and no-turn.c answer 0. */
static void ask_old(void) {
  uint8_t none[1] = {0};
  struct yard_lane nobody[1] = {{0}};
  have_lists = old_list(none, 0, none, 0, none, 0) != 0;
  have_turns = old_turn(none, 0, nobody, 0, none, 0) != 0;
  if (!have_lists) printf("lists are left out: the old build has none\n");
  if (!have_turns) printf("turns are left out: the old build has none\n");
}

int main(int argc, char **argv) {
  ask_old();
  argc = leave_out(argc, argv);
  int rounds = measure(engines, BUILDS, argc, argv);
  printf("new / old, copy / old, best of %d rounds.\n\n", rounds);
  print_table(argc, argv, print_ratios);
  printf("\nNanoseconds a call: old, new, C.\n\n");
  print_table(argc, argv, print_times);
  printf("\n");
  spread("new / old", NEW);
  print_above(spread("copy / old", COPY), argc, argv);
  printf("answers and images:\n");
  if (!print_differing(argc, argv)) printf("  alike\n");
  return 0;
}
