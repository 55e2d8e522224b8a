/* ns a call of libyard.a and of the baseline, as a table in markdown: of the library the mean of four placements, 0, 16, 32 and 48 bytes into a
   page, of the baseline the better of its two builds, all in turn in one run, each the best of rounds. Where the linker puts a library moves
   a cell more than most changes of its code. A second copy of the baseline shows what placement and noise alone do.
   timing ROUNDS PLAN... */
#define _GNU_SOURCE
#include "machine.h"
#include "scenes.h"

CALLS(at0)
CALLS(at16)
CALLS(at32)
CALLS(at48)

enum { PLACES = 4, BASE = PLACES, NATIVE, SELF, BUILDS };
static const Engine engines[BUILDS] = {ENGINE(at0), ENGINE(at16), ENGINE(at32), ENGINE(at48), ENGINE(base), ENGINE(native), ENGINE(self)};

static double mean(const Cell *c) {
  double sum = 0;
  for (int k = 0; k < PLACES; k++) sum += c->best[k];
  return sum / PLACES;
}

static double ratio(const Cell *c) { return mean(c) / better(c, BASE, NATIVE); }

/* How far the placements lie apart, as a part of their mean. */
static double apart(const Cell *c) {
  double least = c->best[0], most = c->best[0];
  for (int k = 1; k < PLACES; k++) {
    if (c->best[k] < least) least = c->best[k];
    if (c->best[k] > most) most = c->best[k];
  }
  return (most - least) / mean(c);
}

static void print_times(const Cell *c) { printf(" %.0f / %.0f = %.2f |", mean(c), better(c, BASE, NATIVE), ratio(c)); }

/* How many cells lie above 1, how far the placements of a cell lie apart, and the two copies of the baseline's second build. */
static void print_summary(int plans_timed) {
  int count = 0, above = 0;
  double most = 0, least_self = 1, most_self = 1;
  for (int k = 0; k < plans_timed; k++)
    for (int c = 0; c < COLUMNS; c++) {
      const Cell *cell = &cells[k][c];
      if (!cell->there) continue;
      double self = cell->best[SELF] / cell->best[NATIVE];
      count++;
      above += ratio(cell) > 1;
      if (apart(cell) > most) most = apart(cell);
      if (self < least_self) least_self = self;
      if (self > most_self) most_self = self;
    }
  printf("\n%d cells: %d above 1.00. The placements of a cell lie at most %.0f %% apart. A second copy of C / the first: %.2f to %.2f.\n", count, above, 100 * most,
         least_self, most_self);
}

int main(int argc, char **argv) {
  int rounds = measure(engines, BUILDS, argc, argv);
  if (print_differing(argc, argv)) return 1;
  print_machine();
  printf("Nanoseconds a call, yard / C = ratio: yard the mean of four placements, C the better of two builds, each the best of %d rounds.\n\n", rounds);
  print_table(argc, argv, print_times);
  print_summary(argc - 2);
  return 0;
}
