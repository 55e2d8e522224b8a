/* The line that says where times were taken. */
#ifndef MACHINE_H
#define MACHINE_H
#include <stdio.h>
#include <string.h>

static void print_machine(void) {
  char line[256], model[256] = "unknown";
  FILE *f = fopen("/proc/cpuinfo", "r");
  while (f && fgets(line, sizeof line, f))
    if (!strncmp(line, "model name", 10)) sscanf(strchr(line, ':') + 1, " %255[^\n]", model);
  if (f) fclose(f);
  printf("Machine: %s. libyard.a: %s. C: gcc %s, with -O2 and with %s.\n\n", model, KIT, __VERSION__, NATIVE_FLAGS);
}
#endif
