// Refuses the program one of its calls of malloc and realloc, by which alone it takes memory: the one of the
// number in REFUSED, from 1 on. It is loaded in front of the C library (LD_PRELOAD). What libraries take for
// themselves is not counted.
#define _GNU_SOURCE
#include <dlfcn.h>
#include <stdatomic.h>
#include <stdio.h>
#include <stdlib.h>
#include <string.h>
#include <unistd.h>

static atomic_long counted;
static long refused;

// Where the program's own code lies.
static char *low, *high;

__attribute__((constructor)) static void begin(void) {
  char line[512], name[256], program[256] = "", rights[5];
  if (readlink("/proc/self/exe", program, sizeof program - 1) < 0) abort();
  FILE *maps = fopen("/proc/self/maps", "r");
  if (!maps) abort();
  while (fgets(line, sizeof line, maps)) {
    unsigned long from, to;
    if (sscanf(line, "%lx-%lx %4s %*s %*s %*s %255s", &from, &to, rights, name) == 4 &&
        strcmp(name, program) == 0 && rights[2] == 'x') {
      low = (char *)from;
      high = (char *)to;
    }
  }
  fclose(maps);
  const char *number = getenv("REFUSED");
  refused = number ? atol(number) : 0;
}

static int is_refused(char *caller) {
  if (caller < low || caller >= high) return 0;
  return atomic_fetch_add(&counted, 1) + 1 == refused;
}

void *malloc(size_t size) {
  static void *(*next)(size_t);
  if (!next) next = dlsym(RTLD_NEXT, "malloc");
  return is_refused(__builtin_return_address(0)) ? NULL : next(size);
}

void *realloc(void *old, size_t size) {
  static void *(*next)(void *, size_t);
  if (!next) next = dlsym(RTLD_NEXT, "realloc");
  return is_refused(__builtin_return_address(0)) ? NULL : next(old, size);
}
