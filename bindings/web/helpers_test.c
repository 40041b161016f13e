/* Compares the functions of helpers.c for 128 bits with what the compiler does by itself for this machine. */
#define __multi3 own_product
#define __ashlti3 own_left
#define __lshrti3 own_right
#define __ashrti3 own_signed_right
#include "helpers.c"
#include <stdio.h>

static word next(word *seed) {
  *seed = *seed * 6364136223846793005u + 1442695040888963407u;
  return *seed ^ *seed >> 29;
}

/* A number with a random count of low bits, or their complement. */
static wide number(word *seed) {
  wide made = wide_of(next(seed), next(seed));
  int by = next(seed) >> 57;
  return next(seed) >> 63 ? made >> by : ~(made >> by);
}

int main(void) {
  word seed = 1;
  long wrong = 0, count = 2000000;
  for (long round = 0; round < count; round++) {
    wide a = number(&seed), b = number(&seed);
    int by = next(&seed) >> 57;
    wrong += own_product(a, b) != a * b;
    wrong += own_left(a, by) != a << by;
    wrong += own_right(a, by) != a >> by;
    wrong += own_signed_right(a, by) != (wide)((__int128)a >> by);
  }
  printf("%ld numbers, %ld wrong\n", count, wrong);
  return wrong != 0;
}
