/* What going back costs: a copy of a heap of discs, beside a step of one tick, in milliseconds of a processor (docs/GOING_BACK.md).
 *
 *     cc -O2 bench/library_copies.c -Ibindings/c bindings/out/libdillmonth.a -o copies && ./copies
 */
#include "dillmonth.h"
#include <stdio.h>
#include <stdlib.h>
#include <time.h>

static void must(dm_status status) {
  if (status == DM_DONE) return;
  fprintf(stderr, "the world refused: %s\n", dm_status_text(status));
  exit(1);
}

static double now(void) { return (double)clock() * 1000 / CLOCKS_PER_SEC; }

static void measure(int bodies) {
  enum { ROUNDS = 15 };
  dm_world world, kept;
  dm_handle made;
  dm_shape disc = dm_circle_shape(dm_metres(0.25)), floor = dm_segment_shape(dm_at(-15, 0), dm_at(15, 0));
  double copy = 1e9, step = 1e9, digest = 1e9;
  uint8_t bytes[DM_DIGEST_SIZE];
  disc.friction = floor.friction = dm_share(0.5);
  must(dm_new(&world, dm_gravity_of(0, -9.81, DM_RATE)));
  must(dm_add_body(&world, dm_static_def(dm_at(0, 0)), floor, &made));
  for (int i = 0; i < bodies; i++)
    must(dm_add_body(&world, dm_dynamic_def(dm_at((i % 40 - 20) * 0.55 + i % 3 * 0.01, 0.3 + i / 40 * 0.55), dm_circle_mass(disc.radius, DM_KILOGRAM)), disc, &made));
  for (int i = 0; i < 100; i++) must(dm_advance(&world, 1));
  must(dm_new_copy(&kept, &world));
  for (int round = 0; round < ROUNDS; round++) {
    double start = now();
    must(dm_copy(&kept, &world));
    copy = now() - start < copy ? now() - start : copy;
    start = now();
    must(dm_advance(&world, 1));
    step = now() - start < step ? now() - start : step;
    start = now();
    must(dm_digest(&world, bytes, sizeof bytes));
    digest = now() - start < digest ? now() - start : digest;
  }
  printf("| %d | %.3f | %.3f | %.3f |\n", bodies, copy, step, digest);
  dm_close(&world);
  dm_close(&kept);
}

int main(void) {
  const int sizes[] = {32, 100, 300, 1000, 3000};
  puts("| Bodies | A copy | A step of one tick | A digest |\n|---|---|---|---|");
  for (int i = 0; i < 5; i++) measure(sizes[i]);
  return 0;
}
