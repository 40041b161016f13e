/* Times calls of the library for C in a world of 10,000 movers: nanoseconds for a push, for what is seen of a body, for a push of a batch of a
 * thousand, and for a pose of all. Each is the least of 20 rounds.
 *
 *     cc -O2 -Ibindings/c bench/library_calls.c bindings/out/libdillmonth.a -o calls && calls
 */
#include "dillmonth.h"
#include <stdio.h>
#include <stdlib.h>
#include <string.h>
#include <time.h>

enum { MOVERS = 10000, BATCH = 1000, ROUNDS = 20 };

static dm_world world = DM_NONE;
static dm_handle bodies[MOVERS];
static dm_pose poses[MOVERS];
static dm_command commands[BATCH];
static dm_answer answers[BATCH];
static dm_view view;

static double nanoseconds(void) {
  struct timespec now;
  clock_gettime(CLOCK_PROCESS_CPUTIME_ID, &now);
  return 1e9 * now.tv_sec + now.tv_nsec;
}

static void must(int holds) {
  if (!holds) exit(1);
}

static void make_world(void) {
  must(dm_open(&world, (dm_vec){0, -179}) == DM_DONE);
  for (int i = 0; i < MOVERS; i++) {
    dm_body_def def = {DM_DYNAMIC, 0, {(i % 100) * (4L << 20), (i / 100) * (4L << 20)}, {1 << 30, 0}, 200, 27000000000000, {0, 0}, 0};
    dm_shape shape = {DM_CIRCLE, 0, {0, 0}, {0, 0}, 1 << 19, 128, 0, 1, UINT64_MAX};
    must(dm_create_body(&world, &def, &shape, 1, &bodies[i]) == DM_DONE);
  }
  for (int i = 0; i < BATCH; i++) {
    commands[i].kind = DM_DO_PUSH;
    commands[i].joint.a = bodies[i];
    commands[i].by = (dm_vec){i % 2 ? 1000 : -1000, 0};
  }
}

static void push_each(void) {
  for (int i = 0; i < MOVERS; i++) must(dm_push(&world, bodies[i], (dm_vec){i % 2 ? 1000 : -1000, 0}) == DM_DONE);
}

static void see_each(void) {
  for (int i = 0; i < MOVERS; i++) must(dm_body(&world, bodies[i], &view) == DM_DONE);
}

static void push_batch(void) { must(dm_apply_all(&world, commands, BATCH, (dm_shape *)poses, 0, answers, BATCH) == BATCH); }

static void read_poses(void) { must(dm_poses(&world, poses, MOVERS) == MOVERS); }

static void measure(const char *name, void (*calls)(void), int count) {
  double least = 1e300;
  for (int i = 0; i < ROUNDS; i++) {
    double start = nanoseconds();
    calls();
    double took = nanoseconds() - start;
    if (took < least) least = took;
    must(dm_settle(&world) == DM_DONE);
  }
  printf("%s: %.1f\n", name, least / count);
}

int main(void) {
  make_world();
  measure("push", push_each, MOVERS);
  measure("body", see_each, MOVERS);
  measure("push in a batch", push_batch, BATCH);
  measure("pose of all", read_poses, MOVERS);
  dm_close(&world);
  return 0;
}
