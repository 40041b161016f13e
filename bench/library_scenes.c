/* Makes the steps of a scene through the library for C. It reads the lines that tools/plain_rust/compact.py writes, and answers as
 * chipmunk_scenes.c does: the nanoseconds of its steps of 4 ticks, how many they are, how many movers there are, and how many are awake.
 *
 *     cc -O2 -Ibindings/c bench/library_scenes.c bindings/out/libdillmonth.a -o scenes && scenes < LINES
 */
#include "dillmonth.h"
#include <inttypes.h>
#include <stdio.h>
#include <stdlib.h>
#include <string.h>
#include <time.h>

static dm_world world = DM_NONE;

static double nanoseconds(void) {
  struct timespec now;
  clock_gettime(CLOCK_PROCESS_CPUTIME_ID, &now);
  return 1e9 * now.tv_sec + now.tv_nsec;
}

static void must(dm_status status) {
  if (status == DM_DONE) return;
  fprintf(stderr, "the world refused: %" PRIu32 "\n", status);
  exit(1);
}

static int64_t number(void) {
  int64_t value = 0;
  if (scanf("%" SCNd64, &value) != 1) exit(1);
  return value;
}

static dm_vec vector(void) {
  int64_t x = number();
  return (dm_vec){x, number()};
}

static dm_handle handle(void) {
  uint32_t slot = (uint32_t)number();
  return (dm_handle){slot, (uint32_t)number()};
}

static void word(char *into) {
  if (scanf("%15s", into) != 1) exit(1);
}

static int add_body(void) {
  char kind[16], form[16];
  dm_handle made;
  word(kind);
  dm_body_def def = {strcmp(kind, "dynamic") ? DM_STATIC : DM_DYNAMIC, 0, {0, 0}, {1 << 30, 0}, 0, 0, {0, 0}, 0};
  def.mass = number();
  def.inertia = number();
  def.at = vector();
  word(form);
  dm_shape shape = {DM_CIRCLE, 0, {0, 0}, {0, 0}, 0, number(), 0, 1, UINT64_MAX};
  shape.first = vector();
  if (strcmp(form, "circle")) {
    shape.form = strcmp(form, "capsule") ? DM_SEGMENT : DM_CAPSULE;
    shape.second = vector();
  }
  if (shape.form != DM_SEGMENT) shape.radius = number();
  must(dm_create_body(&world, &def, &shape, 1, &made));
  return def.kind == DM_DYNAMIC;
}

static void add_joint(void) {
  dm_joint_def def = {handle(), {0, 0}, {0, 0}, {0, 0}, 0, 0, 0};
  dm_handle made;
  def.b = handle();
  def.from = vector();
  def.to = vector();
  def.length = number();
  def.collide = (uint32_t)number();
  must(dm_create_joint(&world, &def, &made));
}

static double took = 0;
static int steps = 0;

static void step(int64_t ticks) {
  uint64_t made;
  double start = nanoseconds();
  must(dm_step(&world, ticks, &made));
  must(dm_settle(&world));
  if (ticks != 4) return;
  took += nanoseconds() - start;
  steps++;
}

int main(void) {
  char letter[16];
  int movers = 0;
  must(dm_open(&world, (dm_vec){0, 0}));
  while (scanf("%15s", letter) == 1) {
    switch (*letter) {
      case 'g': must(dm_set_gravity(&world, vector())); break;
      case 'c': movers += add_body(); break;
      case 'j': add_joint(); break;
      case 'x': must(dm_destroy_body(&world, handle())); break;
      case 'D': must(dm_disable(&world, handle())); break;
      case 'E': must(dm_enable(&world, handle())); break;
      case 'z': must(dm_sleep(&world, handle())); break;
      case 's': step(number()); break;
      case 'p': {
        dm_handle body = handle();
        must(dm_push(&world, body, vector()));
        break;
      }
      default: exit(1);
    }
  }
  static dm_pose pose;
  printf("%.0f %d %d %zu\n", took, steps, movers, dm_moved(&world, &pose, 1));
  dm_close(&world);
  return 0;
}
