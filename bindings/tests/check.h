/* What the tests in C share: a small scene, and a digest that can be compared. */
#ifndef CHECK_H
#define CHECK_H
#include "dillmonth.h"
#include <stdio.h>
#include <stdlib.h>
#include <string.h>

#define METRE ((int64_t)1 << 20)
#define WANT(what)                                              \
  do {                                                          \
    if (!(what)) {                                              \
      fprintf(stderr, "%s:%d: %s\n", __FILE__, __LINE__, #what); \
      exit(1);                                                  \
    }                                                           \
  } while (0)

typedef struct { uint8_t bytes[DM_DIGEST_SIZE]; } digest_t;

static inline digest_t digest_of(const dm_world *world) {
  digest_t digest;
  WANT(dm_digest(world, digest.bytes, DM_DIGEST_SIZE) == DM_DONE);
  return digest;
}

static inline int same(digest_t a, digest_t b) { return memcmp(a.bytes, b.bytes, DM_DIGEST_SIZE) == 0; }

static inline dm_shape circle_of(int64_t radius) {
  dm_shape shape = {DM_CIRCLE, 0, {0, 0}, {0, 0}, radius, 128, 0, 1, UINT64_MAX};
  return shape;
}

static inline dm_handle add_circle(dm_world *world, int64_t x, int64_t y) {
  dm_body_def def = {DM_DYNAMIC, 0, {x, y}, {1 << 30, 0}, 200, 27000000000000, {0, 0}, 0};
  dm_shape shape = circle_of(METRE / 2);
  dm_handle made = {0, 0};
  WANT(dm_create_body(world, &def, &shape, 1, &made) == DM_DONE);
  return made;
}

static inline dm_handle add_floor(dm_world *world) {
  dm_body_def def = {DM_STATIC, 0, {0, 0}, {1 << 30, 0}, 0, 0, {0, 0}, 0};
  dm_shape shape = {DM_SEGMENT, 0, {-8 * METRE, 0}, {8 * METRE, 0}, 0, 128, 0, 1, UINT64_MAX};
  dm_handle made = {0, 0};
  WANT(dm_create_body(world, &def, &shape, 1, &made) == DM_DONE);
  return made;
}

/* A heap of circles over a floor, after some steps. */
static inline void make_heap(dm_world *world, int circles, int steps) {
  uint64_t step = 0;
  WANT(dm_open(world, (dm_vec){0, -179}) == DM_DONE);
  add_floor(world);
  for (int i = 0; i < circles; i++) add_circle(world, (i % 5 - 2) * METRE + i * 1000, METRE + (i / 5) * METRE);
  for (int i = 0; i < steps; i++) WANT(dm_step(world, 4, &step) == DM_DONE);
}
#endif
