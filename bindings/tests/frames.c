/* Thirty-two threads that read one frame at once with no lock, while the thread that took it steps its world. An atomic count says how many
 * frames there are. Each is dropped when all have read it. */
#include "check.h"
#include <pthread.h>
#include <sched.h>
#include <stdatomic.h>

#define READERS 32
#define FRAMES 12

typedef struct {
  dm_frame frame;
  dm_pose poses[10];
  dm_hit hit;
  dm_sum total;
  size_t found;
  uint64_t calls;
} shown_t;

static shown_t shown[FRAMES];
static atomic_int published;
static atomic_int reads[FRAMES];
static const dm_box box = {{-9 * METRE, -METRE}, {9 * METRE, 9 * METRE}};
static const dm_vec above = {0, 20 * METRE}, down = {0, -40 * METRE};

/* What is read of a frame is what the world answered when it was taken. */
static void compare(const shown_t *with, unsigned seed) {
  dm_frame frame = with->frame;
  dm_pose pose;
  dm_hit hit;
  dm_sum total;
  dm_shape_id ids[4];
  size_t found = 0;
  const uint32_t slot = 1 + seed % 10;
  WANT(dm_frame_pose(frame, (dm_handle){slot, 1}, &pose) == DM_DONE && memcmp(&pose, &with->poses[slot - 1], sizeof pose) == 0);
  WANT(dm_frame_ray(frame, above, down, &hit) == DM_DONE && memcmp(&hit, &with->hit, sizeof hit) == 0);
  WANT(dm_frame_region(frame, &box, ids, 4, &found) == DM_DONE && found == with->found);
  WANT(dm_frame_total(frame, &total) == DM_DONE && memcmp(&total, &with->total, sizeof total) == 0);
  WANT(dm_frame_calls(frame) == with->calls);
}

static void *read_them(void *argument) {
  const unsigned seat = (unsigned)(uintptr_t)argument;
  for (int at = 0; at < FRAMES; at++) {
    while (atomic_load(&published) <= at) sched_yield();
    for (unsigned i = 0; i < 5; i++) compare(&shown[at], seat + i);
    atomic_fetch_add(&reads[at], 1);
  }
  return 0;
}

static void take(dm_world *world, shown_t *into) {
  dm_view view;
  WANT(dm_frame_take(world, &into->frame) == DM_DONE);
  for (uint32_t slot = 1; slot <= 10; slot++) {
    WANT(dm_body(world, (dm_handle){slot, 1}, &view) == DM_DONE);
    into->poses[slot - 1] = view.pose;
  }
  WANT(dm_ray(world, above, down, &into->hit) == DM_DONE && dm_total(world, &into->total) == DM_DONE);
  WANT(dm_region(world, &box, &into->found) == DM_DONE);
  into->calls = dm_frame_calls(into->frame);
}

int main(void) {
  pthread_t threads[READERS];
  dm_world world = DM_NONE;
  make_heap(&world, 10, 30);
  for (uintptr_t i = 0; i < READERS; i++) WANT(pthread_create(&threads[i], 0, read_them, (void *)i) == 0);
  for (int at = 0; at < FRAMES; at++) {
    take(&world, &shown[at]);
    atomic_store(&published, at + 1);
    for (int i = 0; i < 4; i++) WANT(dm_advance(&world, 1) == DM_DONE);
    for (int old = 0; old <= at; old++)
      if (shown[old].frame.at && atomic_load(&reads[old]) == READERS) dm_frame_drop(&shown[old].frame);
  }
  dm_close(&world);
  for (int i = 0; i < READERS; i++) WANT(pthread_join(threads[i], 0) == 0);
  for (int at = 0; at < FRAMES; at++) {
    WANT(atomic_load(&reads[at]) == READERS);
    dm_frame_drop(&shown[at].frame);
  }
  puts("thirty-two threads have read each frame beside the steps");
  return 0;
}
