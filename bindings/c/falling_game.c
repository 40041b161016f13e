/* A game's loop over a world, in C: it prints what the program falling_game prints.
 *
 *     cc bindings/c/falling_game.c -Ibindings/c bindings/out/libdillmonth.a -o falling_game && ./falling_game
 */
#include "dillmonth.h"
#include <inttypes.h>
#include <stdio.h>
#include <stdlib.h>

enum { FLOOR, RAMP, BALL, STICK, COIN, LIFT, BODIES };
static const char *const names[BODIES] = {"the floor", "the ramp", "the ball", "the stick", "the coin", "the lift"};

static const int64_t METRE = DM_METRE, HALF = DM_METRE / 2;

/* A refusal that the game doesn't reckon with ends it. */
static void must(dm_status status) {
  if (status != DM_DONE) {
    fprintf(stderr, "the world refused: %s\n", dm_status_text(status));
    exit(1);
  }
}

static dm_handle add(dm_world *world, dm_body_def def, dm_shape shape, double friction) {
  dm_handle made = DM_NOBODY;
  shape.friction = dm_share(friction);
  must(dm_add_body(world, def, shape, &made));
  return made;
}

static void make_scene(dm_world *world, dm_handle cast[BODIES]) {
  const int64_t density = DM_KILOGRAM; /* a square metre */
  const dm_shape bar = dm_capsule_shape((dm_vec){-HALF, 0}, (dm_vec){HALF, 0}, HALF / 4);
  dm_body_def ramp = dm_static_def(dm_at(-4, 2));
  ramp.facing = (dm_rot){1030792151, -300647711};
  dm_body_def movers[3] = {dm_dynamic_def(dm_at(-5, 4), dm_circle_mass(HALF, density)), dm_dynamic_def(dm_at(3, 3), dm_capsule_mass(HALF, HALF / 4, density)),
                           dm_dynamic_def(dm_at(0, 0.125), dm_circle_mass(HALF / 4, density))};
  for (int i = 0; i < 3; i++)
    printf("%s has the mass %" PRId64 " and the inertia %" PRId64 "\n", names[BALL + i], movers[i].mass, movers[i].inertia);
  cast[FLOOR] = add(world, dm_static_def(dm_at(0, 0)), dm_segment_shape(dm_at(-8, 0), dm_at(8, 0)), 0.5);
  cast[RAMP] = add(world, ramp, dm_segment_shape(dm_at(-2, 0), dm_at(2, 0)), 0.5);
  cast[BALL] = add(world, movers[0], dm_circle_shape(HALF), 0.5);
  cast[STICK] = add(world, movers[1], bar, 0.5);
  cast[COIN] = add(world, movers[2], dm_circle_shape(HALF / 4), 0);
  cast[LIFT] = add(world, dm_kinematic_def(dm_at(0, 6), dm_velocity(1, 0, DM_RATE)), bar, 0.5);
}

static const char *name_of(const dm_handle cast[BODIES], uint32_t slot) {
  for (int i = 0; i < BODIES; i++)
    if (cast[i].slot == slot) return names[i];
  return "the lift";
}

/* What the player wants in this frame: a kick of the coin, which may be gone by then. */
static void control(dm_world *world, const dm_handle cast[BODIES], int frame) {
  if (frame != 20 && frame != 200) return;
  dm_status status = dm_push(world, cast[COIN], (dm_vec){20000, 40000});
  if (status == DM_STALE_HANDLE) {
    printf("%d: there is no coin to kick\n", frame);
  } else {
    must(status);
    printf("%d: the coin is kicked\n", frame);
  }
}

/* Tells which shapes began to touch, and takes the coin away once the ball meets it. */
static void hear(dm_world *world, const dm_handle cast[BODIES], int frame) {
  dm_pair begun[16];
  dm_view view;
  int taken = 0;
  size_t count = dm_begun(world, begun, 16);
  for (size_t i = 0; i < count && i < 16; i++) {
    uint32_t first = begun[i].first.slot, second = begun[i].second.slot;
    printf("%d: %s meets %s\n", frame, name_of(cast, first), name_of(cast, second));
    if ((first == cast[BALL].slot && second == cast[COIN].slot) || (first == cast[COIN].slot && second == cast[BALL].slot)) taken = 1;
  }
  if (taken) {
    must(dm_destroy_body(world, cast[COIN]));
    if (dm_body(world, cast[COIN], &view) == DM_STALE_HANDLE) printf("%d: the coin is taken\n", frame);
  }
}

/* Tells where each body is that isn't static, in hundredths of a metre. */
static void show_all(dm_world *world, const dm_handle cast[BODIES]) {
  dm_pose poses[BODIES];
  dm_view view;
  size_t count = dm_poses(world, poses, BODIES);
  for (size_t i = 0; i < count && i < BODIES; i++) {
    must(dm_body(world, poses[i].handle, &view));
    if (view.set != DM_SET_STATIC)
      printf("   %s is at %" PRId64 ", %" PRId64 " cm\n", name_of(cast, poses[i].handle.slot), poses[i].at.x / (METRE / 100), poses[i].at.y / (METRE / 100));
  }
}

int main(void) {
  dm_world world;
  dm_handle cast[BODIES];
  if (dm_version() != DM_VERSION) return 2;
  must(dm_new(&world, dm_gravity_of(0, -9.81, DM_RATE)));
  make_scene(&world, cast);
  for (int frame = 1; frame <= 240; frame++) {
    control(&world, cast, frame);
    must(dm_advance(&world, 4));
    hear(&world, cast, frame);
    if (frame % 40 == 0) {
      printf("%d:\n", frame);
      show_all(&world, cast);
    }
  }
  dm_close(&world);
  return 0;
}
