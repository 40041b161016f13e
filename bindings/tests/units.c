/* The helpers of dillmonth_inline.h over many numbers. units.cpp, units.rs, units.py and units.mjs print the same by their owners. */
#include "check.h"
#include <inttypes.h>

static void print_units(double value) {
  dm_rot facing = dm_degrees(value * 9.25);
  dm_vec at = dm_at(value, -value), gravity = dm_gravity_of(value / 7, -value, 240), push = dm_push_of(201, value, value / 3, 120);
  printf("%" PRId64 " %" PRId64, at.x, at.y);
  printf(" %" PRId64 " %" PRId64, facing.c, facing.s);
  printf(" %" PRId64 " %" PRId64, gravity.x, gravity.y);
  printf(" %" PRId64 " %" PRId64, push.x, push.y);
  printf(" %" PRId64 " %" PRId64, dm_speed(value, 240), dm_speed(value, 60));
  printf(" %" PRId64 " %" PRId64 " %" PRId64 " %" PRId64 "\n", dm_spin_of(value, 256), dm_kilograms(value), dm_share(value), dm_ticks(value, 240));
}

static void print_masses(int64_t half, int64_t radius, int64_t density) {
  dm_mass_data disc = dm_circle_mass(radius, density), capsule = dm_capsule_mass(half, radius, density);
  printf("%" PRId64 " %" PRId64 " %" PRId64 " %" PRId64 "\n", disc.mass, disc.inertia, capsule.mass, capsule.inertia);
}

int main(void) {
  for (int i = -200; i <= 200; i++) print_units(i * 0.37);
  int64_t seed = 1;
  for (int i = 0; i < 300; i++) {
    int64_t sizes[3];
    for (int k = 0; k < 3; k++) {
      seed = seed * 48271 % 2147483647;
      sizes[k] = seed >> (seed % 3 * 3 + 7);
    }
    print_masses(sizes[0], sizes[1], sizes[2] >> 6);
  }
  print_masses(DM_METRE / 2, DM_METRE / 8, 256);
  print_masses(DM_METRE / 2, DM_METRE / 2, 256);
  print_masses((1 << 24) + 1, DM_METRE, 256);
  print_masses(DM_METRE, -1, 256);
  dm_shape shape = dm_capsule_shape(dm_at(-1, 0), dm_at(1, 0), dm_metres(0.25));
  dm_body_def def = dm_kinematic_def(dm_at(2, 3), dm_velocity(1, 0, DM_RATE));
  printf("%" PRIu32 " %" PRId32 " %" PRId64 " %" PRId64 " %" PRIu64 " %" PRIu64 "\n", shape.form, shape.group, shape.second.x, shape.radius, shape.category, shape.mask);
  printf("%" PRIu32 " %" PRId64 " %" PRId64 " %" PRId64 "\n", def.kind, def.facing.c, def.facing.s, def.velocity.x);
  dm_handle id = {7, 9};
  printf("%" PRIu64 " %d\n", dm_pack(id), dm_same(dm_unpack(dm_pack(id)), id) && !dm_same(id, DM_NOBODY));
  return 0;
}
