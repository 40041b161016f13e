// The lines of units.c, by the owner for C++.
#include "dillmonth.hpp"
#include <cinttypes>

namespace {

void print(std::initializer_list<std::int64_t> numbers) {
  const char *between = "";
  for (std::int64_t number : numbers) {
    std::printf("%s%" PRId64, between, number);
    between = " ";
  }
  std::printf("\n");
}

void print_units(double value) {
  const dm_rot facing = dm::degrees(value * 9.25);
  const dm_vec at = dm::at(value, -value), gravity = dm::gravity(value / 7, -value), push = dm::push_of(201, value, value / 3, 120);
  print({at.x, at.y, facing.c, facing.s, gravity.x, gravity.y, push.x, push.y, dm::velocity(value, 0).x, dm::velocity(0, value, 60).y,
         dm::spin(value, 256), dm_kilograms(value), dm::circle(1).with_friction(value).friction, dm_ticks(value, DM_RATE)});
}

void print_masses(std::int64_t half, std::int64_t radius, std::int64_t density) {
  const dm_mass_data disc = dm_circle_mass(radius, density), capsule = dm_capsule_mass(half, radius, density);
  print({disc.mass, disc.inertia, capsule.mass, capsule.inertia});
}

} // namespace

int main() {
  for (int i = -200; i <= 200; i++) print_units(i * 0.37);
  std::int64_t seed = 1;
  for (int i = 0; i < 300; i++) {
    std::int64_t sizes[3];
    for (std::int64_t &size : sizes) {
      seed = seed * 48271 % 2147483647;
      size = seed >> (seed % 3 * 3 + 7);
    }
    print_masses(sizes[0], sizes[1], sizes[2] >> 6);
  }
  print_masses(DM_METRE / 2, DM_METRE / 8, 256);
  print_masses(DM_METRE / 2, DM_METRE / 2, 256);
  print_masses((1 << 24) + 1, DM_METRE, 256);
  print_masses(DM_METRE, -1, 256);
  const dm_shape shape = dm::capsule(dm::at(-1, 0), dm::at(1, 0), 0.25);
  const dm_body_def def = dm::kinematic_body(dm::at(2, 3), dm::velocity(1, 0));
  std::printf("%" PRIu32 " %" PRId32 " %" PRId64 " %" PRId64 " %" PRIu64 " %" PRIu64 "\n", shape.form, shape.group, shape.second.x, shape.radius,
              shape.category, shape.mask);
  print({def.kind, def.facing.c, def.facing.s, def.velocity.x});
  const dm::body_id id = dm_handle{7, 9};
  print({static_cast<std::int64_t>(id.packed()), dm::body_id(dm_unpack(id.packed())) == id && id != dm::body_id()});
}
