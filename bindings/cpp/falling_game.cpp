// A game's loop over a world, in C++: it prints what the program falling_game prints.
//
//     c++ -std=c++17 bindings/cpp/falling_game.cpp -Ibindings/c -Ibindings/cpp bindings/out/libdillmonth.a -o falling_game && ./falling_game
#include "dillmonth.hpp"
#include <cstdio>
#include <string>
#include <vector>

namespace {

constexpr std::int64_t half = DM_METRE / 2, centimetre = DM_METRE / 100;
constexpr dm_rot slope{1030792151, -300647711};

struct actor {
  std::string name;
  dm::body_id body;
};

std::vector<actor> make_scene(dm::world &world) {
  struct role {
    const char *name;
    dm_body_def def;
    dm::shape form;
  };
  const std::int64_t density = DM_KILOGRAM; // a square metre
  const dm::shape bar = dm::capsule(dm::at(-0.5, 0), dm::at(0.5, 0), 0.125).with_friction(0.5);
  const std::vector<role> roles{
      {"the floor", dm::static_body(dm::at(0, 0)), dm::segment(dm::at(-8, 0), dm::at(8, 0)).with_friction(0.5)},
      {"the ramp", dm::static_body(dm::at(-4, 2), slope), dm::segment(dm::at(-2, 0), dm::at(2, 0)).with_friction(0.5)},
      {"the ball", dm::dynamic_body(dm::at(-5, 4), dm_circle_mass(half, density)), dm::circle(0.5).with_friction(0.5)},
      {"the stick", dm::dynamic_body(dm::at(3, 3), dm_capsule_mass(half, half / 4, density)), bar},
      {"the coin", dm::dynamic_body(dm::at(0, 0.125), dm_circle_mass(half / 4, density)), dm::circle(0.125)},
      {"the lift", dm::kinematic_body(dm::at(0, 6), dm::velocity(1, 0)), bar},
  };
  std::vector<actor> cast;
  for (const role &each : roles) {
    if (each.def.kind == DM_DYNAMIC)
      std::printf("%s has the mass %lld and the inertia %lld\n", each.name, static_cast<long long>(each.def.mass), static_cast<long long>(each.def.inertia));
    cast.push_back({each.name, world.create_body(each.def, {each.form})});
  }
  return cast;
}

const actor &actor_of(const std::vector<actor> &cast, std::uint32_t slot) {
  for (const actor &each : cast)
    if (each.body.handle().slot == slot) return each;
  return cast.back();
}

void play_frame(dm::world &world, const std::vector<actor> &cast, int frame) {
  const dm::body_id coin = cast[4].body;
  if (frame == 20 || frame == 200) {
    const bool kicked = world.try_push(coin, {20000, 40000}) == DM_DONE;
    std::printf(kicked ? "%d: the coin is kicked\n" : "%d: there is no coin to kick\n", frame);
  }
  world.step(4);
  bool taken = false;
  for (const dm_pair &pair : world.begun()) {
    const std::string first = actor_of(cast, pair.first.slot).name, second = actor_of(cast, pair.second.slot).name;
    std::printf("%d: %s meets %s\n", frame, first.c_str(), second.c_str());
    taken = taken || (first == "the ball" && second == "the coin") || (first == "the coin" && second == "the ball");
  }
  if (taken) {
    world.destroy_body(coin);
    if (!world.body(coin)) std::printf("%d: the coin is taken\n", frame);
  }
  if (frame % 40 != 0) return;
  std::printf("%d:\n", frame);
  for (const dm_pose &pose : world.poses())
    if (world.body(pose.handle)->set != DM_SET_STATIC)
      std::printf("   %s is at %lld, %lld cm\n", actor_of(cast, pose.handle.slot).name.c_str(), static_cast<long long>(pose.at.x / centimetre),
                  static_cast<long long>(pose.at.y / centimetre));
}

} // namespace

int main() {
  try {
    dm::world world(dm::gravity(0, -9.81));
    const std::vector<actor> cast = make_scene(world);
    for (int frame = 1; frame <= 240; frame++) play_frame(world, cast, frame);
  } catch (const dm::refused &refused) {
    std::fprintf(stderr, "%s\n", refused.what());
    return 1;
  }
}
