// The calls of tour.c, by the owner for C++.
#include "dillmonth.hpp"
#include <algorithm>
#include <cinttypes>
#include <cstdio>

namespace {

constexpr std::int64_t METRE = DM_METRE;
constexpr dm_rot UPRIGHT = {1 << 30, 0};

dm::shape disc(double radius) { return dm::circle(radius).with_friction(0.5); }

struct scene {
  dm::world world{dm::gravity(0, -9.81)};
  std::vector<dm::body_id> balls;
  dm::body_id platform{};

  scene() {
    world.create_body(dm::static_body(dm::at(0, 0)), {dm::segment(dm::at(-8, 0), dm::at(8, 0)).with_friction(0.5)});
    for (int i = 0; i < 5; i++)
      balls.push_back(world.create_body(dm::dynamic_body({(i - 2) * METRE + i * 1000, METRE}, {200, 27000000000000}), {disc(0.5)}));
    platform = world.create_body(dm::kinematic_body(dm::at(0, 6), {1000, 0}),
                                 {dm::capsule(dm::at(-1, 0), dm::at(1, 0), 0.25).with_friction(0.5).with_restitution(0.25)});
  }
};

void play(dm::world &world, int count) {
  std::size_t begun = 0, ended = 0, slept = 0, woke = 0;
  std::uint64_t step = 0;
  for (int i = 0; i < count; i++) {
    step = world.step(4);
    begun += world.begun().size();
    ended += world.ended().size();
    slept += world.slept().size();
    woke += world.woke().size();
  }
  std::printf("step %" PRIu64 ": %zu begun, %zu ended, %zu slept, %zu woke\n", step, begun, ended, slept, woke);
}

void command_each(scene &scene) {
  auto &[world, balls, platform] = scene;
  dm::joint_id made = world.create_joint(dm::joint(balls[0], balls[1], METRE, dm::at(0, 0.25), dm::at(0, 0.25), true));
  world.push(balls[2], {20000, 40000});
  world.push_at(balls[3], {1000, 0}, {0, METRE / 4});
  world.set_pose(balls[4], dm::at(3, 5), dm::degrees(90));
  world.set_velocity(platform, {2000, 0}, 1000);
  world.set_gravity({0, -157});
  world.disable(balls[1]);
  world.enable(balls[1]);
  world.sleep(balls[3]);
  world.wake(balls[3]);
  dm_status refused = 0;
  try {
    world.push(DM_NOBODY, {1, 1});
  } catch (const dm::refused &why) {
    refused = why.status;
  }
  std::printf("joint %" PRIu32 ".%" PRIu32 ", refused %" PRIu32 "\n", made.handle().slot, made.handle().generation, refused);
}

void command_all(scene &scene) {
  auto &[world, balls, platform] = scene;
  std::vector<dm_command> commands(7);
  commands[0].kind = DM_DO_CREATE_BODY;
  commands[0].shapes_count = 1;
  commands[0].body = dm::dynamic_body(dm::at(-4, 3), {50, 1000000000000});
  commands[1].kind = DM_DO_PUSH;
  commands[2].kind = DM_DO_CREATE_JOINT;
  commands[2].joint = dm::joint(balls[2], balls[3], 2 * METRE);
  commands[3].kind = DM_DO_SET_POSE;
  commands[3].joint.a = balls[0].handle();
  commands[3].body.at = {-6 * METRE, 2 * METRE};
  commands[3].body.facing = UPRIGHT;
  commands[4].kind = DM_DO_SET_VELOCITY;
  commands[4].joint.a = platform.handle();
  commands[4].body.velocity = {-2000, 0};
  commands[4].body.spin = 500;
  commands[5].kind = DM_DO_DESTROY_BODY;
  commands[5].joint.a = balls[4].handle();
  commands[6].kind = DM_DO_STEP;
  commands[6].ticks = 4;
  std::vector<dm_answer> answers = world.apply_all(commands, {disc(0.25)});
  std::printf("a body %" PRIu32 ".%" PRIu32 ", a joint %" PRIu32 ".%" PRIu32 ", step %" PRIu64 ", refused %" PRIu32 "\n", answers[0].made.slot,
              answers[0].made.generation, answers[2].made.slot, answers[2].made.generation, answers[6].step, answers[1].status);
  world.destroy_joint(answers[2].made);
  world.destroy_body(answers[0].made);
}

void look(scene &scene) {
  const dm::world &world = scene.world;
  std::size_t points = 0;
  auto contacts = world.contacts();
  for (const dm_contact &contact : contacts) points += contact.points;
  std::size_t found = world.region({{-9 * METRE, -METRE}, {0, 9 * METRE}}).size();
  dm_hit hit = world.ray(dm::at(0, 20), dm::at(0, -40)).value();
  dm_view view = world.body(scene.balls[2]).value();
  dm::must(world.body(scene.balls[4]) ? DM_STALE_HANDLE : DM_DONE);
  std::printf("%zu poses, %zu moved, %zu contacts of %zu points, %zu in a region\n", world.poses().size(), world.moved().size(), contacts.size(), points, found);
  std::printf("a ray hits %" PRIu32 ".%" PRIu32 " at %" PRIu32 "\n", hit.shape.slot, hit.shape.index, hit.fraction);
  dm_shape_hit on = world.ray_on(hit.shape, dm::at(0, 20), dm::at(0, -40)).value();
  std::printf("at %" PRId64 ", %" PRId64 ", where it faces %" PRId64 ", %" PRId64 "\n", on.point.x, on.point.y, on.normal.x, on.normal.y);
  std::printf("a body at %" PRId64 ", %" PRId64 " with %" PRId64 ", %" PRId64 " and %" PRId64 ", awake %d\n", view.pose.at.x, view.pose.at.y, view.p.x,
              view.p.y, std::int64_t(view.l_low), view.set == DM_SET_AWAKE);
  std::printf("%" PRIu64 " steps, gravity %" PRId64 "\n", world.steps(), world.gravity().y);
}

void look_closer(scene &scene) {
  const dm::world &world = scene.world;
  const dm_filter but_the_floor = {{0, 1}, 1, 1, 0};
  const dm::body_id ball = scene.balls[0];
  dm_body_info info = world.info(ball).value();
  std::vector<dm_shape> shapes = world.shapes(ball);
  std::printf("a body of kind %" PRIu32 ", mass %" PRId64 ", radius %" PRId64 ", with %zu shapes, %zu joints, %zu contacts, in island %" PRIu32 "\n", info.kind,
              info.mass, shapes[0].radius, shapes.size(), world.joints(ball).size(), world.contacts(ball).size(), info.island);
  dm_joint_view joint = world.joint(world.joints().at(0)).value();
  std::printf("a joint of %" PRIu32 ".%" PRIu32 " and %" PRIu32 ".%" PRIu32 ", length %" PRId64 ", impulse %" PRId64 "\n", joint.def.a.slot,
              joint.def.a.generation, joint.def.b.slot, joint.def.b.generation, joint.def.length, joint.impulse);
  const std::vector<dm_contact> under = world.contacts(world.body_in(0));
  const auto coloured = std::count_if(under.begin(), under.end(), [&](const dm_contact &contact) { return world.colour_of(contact.pair).has_value(); });
  std::printf("%zu contacts of the floor, of which %zu have a colour\n", under.size(), std::size_t(coloured));
  dm_counts counts = world.count();
  std::printf("%zu bodies, %zu awake, %zu joints, %zu contacts, %zu touching, %zu islands, %zu colours\n", counts.bodies, counts.awake, counts.joints,
              counts.contacts, counts.touching, counts.islands, counts.colours);
  std::printf("gravity gave %" PRId64 ", all gave %" PRId64 ", by rules %" PRIu32 "\n", std::int64_t(world.total_of(DM_BY_GRAVITY).y_low),
              std::int64_t(world.total().y_low), dm_rules());
  dm_handle first = world.body_in(1).handle();
  std::printf("%zu hits and %zu shapes but for the floor, body %" PRIu32 ".%" PRIu32 "\n", world.all_hits({-9 * METRE, METRE / 2}, {18 * METRE, 0}, but_the_floor).size(),
              world.region({{-9 * METRE, -METRE}, {9 * METRE, 9 * METRE}}, but_the_floor).size(), first.slot, first.generation);
}

void ask_a_frame(scene &scene) {
  dm::frame frame = scene.world.take_frame();
  play(scene.world, 30);
  dm_pose pose = frame.pose(scene.balls[2]).value();
  dm_hit hit = frame.ray({0, 20 * METRE}, {0, -40 * METRE}).value();
  if (frame.pose(scene.balls[4])) throw dm::refused(DM_BAD_FILE);
  std::printf("after %" PRIu64 " calls a body was at %" PRId64 ", %" PRId64 ", a ray hit %" PRIu32 ".%" PRIu32 " at %" PRIu32
              ", %zu were in a region, all had given %" PRId64 "\n",
              frame.calls(), pose.at.x, pose.at.y, hit.shape.slot, hit.shape.index, hit.fraction, frame.region({{-9 * METRE, -METRE}, {0, 9 * METRE}}).size(),
              std::int64_t(frame.total().y_low));
}

void keep_a_journal() {
  dm::world played(dm_vec{0, 0});
  dm::journal journal(played, {0, -179});
  dm_command command{};
  command.body = dm::static_body(dm::at(0, 0));
  dm::must(journal.apply(played, command, {dm::segment(dm::at(-8, 0), dm::at(8, 0)).with_friction(0.5)}).status);
  command.body = dm::dynamic_body(dm::at(0, 3), {200, 27000000000000});
  dm::must(journal.apply(played, command, {disc(0.5)}).status);
  command.kind = DM_DO_PUSH;
  if (journal.apply(played, command).status != DM_STALE_HANDLE) throw dm::refused(DM_BAD_FILE);
  command.kind = DM_DO_STEP;
  command.ticks = 4;
  for (int i = 0; i < 30; i++) dm::must(journal.apply(played, command).status);
  auto digest = journal.replay().digest();
  if (digest != played.digest()) throw dm::refused(DM_BAD_FILE);
  std::printf("a journal of %zu calls, whose replay has the digest %02x%02x%02x%02x..\n", journal.commands().size(), unsigned(digest[0]), unsigned(digest[1]),
              unsigned(digest[2]), unsigned(digest[3]));
}

void follow(scene &scene) {
  auto &[world, balls, platform] = scene;
  world.set_tag(balls[2], 7002);
  world.clear_events();
  world.push_to(balls[2], {0, 6000});
  world.twist_to(balls[2], 2000000);
  world.twist(balls[3], 1000000000000);
  world.set_target(platform, dm::at(1, 6), dm::degrees(30), 4);
  if (world.try_push_to(platform, {0, 0}) != DM_NOT_A_MOVER || world.try_set_target(balls[2], {0, 0}, {DM_ONE, 0}, 4) != DM_NOT_KINEMATIC) throw dm::refused(DM_BAD_KIND);
  dm_course course = world.motion(balls[2]).value();
  std::printf("a velocity of %" PRId64 ", %" PRId64 " and a spin of %" PRId64 ", tag %" PRIu64 "\n", course.velocity.x, course.velocity.y, course.spin,
              world.body(balls[2])->tag);
  course = world.motion(platform).value();
  std::printf("a course of %" PRId64 ", %" PRId64 " and %" PRId64 "\n", course.velocity.x, course.velocity.y, course.spin);
  play(world, 1);
  const dm_pose reached = world.body(platform)->pose;
  std::printf("after its four ticks at %" PRId64 ", %" PRId64 ", facing %" PRId64 ", %" PRId64 "\n", reached.at.x, reached.at.y, reached.facing.c, reached.facing.s);
  play(world, 60);
  std::size_t of_kind[4] = {0, 0, 0, 0};
  const std::vector<dm_event> events = world.events();
  for (const dm_event &event : events) of_kind[event.kind]++;
  std::printf("%zu events: %zu begun, %zu ended, %zu slept, %zu woke\n", events.size(), of_kind[0], of_kind[1], of_kind[2], of_kind[3]);
  for (const dm_event &event : events)
    if (event.kind == DM_EVENT_BEGUN) {
      std::printf("step %" PRIu64 ": %" PRIu32 " and %" PRIu32 " with tags %" PRIu64 " and %" PRIu64 ", %" PRIu32 " points, impulse %" PRId64 "\n", event.step,
                  event.first.slot, event.second.slot, event.first_tag, event.second_tag, event.contact.points, event.contact.first.normal_impulse);
      break;
    }
  world.clear_events(false);
}

void keep(dm::world world) {
  auto digest = world.digest();
  std::string text = world.save();
  dm::world moved(dm_vec{0, 0});
  moved = std::move(world); // what it held is closed, and `world` holds none
  if (dm::world::load(text).digest() != digest || moved.copy().digest() != digest || world.steps() != 0) throw dm::refused(DM_BAD_FILE);
  dm_status status = 0;
  std::uint32_t clause = 0;
  try {
    static_cast<void>(dm::world::load("{}"));
  } catch (const dm::refused &why) {
    status = why.status;
    clause = why.clause;
  }
  std::printf("%zu bytes, refused %" PRIu32 " by clause %" PRIu32 "\n", text.size(), status, clause);
  for (unsigned byte : digest) std::printf("%02x", byte);
  std::printf("\n");
}

} // namespace

int main() {
  scene scene;
  play(scene.world, 60);
  command_each(scene);
  play(scene.world, 60);
  command_all(scene);
  play(scene.world, 60);
  look(scene);
  look_closer(scene);
  ask_a_frame(scene);
  keep_a_journal();
  follow(scene);
  keep(std::move(scene.world));
}
