/* A tour of the calls, which prints what they answer. tour.cpp, tour.rs and tour.py make the same calls by their owners, and print the same. */
#include "check.h"
#include "dillmonth_journal.h"
#include <inttypes.h>

static dm_world world = DM_NONE;
static dm_handle balls[5], platform, nobody;

static void make_scene(void) {
  dm_shape capsule = {DM_CAPSULE, 0, {-METRE, 0}, {METRE, 0}, METRE / 4, 128, 64, 1, UINT64_MAX};
  dm_body_def lift = {DM_KINEMATIC, 0, {0, 6 * METRE}, {1 << 30, 0}, 0, 0, {1000, 0}, 0};
  WANT(dm_open(&world, (dm_vec){0, -179}) == DM_DONE);
  add_floor(&world);
  for (int i = 0; i < 5; i++) balls[i] = add_circle(&world, (i - 2) * METRE + i * 1000, METRE);
  WANT(dm_create_body(&world, &lift, &capsule, 1, &platform) == DM_DONE);
}

static void play(int count) {
  size_t begun = 0, ended = 0, slept = 0, woke = 0;
  uint64_t step = 0;
  dm_pair pair;
  dm_handle handle;
  for (int i = 0; i < count; i++) {
    WANT(dm_step(&world, 4, &step) == DM_DONE && dm_settle(&world) == DM_DONE);
    begun += dm_begun(&world, &pair, 1);
    ended += dm_ended(&world, &pair, 1);
    slept += dm_slept(&world, &handle, 1);
    woke += dm_woke(&world, &handle, 1);
  }
  printf("step %" PRIu64 ": %zu begun, %zu ended, %zu slept, %zu woke\n", step, begun, ended, slept, woke);
}

static void command_each(void) {
  dm_joint_def joint = {balls[0], balls[1], {0, METRE / 4}, {0, METRE / 4}, METRE, 1, 0};
  dm_handle made = nobody;
  WANT(dm_create_joint(&world, &joint, &made) == DM_DONE);
  WANT(dm_push(&world, balls[2], (dm_vec){20000, 40000}) == DM_DONE);
  WANT(dm_push_at(&world, balls[3], (dm_vec){1000, 0}, (dm_vec){0, METRE / 4}) == DM_DONE);
  WANT(dm_set_pose(&world, balls[4], (dm_vec){3 * METRE, 5 * METRE}, (dm_rot){0, 1 << 30}) == DM_DONE);
  WANT(dm_set_velocity(&world, platform, (dm_vec){2000, 0}, 1000) == DM_DONE);
  WANT(dm_set_gravity(&world, (dm_vec){0, -157}) == DM_DONE);
  WANT(dm_disable(&world, balls[1]) == DM_DONE && dm_enable(&world, balls[1]) == DM_DONE);
  WANT(dm_sleep(&world, balls[3]) == DM_DONE && dm_wake(&world, balls[3]) == DM_DONE);
  printf("joint %" PRIu32 ".%" PRIu32 ", refused %" PRIu32 "\n", made.slot, made.generation, dm_push(&world, nobody, (dm_vec){1, 1}));
}

static void command_all(void) {
  dm_shape shape = circle_of(METRE / 4);
  dm_command commands[7];
  dm_answer answers[7];
  memset(commands, 0, sizeof commands);
  commands[0].kind = DM_DO_CREATE_BODY;
  commands[0].shapes_count = 1;
  commands[0].body = (dm_body_def){DM_DYNAMIC, 0, {-4 * METRE, 3 * METRE}, {1 << 30, 0}, 50, 1000000000000, {0, 0}, 0};
  commands[1].kind = DM_DO_PUSH;
  commands[1].joint.a = nobody;
  commands[2].kind = DM_DO_CREATE_JOINT;
  commands[2].joint = (dm_joint_def){balls[2], balls[3], {0, 0}, {0, 0}, 2 * METRE, 0, 0};
  commands[3].kind = DM_DO_SET_POSE;
  commands[3].joint.a = balls[0];
  commands[3].body.at = (dm_vec){-6 * METRE, 2 * METRE};
  commands[3].body.facing = (dm_rot){1 << 30, 0};
  commands[4].kind = DM_DO_SET_VELOCITY;
  commands[4].joint.a = platform;
  commands[4].body.velocity = (dm_vec){-2000, 0};
  commands[4].body.spin = 500;
  commands[5].kind = DM_DO_DESTROY_BODY;
  commands[5].joint.a = balls[4];
  commands[6].kind = DM_DO_STEP;
  commands[6].ticks = 4;
  WANT(dm_apply_all(&world, commands, 7, &shape, 1, answers, 7) == 7);
  printf("a body %" PRIu32 ".%" PRIu32 ", a joint %" PRIu32 ".%" PRIu32 ", step %" PRIu64 ", refused %" PRIu32 "\n", answers[0].made.slot,
         answers[0].made.generation, answers[2].made.slot, answers[2].made.generation, answers[6].step, answers[1].status);
  WANT(dm_destroy_joint(&world, answers[2].made) == DM_DONE && dm_destroy_body(&world, answers[0].made) == DM_DONE);
}

static void look(void) {
  dm_box box = {{-9 * METRE, -METRE}, {0, 9 * METRE}};
  dm_contact contacts[64];
  dm_pose pose;
  dm_view view;
  dm_hit hit;
  size_t near = 0, found = 0, points = 0;
  WANT(dm_contacts(&world, &near) == DM_DONE && near <= 64 && dm_contacts_listed(&world, contacts, 64) == near);
  for (size_t i = 0; i < near; i++) points += contacts[i].points;
  WANT(dm_region(&world, &box, &found) == DM_DONE);
  WANT(dm_ray(&world, (dm_vec){0, 20 * METRE}, (dm_vec){0, -40 * METRE}, &hit) == DM_DONE && hit.is_hit);
  WANT(dm_body(&world, balls[2], &view) == DM_DONE && dm_body(&world, balls[4], &view) == DM_STALE_HANDLE);
  printf("%zu poses, %zu moved, %zu contacts of %zu points, %zu in a region\n", dm_poses(&world, &pose, 1), dm_moved(&world, &pose, 1), near, points, found);
  printf("a ray hits %" PRIu32 ".%" PRIu32 " at %" PRIu32 "\n", hit.shape.slot, hit.shape.index, hit.fraction);
  dm_shape_hit on;
  WANT(dm_ray_on_shape(&world, (dm_vec){0, 20 * METRE}, (dm_vec){0, -40 * METRE}, hit.shape, &on) == DM_DONE && on.is_hit && on.fraction == hit.fraction);
  printf("at %" PRId64 ", %" PRId64 ", where it faces %" PRId64 ", %" PRId64 "\n", on.point.x, on.point.y, on.normal.x, on.normal.y);
  printf("a body at %" PRId64 ", %" PRId64 " with %" PRId64 ", %" PRId64 " and %" PRId64 ", awake %d\n", view.pose.at.x, view.pose.at.y, view.p.x, view.p.y,
         (int64_t)view.l_low, view.set == DM_SET_AWAKE);
  printf("%" PRIu64 " steps, gravity %" PRId64 "\n", dm_steps(&world), dm_gravity(&world).y);
}

/* What bodies and joints are, how much there is, and questions through a filter. */
static void look_closer(void) {
  dm_filter but_the_floor = {{0, 1}, 1, 1, 0};
  dm_box box = {{-9 * METRE, -METRE}, {9 * METRE, 9 * METRE}};
  dm_body_info info;
  dm_joint_view joint;
  dm_shape shape;
  dm_handle id;
  dm_contact contact, of_floor[16];
  dm_counts counts;
  dm_sum gravity, total;
  dm_hit hits[16];
  size_t shapes = 0, joints = 0, contacts = 0, hit = 0, found = 0, under = 0, coloured = 0;
  WANT(dm_info(&world, balls[0], &info) == DM_DONE && dm_shapes(&world, balls[0], &shape, 1, &shapes) == DM_DONE);
  WANT(dm_joints_of(&world, balls[0], &id, 1, &joints) == DM_DONE && dm_contacts_of(&world, balls[0], &contact, 1, &contacts) == DM_DONE);
  printf("a body of kind %" PRIu32 ", mass %" PRId64 ", radius %" PRId64 ", with %zu shapes, %zu joints, %zu contacts, in island %" PRIu32 "\n", info.kind,
         info.mass, shape.radius, shapes, joints, contacts, info.island);
  WANT(dm_joints(&world, &id, 1) == 1 && dm_joint(&world, id, &joint) == DM_DONE && dm_joint_in(&world, id.slot).generation == id.generation);
  printf("a joint of %" PRIu32 ".%" PRIu32 " and %" PRIu32 ".%" PRIu32 ", length %" PRId64 ", impulse %" PRId64 "\n", joint.def.a.slot, joint.def.a.generation,
         joint.def.b.slot, joint.def.b.generation, joint.def.length, joint.impulse);
  WANT(dm_count(&world, &counts) == DM_DONE && dm_total_of(&world, DM_BY_GRAVITY, &gravity) == DM_DONE && dm_total(&world, &total) == DM_DONE);
  WANT(dm_contacts_of(&world, dm_body_in(&world, 0), of_floor, 16, &under) == DM_DONE && under <= 16);
  for (size_t i = 0; i < under; i++) coloured += dm_colour_of(&world, of_floor[i].pair.first, of_floor[i].pair.second) != DM_NO_COLOUR;
  printf("%zu contacts of the floor, of which %zu have a colour\n", under, coloured);
  printf("%zu bodies, %zu awake, %zu joints, %zu contacts, %zu touching, %zu islands, %zu colours\n", counts.bodies, counts.awake, counts.joints, counts.contacts,
         counts.touching, counts.islands, counts.colours);
  printf("gravity gave %" PRId64 ", all gave %" PRId64 ", by rules %" PRIu32 "\n", (int64_t)gravity.y_low, (int64_t)total.y_low, dm_rules());
  WANT(dm_ray_all(&world, (dm_vec){-9 * METRE, METRE / 2}, (dm_vec){18 * METRE, 0}, &but_the_floor, &hit) == DM_DONE && hit <= 16);
  WANT(dm_hits_found(&world, hits, 16) == hit && dm_region_through(&world, &box, &but_the_floor, &found) == DM_DONE);
  printf("%zu hits and %zu shapes but for the floor, body %" PRIu32 ".%" PRIu32 "\n", hit, found, dm_body_in(&world, 1).slot, dm_body_in(&world, 1).generation);
}

/* What was shown stays: the world goes on after a frame was taken, which answers as before. */
static void ask_a_frame(void) {
  dm_frame frame = DM_NO_FRAME;
  dm_box box = {{-9 * METRE, -METRE}, {0, 9 * METRE}};
  dm_pose pose;
  dm_hit hit;
  dm_sum total;
  dm_shape_id id;
  size_t found = 0;
  WANT(dm_frame_take(&world, &frame) == DM_DONE);
  play(30);
  WANT(dm_frame_pose(frame, balls[2], &pose) == DM_DONE && dm_frame_pose(frame, balls[4], &pose) == DM_STALE_HANDLE);
  WANT(dm_frame_ray(frame, (dm_vec){0, 20 * METRE}, (dm_vec){0, -40 * METRE}, &hit) == DM_DONE && hit.is_hit);
  WANT(dm_frame_region(frame, &box, &id, 1, &found) == DM_DONE && dm_frame_total(frame, &total) == DM_DONE);
  printf("after %" PRIu64 " calls a body was at %" PRId64 ", %" PRId64 ", a ray hit %" PRIu32 ".%" PRIu32 " at %" PRIu32 ", %zu were in a region, all had given %" PRId64 "\n",
         dm_frame_calls(frame), pose.at.x, pose.at.y, hit.shape.slot, hit.shape.index, hit.fraction, found, (int64_t)total.y_low);
  dm_frame_drop(&frame);
}

/* The events of step after step, tags, and motions that are read and set. */
static void follow(void) {
  dm_event events[64];
  dm_course course;
  dm_view view;
  size_t told = 0, of_kind[4] = {0, 0, 0, 0};
  WANT(dm_set_tag(&world, balls[2], 7002) == DM_DONE && dm_set_tag(&world, nobody, 1) == DM_STALE_HANDLE && dm_tag(&world, balls[2]) == 7002);
  WANT(dm_events_clear(&world, 1) == DM_DONE);
  WANT(dm_push_to(&world, balls[2], (dm_vec){0, 6000}) == DM_DONE && dm_twist_to(&world, balls[2], 2000000) == DM_DONE);
  WANT(dm_twist(&world, balls[3], 1000000000000) == DM_DONE);
  WANT(dm_set_target(&world, platform, (dm_vec){METRE, 6 * METRE}, dm_degrees(30), 4) == DM_DONE);
  WANT(dm_push_to(&world, platform, (dm_vec){0, 0}) == DM_NOT_A_MOVER && dm_set_target(&world, balls[2], (dm_vec){0, 0}, (dm_rot){1 << 30, 0}, 4) == DM_NOT_KINEMATIC);
  WANT(dm_motion(&world, balls[2], &course) == DM_DONE && dm_body(&world, balls[2], &view) == DM_DONE);
  printf("a velocity of %" PRId64 ", %" PRId64 " and a spin of %" PRId64 ", tag %" PRIu64 "\n", course.velocity.x, course.velocity.y, course.spin, view.tag);
  WANT(dm_motion(&world, platform, &course) == DM_DONE && dm_motion(&world, nobody, &course) == DM_STALE_HANDLE);
  printf("a course of %" PRId64 ", %" PRId64 " and %" PRId64 "\n", course.velocity.x, course.velocity.y, course.spin);
  play(1);
  WANT(dm_body(&world, platform, &view) == DM_DONE);
  printf("after its four ticks at %" PRId64 ", %" PRId64 ", facing %" PRId64 ", %" PRId64 "\n", view.pose.at.x, view.pose.at.y, view.pose.facing.c, view.pose.facing.s);
  play(60);
  WANT(dm_events(&world, events, 64, &told) == DM_DONE && told >= 1 && told <= 64);
  for (size_t i = 0; i < told; i++) of_kind[events[i].kind]++;
  printf("%zu events: %zu begun, %zu ended, %zu slept, %zu woke\n", told, of_kind[0], of_kind[1], of_kind[2], of_kind[3]);
  for (size_t i = 0; i < told; i++)
    if (events[i].kind == DM_EVENT_BEGUN) {
      printf("step %" PRIu64 ": %" PRIu32 " and %" PRIu32 " with tags %" PRIu64 " and %" PRIu64 ", %" PRIu32 " points, impulse %" PRId64 "\n", events[i].step, events[i].first.slot,
             events[i].second.slot, events[i].first_tag, events[i].second_tag, events[i].contact.points, events[i].contact.first.normal_impulse);
      break;
    }
  WANT(dm_events_clear(&world, 0) == DM_DONE && dm_events(&world, events, 64, &told) == DM_DONE && told == 0);
}

static void keep(void) {
  dm_world other = DM_NONE;
  digest_t digest = digest_of(&world);
  size_t bytes = 0;
  uint32_t clause = 0;
  WANT(dm_save(&world, &bytes) == DM_DONE);
  uint8_t *text = malloc(bytes);
  WANT(dm_saved(&world, text, bytes) == bytes && dm_load(&other, text, bytes, &clause) == DM_DONE && same(digest, digest_of(&other)));
  WANT(dm_copy(&world, &other) == DM_DONE && same(digest, digest_of(&other)));
  dm_status status = dm_load(&other, (const uint8_t *)"{}", 2, &clause);
  printf("%zu bytes, refused %" PRIu32 " by clause %" PRIu32 "\n", bytes, status, clause);
  for (int i = 0; i < DM_DIGEST_SIZE; i++) printf("%02x", digest.bytes[i]);
  printf("\n");
  free(text);
  dm_close(&other);
}

/* A world of its own is played by a journal, whose replay has the same digest. */
static void keep_a_journal(void) {
  dm_world played = DM_NONE, other = DM_NONE;
  dm_journal journal = DM_NO_JOURNAL;
  dm_shape line = {DM_SEGMENT, 0, {-8 * METRE, 0}, {8 * METRE, 0}, 0, 128, 0, 1, UINT64_MAX}, disc = circle_of(METRE / 2);
  dm_command command;
  dm_answer answer;
  WANT(dm_journal_open(&journal, &played, (dm_vec){0, -179}) == DM_DONE);
  memset(&command, 0, sizeof command);
  command.shapes_count = 1;
  command.body = (dm_body_def){DM_STATIC, 0, {0, 0}, {1 << 30, 0}, 0, 0, {0, 0}, 0};
  WANT(dm_journal_apply(&journal, &played, &command, &line, &answer) == DM_DONE);
  command.body = (dm_body_def){DM_DYNAMIC, 0, {0, 3 * METRE}, {1 << 30, 0}, 200, 27000000000000, {0, 0}, 0};
  WANT(dm_journal_apply(&journal, &played, &command, &disc, &answer) == DM_DONE);
  command.kind = DM_DO_PUSH;
  WANT(dm_journal_apply(&journal, &played, &command, &disc, &answer) == DM_STALE_HANDLE);
  command.kind = DM_DO_STEP;
  command.ticks = 4;
  for (int i = 0; i < 30; i++) WANT(dm_journal_apply(&journal, &played, &command, &disc, &answer) == DM_DONE);
  WANT(dm_journal_replay(&journal, &other) == DM_DONE && same(digest_of(&played), digest_of(&other)));
  digest_t digest = digest_of(&other);
  printf("a journal of %zu calls, whose replay has the digest %02x%02x%02x%02x..\n", journal.commands_len, digest.bytes[0], digest.bytes[1], digest.bytes[2],
         digest.bytes[3]);
  dm_journal_close(&journal);
  dm_close(&played);
  dm_close(&other);
}

int main(void) {
  make_scene();
  play(60);
  command_each();
  play(60);
  command_all();
  play(60);
  look();
  look_closer();
  ask_a_frame();
  keep_a_journal();
  follow();
  keep();
  dm_close(&world);
  return 0;
}
