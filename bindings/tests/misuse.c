/* What a program may do wrong, and gets a status for: each refused call leaves the digest as it was. In a thread with the stack that dillmonth.h asks for. */
#include "check.h"
#include <pthread.h>

#ifndef STACK
#define STACK (256 * 1024)
#endif

static dm_world world = DM_NONE, other = DM_NONE;
static digest_t before;
static int refusals;

static void refused(dm_status status, dm_status wanted, int line) {
  if (status != wanted) fprintf(stderr, "line %d: %s, not %s\n", line, dm_status_text(status), dm_status_text(wanted));
  WANT(status == wanted && same(before, digest_of(&world)));
  refusals++;
}
#define REFUSED(call, wanted) refused(call, wanted, __LINE__)

static dm_handle add(dm_world *to, dm_body_def def, dm_shape shape) {
  dm_handle made = DM_NOBODY;
  WANT(dm_add_body(to, def, shape, &made) == DM_DONE);
  return made;
}

static void wrong_definitions(void) {
  const dm_mass_data mass = dm_circle_mass(DM_METRE, DM_KILOGRAM);
  dm_body_def def = dm_dynamic_def(dm_at(0, 30), mass), none;
  dm_shape shapes[9], shape = dm_circle_shape(DM_METRE), line = dm_segment_shape(dm_at(-1, 0), dm_at(1, 0));
  dm_handle made = {77, 7};
  memset(&none, 0, sizeof none);
  for (int i = 0; i < 9; i++) shapes[i] = shape;
  REFUSED(dm_create_body(&world, &def, shapes, 0, &made), DM_BAD_SHAPE);
  REFUSED(dm_create_body(&world, &def, shapes, 9, &made), DM_BAD_SHAPE);
  REFUSED(dm_add_body(&world, def, line, &made), DM_BAD_SHAPE); /* a segment of a body that moves */
  REFUSED(dm_add_body(&world, def, dm_circle_shape(-1), &made), DM_BAD_SHAPE);
  REFUSED(dm_add_body(&world, none, shape, &made), DM_OUT_OF_RANGE); /* which has no facing */
  REFUSED(dm_add_body(&world, dm_dynamic_def(dm_at(0, 0), dm_circle_mass(-1, 256)), shape, &made), DM_OUT_OF_RANGE);
  REFUSED(dm_add_body(&world, dm_dynamic_def(dm_at(1e300, 0), mass), shape, &made), DM_OUT_OF_RANGE);
  REFUSED(dm_add_body(&world, dm_kinematic_def(dm_at(0, 0), dm_velocity(1e9, 0, DM_RATE)), shape, &made), DM_OUT_OF_RANGE);
  def.kind = 3;
  REFUSED(dm_add_body(&world, def, shape, &made), DM_BAD_KIND);
  def.kind = DM_DYNAMIC;
  shape.form = 3;
  REFUSED(dm_add_body(&world, def, shape, &made), DM_BAD_KIND);
  def.unused = 1;
  REFUSED(dm_add_body(&world, def, shape, &made), DM_OUT_OF_RANGE); /* before the form, which is none */
  WANT(made.slot == 77 && made.generation == 7);
}

static void wrong_bodies(dm_handle ball, dm_handle floor, dm_handle lift, dm_handle gone) {
  dm_joint_def same_ends = dm_joint_def_of(ball, ball, DM_METRE), to_none = dm_joint_def_of(ball, gone, DM_METRE), used = to_none;
  dm_handle made = DM_NOBODY;
  dm_vec by = {1000, 1000}, far = {INT64_MAX, INT64_MIN};
  dm_view view;
  uint64_t step = 0;
  REFUSED(dm_push(&world, gone, by), DM_STALE_HANDLE);
  REFUSED(dm_push(&world, DM_NOBODY, by), DM_STALE_HANDLE);
  REFUSED(dm_push(&world, dm_unpack(UINT64_MAX), by), DM_STALE_HANDLE);
  REFUSED(dm_destroy_body(&world, gone), DM_STALE_HANDLE);
  REFUSED(dm_destroy_joint(&world, ball), DM_STALE_HANDLE); /* there is no joint with the ball's numbers */
  REFUSED(dm_body(&world, gone, &view), DM_STALE_HANDLE);
  REFUSED(dm_push(&world, floor, by), DM_NOT_A_MOVER);
  REFUSED(dm_push(&world, lift, by), DM_NOT_A_MOVER);
  REFUSED(dm_push(&world, ball, far), DM_OUT_OF_RANGE);
  REFUSED(dm_push_at(&world, ball, by, far), DM_OUT_OF_RANGE);
  REFUSED(dm_set_velocity(&world, ball, by, 0), DM_NOT_KINEMATIC);
  REFUSED(dm_set_velocity(&world, lift, by, INT64_MIN), DM_OUT_OF_RANGE);
  REFUSED(dm_set_pose(&world, ball, far, dm_degrees(0)), DM_OUT_OF_RANGE);
  REFUSED(dm_set_pose(&world, ball, by, dm_degrees(1e12)), DM_OUT_OF_RANGE);
  REFUSED(dm_create_joint(&world, &same_ends, &made), DM_SAME_BODY);
  REFUSED(dm_create_joint(&world, &to_none, &made), DM_STALE_HANDLE);
  used.unused = UINT32_MAX;
  REFUSED(dm_create_joint(&world, &used, &made), DM_OUT_OF_RANGE); /* before its ends, of which one is gone */
  REFUSED(dm_step(&world, 0, &step), DM_OUT_OF_RANGE);
  REFUSED(dm_step(&world, 9, &step), DM_OUT_OF_RANGE);
  REFUSED(dm_step(&world, -1, &step), DM_OUT_OF_RANGE);
  REFUSED(dm_step(&world, INT64_MAX, &step), DM_OUT_OF_RANGE);
}

static void wrong_batches(dm_handle ball) {
  dm_command commands[7];
  dm_answer answers[7];
  dm_shape shape = dm_circle_shape(DM_METRE);
  memset(commands, 0, sizeof commands);
  commands[0].body = commands[1].body = dm_static_def(dm_at(0, 50));
  commands[0].shapes_from = 1, commands[0].shapes_count = 1;
  commands[1].shapes_from = UINT32_MAX, commands[1].shapes_count = 2;
  commands[2].kind = 14;
  commands[3].kind = DM_DO_PUSH_AT, commands[3].joint.a = ball, commands[3].by = (dm_vec){INT64_MIN, 0};
  commands[4].kind = DM_DO_WAKE, commands[4].joint.a = ball, commands[4].unused = 1;
  commands[5].body = commands[0].body, commands[5].body.unused = 1, commands[5].shapes_count = 1;
  commands[6].kind = DM_DO_CREATE_JOINT, commands[6].joint = dm_joint_def_of(ball, ball, DM_METRE), commands[6].joint.unused = 1;
  WANT(dm_apply_all(&world, commands, 7, &shape, 1, answers, 7) == 7);
  REFUSED(answers[0].status, DM_BAD_SPAN);
  REFUSED(answers[1].status, DM_BAD_SPAN);
  REFUSED(answers[2].status, DM_BAD_KIND);
  for (int i = 3; i < 7; i++) REFUSED(answers[i].status, DM_OUT_OF_RANGE);
  WANT(dm_apply_all(&world, commands, 4, &shape, 1, answers, 0) == 0);
}

static void wrong_filters(void) {
  dm_filter filter = {{0, 0}, 0, 0, 1};
  dm_vec from = {0, 0}, along = {DM_METRE, 0};
  dm_box box = {{0, 0}, {DM_METRE, DM_METRE}};
  dm_hit hit = {7, 7, {7, 7}};
  size_t count = 77;
  REFUSED(dm_ray_through(&world, from, along, &filter, &hit), DM_OUT_OF_RANGE);
  REFUSED(dm_ray_all(&world, from, along, &filter, &count), DM_OUT_OF_RANGE);
  REFUSED(dm_region_through(&world, &box, &filter, &count), DM_OUT_OF_RANGE);
  WANT(count == 77 && hit.is_hit == 7);
}

/* An array of no items may be NULL. */
static void no_arrays(dm_handle ball) {
  dm_box box = {{-DM_METRE, -DM_METRE}, {DM_METRE, DM_METRE}};
  dm_filter all = {{0, 0}, 0, 0, 0};
  dm_vec from = {0, 50 * DM_METRE}, along = {0, -60 * DM_METRE};
  dm_body_def def = dm_static_def(dm_at(0, 50));
  dm_shape shape = dm_circle_shape(DM_METRE);
  dm_command command;
  dm_answer answer;
  dm_handle made = DM_NOBODY;
  dm_frame frame = DM_NO_FRAME;
  dm_pose pose;
  dm_pair pair;
  uint32_t clause = 7;
  size_t count = 77, bytes = 0;
  memset(&command, 0, sizeof command);
  command.body = def, command.shapes_count = 1;
  REFUSED(dm_create_body(&world, &def, NULL, 0, &made), DM_BAD_SHAPE);
  REFUSED(dm_load(&world, NULL, 0, &clause), DM_BAD_TEXT);
  WANT(dm_apply_all(&world, NULL, 0, &shape, 1, &answer, 1) == 0 && dm_apply_all(&world, &command, 1, &shape, 1, NULL, 0) == 0);
  WANT(dm_apply_all(&world, &command, 1, NULL, 0, &answer, 1) == 1 && answer.status == DM_BAD_SPAN);
  WANT(dm_apply_all(&world, NULL, 0, NULL, 0, NULL, 0) == 0);
  WANT(dm_poses(&world, NULL, 0) == dm_poses(&world, &pose, 1) && dm_moved(&world, NULL, 0) == dm_moved(&world, &pose, 1));
  WANT(dm_begun(&world, NULL, 0) == dm_begun(&world, &pair, 1) && dm_ended(&world, NULL, 0) == dm_ended(&world, &pair, 1));
  WANT(dm_slept(&world, NULL, 0) == dm_slept(&world, &made, 1) && dm_woke(&world, NULL, 0) == dm_woke(&world, &made, 1));
  WANT(dm_joints(&world, NULL, 0) == 0);
  WANT(dm_shapes(&world, ball, NULL, 0, &count) == DM_DONE && count == 1 && dm_joints_of(&world, ball, NULL, 0, &count) == DM_DONE && count == 0);
  WANT(dm_contacts_of(&world, ball, NULL, 0, &count) == DM_DONE && dm_events(&world, NULL, 0, &count) == DM_DONE && count == 0);
  WANT(dm_region(&world, &box, &count) == DM_DONE && dm_region_found(&world, NULL, 0) == count);
  WANT(dm_ray_all(&world, from, along, &all, &count) == DM_DONE && dm_hits_found(&world, NULL, 0) == count);
  WANT(dm_contacts(&world, &count) == DM_DONE && dm_contacts_listed(&world, NULL, 0) == count);
  WANT(dm_frame_take(&world, &frame) == DM_DONE && dm_frame_region(frame, &box, NULL, 0, &count) == DM_DONE);
  dm_frame_drop(&frame);
  WANT(dm_save(&world, &bytes) == DM_DONE && dm_saved(&world, NULL, 0) == bytes && dm_digest(&world, NULL, 0) == DM_DONE);
  WANT(same(before, digest_of(&world)));
}

static void wrong_texts(void) {
  enum { DEEP = 1000000 };
  uint32_t clause = 0;
  uint8_t *text = malloc(DEEP);
  WANT(text);
  memset(text, '[', DEEP);
  REFUSED(dm_load(&world, text, DEEP, &clause), DM_BAD_TEXT);
  memset(text, 0xff, DEEP);
  REFUSED(dm_load(&world, text, 16, &clause), DM_BAD_TEXT);
  REFUSED(dm_load(&world, text, 0, &clause), DM_BAD_TEXT);
  free(text);
  REFUSED(dm_load(&world, (const uint8_t *)"{\"version\":3}", 13, &clause), DM_BAD_FILE);
  WANT(clause == 1);
}

/* Ids are numbers alone: one of another world means what has these numbers here, if there is such a body. */
static void foreign_ids(dm_handle floor) {
  dm_view view;
  WANT(dm_new(&other, dm_at(0, 0)) == DM_DONE);
  WANT(dm_body(&other, floor, &view) == DM_STALE_HANDLE);
  dm_handle there = add(&other, dm_static_def(dm_at(5, 0)), dm_circle_shape(DM_METRE));
  WANT(dm_same(there, floor) && dm_body(&other, floor, &view) == DM_DONE && view.pose.at.x == dm_metres(5));
}

static void a_closed_world(void) {
  dm_pose pose;
  dm_close(&other);
  dm_close(&other);
  WANT(dm_push(&other, DM_NOBODY, dm_at(0, 0)) == DM_NO_WORLD && dm_poses(&other, &pose, 1) == 0 && dm_steps(&other) == 0 && dm_advance(&other, 1) == DM_NO_WORLD);
  WANT(dm_copy(&other, &world) == DM_NO_WORLD && same(before, digest_of(&world)));
}

static void *run(void *nothing) {
  make_heap(&world, 12, 30);
  dm_handle lift = add(&world, dm_kinematic_def(dm_at(0, 12), dm_velocity(1, 0, DM_RATE)), dm_circle_shape(DM_METRE));
  dm_handle gone = add(&world, dm_static_def(dm_at(0, 20)), dm_circle_shape(DM_METRE));
  WANT(dm_destroy_body(&world, gone) == DM_DONE);
  before = digest_of(&world);
  dm_handle floor = {0, 1}, ball = {1, 1};
  wrong_definitions();
  wrong_bodies(ball, floor, lift, gone);
  wrong_batches(ball);
  wrong_filters();
  no_arrays(ball);
  wrong_texts();
  foreign_ids(floor);
  a_closed_world();
  size_t bytes = 0;
  uint32_t clause = 0;
  WANT(dm_save(&world, &bytes) == DM_DONE);
  uint8_t *text = malloc(bytes);
  WANT(text && dm_saved(&world, text, bytes) == bytes && dm_load(&world, text, bytes, &clause) == DM_DONE && same(before, digest_of(&world)));
  free(text);
  for (int i = 0; i < 100; i++) WANT(dm_advance(&world, 4) == DM_DONE);
  dm_close(&world);
  return nothing;
}

int main(void) {
  pthread_t thread;
  pthread_attr_t small;
  WANT(pthread_attr_init(&small) == 0 && pthread_attr_setstacksize(&small, STACK) == 0);
  WANT(pthread_create(&thread, &small, run, NULL) == 0 && pthread_join(thread, NULL) == 0);
  printf("%d refusals changed nothing\n", refusals);
  return 0;
}
