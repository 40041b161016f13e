/* Each call once, with what it answers without a world too. */
#include "check.h"
#include "dillmonth_journal.h"

static void without_a_world(void) {
  dm_world world = DM_NONE, other = DM_NONE;
  dm_body_def def = {DM_STATIC, 0, {0, 0}, {1 << 30, 0}, 0, 0, {0, 0}, 0};
  dm_joint_def joint = {{0, 1}, {1, 1}, {0, 0}, {0, 0}, METRE, 0, 0};
  dm_shape shape = circle_of(METRE);
  dm_handle made = {7, 7};
  dm_command command;
  dm_answer answer;
  dm_pose pose;
  dm_pair pair;
  dm_view view;
  dm_hit hit;
  dm_box box = {{0, 0}, {METRE, METRE}};
  dm_shape_id id;
  dm_contact contact;
  uint8_t bytes[DM_DIGEST_SIZE];
  uint64_t step = 9;
  size_t count = 9;
  memset(&command, 0, sizeof command);
  WANT(dm_create_body(&world, &def, &shape, 1, &made) == DM_NO_WORLD && made.slot == 7);
  WANT(dm_destroy_body(&world, made) == DM_NO_WORLD);
  WANT(dm_create_joint(&world, &joint, &made) == DM_NO_WORLD && made.slot == 7);
  WANT(dm_destroy_joint(&world, made) == DM_NO_WORLD);
  WANT(dm_push(&world, made, (dm_vec){1, 1}) == DM_NO_WORLD);
  WANT(dm_push_at(&world, made, (dm_vec){1, 1}, (dm_vec){1, 1}) == DM_NO_WORLD);
  WANT(dm_set_pose(&world, made, (dm_vec){1, 1}, (dm_rot){1 << 30, 0}) == DM_NO_WORLD);
  WANT(dm_set_velocity(&world, made, (dm_vec){1, 1}, 0) == DM_NO_WORLD);
  WANT(dm_set_gravity(&world, (dm_vec){1, 1}) == DM_NO_WORLD);
  WANT(dm_disable(&world, made) == DM_NO_WORLD && dm_enable(&world, made) == DM_NO_WORLD);
  WANT(dm_wake(&world, made) == DM_NO_WORLD && dm_sleep(&world, made) == DM_NO_WORLD);
  WANT(dm_step(&world, 4, &step) == DM_NO_WORLD && step == 9);
  WANT(dm_settle(&world) == DM_NO_WORLD);
  WANT(dm_apply_all(&world, &command, 1, &shape, 1, &answer, 1) == 0);
  WANT(dm_poses(&world, &pose, 1) == 0 && dm_moved(&world, &pose, 1) == 0);
  WANT(dm_begun(&world, &pair, 1) == 0 && dm_ended(&world, &pair, 1) == 0);
  WANT(dm_slept(&world, &made, 1) == 0 && dm_woke(&world, &made, 1) == 0);
  WANT(dm_body(&world, made, &view) == DM_NO_WORLD);
  WANT(dm_steps(&world) == 0 && dm_gravity(&world).y == 0);
  WANT(dm_ray(&world, (dm_vec){0, 0}, (dm_vec){1, 1}, &hit) == DM_NO_WORLD);
  WANT(dm_region(&world, &box, &count) == DM_NO_WORLD && count == 9 && dm_region_found(&world, &id, 1) == 0);
  WANT(dm_contacts(&world, &count) == DM_NO_WORLD && dm_contacts_listed(&world, &contact, 1) == 0);
  WANT(dm_save(&world, &count) == DM_NO_WORLD && dm_saved(&world, bytes, 1) == 0);
  WANT(dm_digest(&world, bytes, sizeof bytes) == DM_NO_WORLD);
  WANT(dm_copy(&world, &other) == DM_NO_WORLD);
  dm_body_info info;
  dm_joint_view seen;
  dm_counts counts;
  dm_sum sum;
  dm_filter all = {{0, 0}, 0, 0, 0};
  count = 9;
  WANT(dm_info(&world, made, &info) == DM_NO_WORLD && dm_joint(&world, made, &seen) == DM_NO_WORLD);
  WANT(dm_shapes(&world, made, &shape, 1, &count) == DM_NO_WORLD && dm_joints_of(&world, made, &made, 1, &count) == DM_NO_WORLD);
  WANT(dm_contacts_of(&world, made, &contact, 1, &count) == DM_NO_WORLD && count == 9);
  WANT(dm_body_in(&world, 0).generation == 0 && dm_joint_in(&world, 0).generation == 0 && dm_joints(&world, &made, 1) == 0);
  WANT(dm_colour_of(&world, id, id) == DM_NO_COLOUR);
  WANT(dm_count(&world, &counts) == DM_NO_WORLD && dm_total_of(&world, 0, &sum) == DM_NO_WORLD && dm_total(&world, &sum) == DM_NO_WORLD);
  WANT(dm_ray_through(&world, (dm_vec){0, 0}, (dm_vec){1, 1}, &all, &hit) == DM_NO_WORLD);
  WANT(dm_ray_all(&world, (dm_vec){0, 0}, (dm_vec){1, 1}, &all, &count) == DM_NO_WORLD && dm_hits_found(&world, &hit, 1) == 0);
  WANT(dm_region_through(&world, &box, &all, &count) == DM_NO_WORLD && count == 9);
  dm_shape_hit on_shape = {7, 7, {7, 7}, {7, 7}};
  WANT(dm_ray_on_shape(&world, (dm_vec){0, 0}, (dm_vec){1, 1}, id, &on_shape) == DM_NO_WORLD && on_shape.is_hit == 7);
  def.unused = joint.unused = all.unused = 1;
  WANT(dm_create_body(&world, &def, &shape, 1, &made) == DM_OUT_OF_RANGE && dm_create_joint(&world, &joint, &made) == DM_OUT_OF_RANGE && made.slot == 7);
  WANT(dm_ray_through(&world, (dm_vec){0, 0}, (dm_vec){1, 1}, &all, &hit) == DM_OUT_OF_RANGE);
  dm_frame frame = DM_NO_FRAME;
  WANT(dm_frame_take(&world, &frame) == DM_NO_WORLD && frame.at == 0);
  WANT(dm_frame_pose(frame, made, &pose) == DM_NO_WORLD && dm_frame_total(frame, &sum) == DM_NO_WORLD && dm_frame_calls(frame) == 0);
  WANT(dm_frame_ray(frame, (dm_vec){0, 0}, (dm_vec){1, 1}, &hit) == DM_NO_WORLD);
  WANT(dm_frame_region(frame, &box, &id, 1, &count) == DM_NO_WORLD && count == 9);
  dm_frame_drop(&frame);
  dm_course course;
  dm_event event;
  WANT(dm_motion(&world, made, &course) == DM_NO_WORLD && dm_push_to(&world, made, (dm_vec){1, 1}) == DM_NO_WORLD);
  WANT(dm_twist(&world, made, 1) == DM_NO_WORLD && dm_twist_to(&world, made, 1) == DM_NO_WORLD);
  WANT(dm_set_target(&world, made, (dm_vec){1, 1}, (dm_rot){1 << 30, 0}, 1) == DM_NO_WORLD);
  WANT(dm_events_clear(&world, 1) == DM_NO_WORLD && dm_events(&world, &event, 1, &count) == DM_NO_WORLD && count == 9);
  WANT(dm_set_tag(&world, made, 1) == DM_NO_WORLD && dm_tag(&world, made) == 0);
  dm_close(&world);
  dm_close(&world);
}

static int is_near(dm_rot one, dm_rot other, int64_t parts) {
  int64_t c = one.c - other.c, s = one.s - other.s;
  return c <= parts && -c <= parts && s <= parts && -s <= parts;
}

/* Motions that are set: what they give, and what they are refused for. */
static void in_motion(void) {
  dm_world world = DM_NONE;
  dm_handle ball, lift, nobody = {0, 0};
  dm_shape shape = circle_of(METRE / 2);
  dm_body_def def = {DM_KINEMATIC, 0, {20 * METRE, 0}, {1 << 30, 0}, 0, 0, {0, 0}, 0};
  dm_course course;
  dm_view view;
  dm_rot tenth = dm_degrees(10), half = dm_degrees(180);
  uint64_t step = 0;
  WANT(dm_open(&world, (dm_vec){0, 0}) == DM_DONE);
  ball = add_circle(&world, 0, 10 * METRE);
  WANT(dm_create_body(&world, &def, &shape, 1, &lift) == DM_DONE);
  WANT(dm_push_to(&world, ball, (dm_vec){3000, -4000}) == DM_DONE && dm_motion(&world, ball, &course) == DM_DONE);
  WANT(course.velocity.x == 3000 && course.velocity.y == -4000 && course.spin == 0);
  WANT(dm_twist_to(&world, ball, 1000000) == DM_DONE && dm_motion(&world, ball, &course) == DM_DONE);
  WANT(course.velocity.x == 3000 && course.velocity.y == -4000 && course.spin >= 999990 && course.spin <= 1000010);
  WANT(dm_twist(&world, ball, 1000) == DM_DONE && dm_twist_to(&world, ball, 0) == DM_DONE && dm_body(&world, ball, &view) == DM_DONE);
  WANT((int64_t)view.l_low > -(1 << 20) && (int64_t)view.l_low < 1 << 20 && view.p.x == 3000 * 200);
  WANT(dm_push_to(&world, nobody, (dm_vec){1, 1}) == DM_STALE_HANDLE && dm_push_to(&world, lift, (dm_vec){1, 1}) == DM_NOT_A_MOVER);
  WANT(dm_push_to(&world, ball, (dm_vec){INT64_MAX, INT64_MIN}) == DM_OUT_OF_RANGE);
  WANT(dm_twist(&world, ball, INT64_MIN) == DM_OUT_OF_RANGE && dm_twist_to(&world, ball, INT64_MAX) == DM_OUT_OF_RANGE && dm_twist(&world, lift, 1) == DM_NOT_A_MOVER);
  WANT(dm_set_target(&world, lift, (dm_vec){21 * METRE, 4000}, tenth, 8) == DM_DONE && dm_step(&world, 8, &step) == DM_DONE && dm_body(&world, lift, &view) == DM_DONE);
  WANT(view.pose.at.x == 21 * METRE && view.pose.at.y == 4000 && is_near(view.pose.facing, tenth, 8));
  WANT(dm_set_target(&world, lift, (dm_vec){21 * METRE, 0}, half, 1) == DM_OUT_OF_RANGE && dm_set_target(&world, lift, (dm_vec){0, 0}, tenth, 9) == DM_OUT_OF_RANGE);
  WANT(dm_set_target(&world, lift, (dm_vec){0, 0}, (dm_rot){0, 0}, 1) == DM_OUT_OF_RANGE && dm_set_target(&world, ball, (dm_vec){0, 0}, tenth, 1) == DM_NOT_KINEMATIC);
  WANT(dm_set_target(&world, lift, (dm_vec){0, INT64_MIN}, tenth, INT64_MIN) == DM_OUT_OF_RANGE && dm_set_target(&world, nobody, (dm_vec){0, 0}, tenth, 1) == DM_STALE_HANDLE);
  dm_close(&world);
}

/* A turn of several ticks ends at its target, but for some parts in 2^30 a tick; one that would be faster than a spin may be is refused. */
static void to_facings(void) {
  dm_world world = DM_NONE;
  dm_handle lift;
  dm_shape shape = {DM_CIRCLE, 0, {0, 0}, {0, 0}, METRE, 0, 0, 1, UINT64_MAX};
  dm_body_def def = {DM_KINEMATIC, 0, {0, 0}, {1 << 30, 0}, 0, 0, {0, 0}, 0};
  dm_course course;
  dm_view view;
  uint64_t step = 0;
  int met = 0, refused = 0;
  WANT(dm_open(&world, (dm_vec){0, 0}) == DM_DONE && dm_create_body(&world, &def, &shape, 1, &lift) == DM_DONE);
  for (int64_t ticks = 1; ticks <= 8; ticks++)
    for (int degrees = -95; degrees <= 95; degrees += 5) {
      int from = degrees * 3, is_far = degrees < -14 * ticks || degrees > 14 * ticks || degrees <= -90 || degrees >= 90;
      dm_rot start = dm_degrees(from), end = dm_degrees(from + degrees);
      WANT(dm_set_pose(&world, lift, (dm_vec){METRE, 0}, start) == DM_DONE);
      dm_status status = dm_set_target(&world, lift, (dm_vec){METRE, 0}, end, ticks);
      WANT(status == (is_far ? DM_OUT_OF_RANGE : DM_DONE));
      if (is_far) refused++;
      else {
        WANT(dm_step(&world, ticks, &step) == DM_DONE && dm_body(&world, lift, &view) == DM_DONE && dm_motion(&world, lift, &course) == DM_DONE);
        WANT(is_near(view.pose.facing, end, ticks + 2) && view.pose.at.x == METRE && (course.spin > 0) == (degrees > 0));
        met++;
      }
    }
  WANT(met > 150 && refused > 100);
  dm_close(&world);
}

/* Events of all steps are those that each step has, one after another; tags stay with the body that they were given to. */
static void in_all_steps(void) {
  dm_world world = DM_NONE, copied = DM_NONE;
  dm_event events[256];
  dm_pair pairs[64];
  dm_handle ball;
  size_t told = 0, at = 0;
  uint64_t step = 0;
  make_heap(&world, 6, 1);
  ball = dm_body_in(&world, 1);
  WANT(dm_step(&world, 1, &step) == DM_DONE && dm_events(&world, events, 256, &told) == DM_DONE && told == 0);
  WANT(dm_set_tag(&world, ball, UINT64_MAX) == DM_DONE && dm_events_clear(&world, 1) == DM_DONE);
  WANT(dm_copy(&world, &copied) == DM_DONE && dm_tag(&copied, ball) == UINT64_MAX);
  for (int i = 0; i < 200; i++) WANT(dm_step(&world, 1, &step) == DM_DONE && dm_settle(&world) == DM_DONE);
  WANT(dm_events(&world, events, 256, &told) == DM_DONE && told > 0 && told <= 256);
  for (int i = 0; i < 200; i++) {
    WANT(dm_step(&copied, 1, &step) == DM_DONE);
    size_t begun = dm_begun(&copied, pairs, 64), ended = dm_ended(&copied, pairs, 0), slept = dm_slept(&copied, &ball, 0), woke = dm_woke(&copied, &ball, 0);
    WANT(at + begun + ended + slept + woke <= told && begun <= 64);
    for (size_t k = 0; k < begun; k++, at++) {
      WANT(events[at].kind == DM_EVENT_BEGUN && events[at].step == step && events[at].first.slot == pairs[k].first.slot && events[at].contact.points >= 1);
      WANT((events[at].first_tag == UINT64_MAX) == (events[at].first.slot == 1) && events[at].contact.pair.second.slot == pairs[k].second.slot);
    }
    for (size_t k = 0; k < ended; k++, at++) WANT(events[at].kind == DM_EVENT_ENDED && events[at].step == step && events[at].contact.points == 0);
    for (size_t k = 0; k < slept; k++, at++) WANT(events[at].kind == DM_EVENT_SLEPT && events[at].second.generation == 0);
    for (size_t k = 0; k < woke; k++, at++) WANT(events[at].kind == DM_EVENT_WOKE);
  }
  WANT(at == told);
  WANT(dm_events_clear(&world, 0) == DM_DONE && dm_step(&world, 1, &step) == DM_DONE && dm_events(&world, events, 256, &told) == DM_DONE && told == 0);
  dm_close(&world);
  dm_close(&copied);
}

static void with_a_heap(void) {
  dm_world world = DM_NONE, other = DM_NONE;
  dm_pose poses[8];
  dm_view view;
  dm_hit hit;
  uint64_t step = 0;
  size_t count = 0;
  make_heap(&world, 5, 120);
  WANT(dm_steps(&world) == 120 && dm_gravity(&world).y == -179);
  memset(poses, 1, sizeof poses);
  WANT(dm_poses(&world, poses, 3) == 6 && poses[2].handle.slot == 2 && poses[3].handle.slot == 0x01010101);
  WANT(dm_poses(&world, poses, 8) == 6 && poses[5].handle.slot == 5);
  WANT(dm_moved(&world, poses, 8) <= 5);
  WANT(dm_body(&world, poses[1].handle, &view) == DM_DONE && view.pose.at.y > 0);
  WANT(dm_body(&world, (dm_handle){1, 9}, &view) == DM_STALE_HANDLE);
  WANT(dm_ray(&world, (dm_vec){0, 20 * METRE}, (dm_vec){0, -40 * METRE}, &hit) == DM_DONE && hit.is_hit == 1);
  WANT(dm_ray(&world, (dm_vec){0, 0}, (dm_vec){INT64_MAX, 0}, &hit) == DM_OUT_OF_RANGE);
  dm_box box = {{-9 * METRE, -METRE}, {9 * METRE, 9 * METRE}}, wrong = {{1, 1}, {0, 0}};
  WANT(dm_region(&world, &box, &count) == DM_DONE && count == 6);
  dm_shape_id ids[8];
  WANT(dm_region_found(&world, ids, 8) == 6 && ids[5].slot == 5);
  WANT(dm_region(&world, &wrong, &count) == DM_OUT_OF_RANGE && dm_region_found(&world, ids, 8) == 6);
  dm_contact contacts[32];
  WANT(dm_contacts(&world, &count) == DM_DONE && count >= 5 && dm_contacts_listed(&world, contacts, 32) == count);
  WANT(contacts[0].pair.first.slot == 0 && contacts[0].points >= 1 && contacts[0].first.normal_impulse > 0);
  WANT(dm_save(&world, &count) == DM_DONE && count > 100);
  uint8_t *text = malloc(count);
  uint32_t clause = 9;
  WANT(dm_saved(&world, text, count) == count && text[0] == '{' && text[count - 1] == '}');
  WANT(dm_load(&other, text, count, &clause) == DM_DONE && clause == 0 && same(digest_of(&world), digest_of(&other)));
  WANT(dm_load(&other, text, count - 1, &clause) == DM_BAD_TEXT && same(digest_of(&world), digest_of(&other)));
  text[0] = 0xff;
  WANT(dm_load(&other, text, count, &clause) == DM_BAD_TEXT);
  WANT(dm_load(&other, (const uint8_t *)"{}", 2, &clause) == DM_BAD_FILE && clause == 1);
  WANT(same(digest_of(&world), digest_of(&other)));
  for (int i = 0; i < 30; i++) WANT(dm_step(&world, 4, &step) == DM_DONE && dm_step(&other, 4, &step) == DM_DONE);
  WANT(same(digest_of(&world), digest_of(&other)));
  WANT(dm_copy(&world, &other) == DM_DONE && same(digest_of(&world), digest_of(&other)));
  WANT(dm_settle(&other) == DM_DONE && same(digest_of(&world), digest_of(&other)) && dm_steps(&other) == 150);
  WANT(dm_push(&other, poses[3].handle, (dm_vec){1, 0}) == DM_DONE && !same(digest_of(&world), digest_of(&other)));
  free(text);
  dm_close(&world);
  dm_close(&other);
}

/* What was found, hit, listed and saved stays through all other calls, and isn't in a copy or in a world that is loaded. */
static void what_is_kept(void) {
  dm_world world = DM_NONE, other = DM_NONE;
  dm_box box = {{-9 * METRE, -METRE}, {9 * METRE, 9 * METRE}};
  dm_filter all = {{0, 0}, 0, 0, 0};
  dm_shape_id ids[8];
  dm_hit hits[8];
  dm_contact contacts[32];
  dm_command command;
  dm_answer answer;
  dm_shape shape = circle_of(METRE);
  uint8_t *text, *again;
  uint64_t step;
  uint32_t clause = 9;
  size_t found = 0, hit = 0, listed = 0, bytes = 0;
  make_heap(&world, 5, 120);
  WANT(dm_region(&world, &box, &found) == DM_DONE && dm_contacts(&world, &listed) == DM_DONE);
  WANT(dm_ray_all(&world, (dm_vec){0, 20 * METRE}, (dm_vec){0, -40 * METRE}, &all, &hit) == DM_DONE && dm_save(&world, &bytes) == DM_DONE);
  WANT(found == 6 && listed >= 5 && hit >= 1 && bytes > 100);
  text = malloc(bytes);
  again = malloc(bytes);
  WANT(dm_saved(&world, text, bytes) == bytes);
  memset(&command, 0, sizeof command);
  command.kind = DM_DO_PUSH;
  command.joint.a = (dm_handle){1, 1};
  command.by = (dm_vec){1000, 0};
  WANT(dm_push(&world, (dm_handle){1, 1}, (dm_vec){1, 0}) == DM_DONE && dm_step(&world, 4, &step) == DM_DONE);
  WANT(dm_apply_all(&world, &command, 1, &shape, 1, &answer, 1) == 1 && answer.status == DM_DONE && dm_settle(&world) == DM_DONE);
  WANT(dm_push(&world, (dm_handle){1, 9}, (dm_vec){1, 0}) == DM_STALE_HANDLE);
  WANT(dm_copy(&world, &other) == DM_DONE);
  WANT(dm_region_found(&world, ids, 8) == found && dm_contacts_listed(&world, contacts, 32) == listed && dm_hits_found(&world, hits, 8) == hit);
  WANT(dm_saved(&world, again, bytes) == bytes && memcmp(text, again, bytes) == 0);
  WANT(dm_region_found(&other, ids, 8) == 0 && dm_contacts_listed(&other, contacts, 32) == 0 && dm_hits_found(&other, hits, 8) == 0 && dm_saved(&other, again, 1) == 0);
  WANT(dm_load(&world, (const uint8_t *)"{}", 2, &clause) == DM_BAD_FILE && clause == 1 && dm_region_found(&world, ids, 8) == found);
  WANT(dm_load(&world, (const uint8_t *)"}", 1, &clause) == DM_BAD_TEXT && clause == 0 && dm_contacts_listed(&world, contacts, 32) == listed);
  WANT(dm_load(&world, text, bytes, &clause) == DM_DONE && clause == 0);
  WANT(dm_region_found(&world, ids, 8) == 0 && dm_contacts_listed(&world, contacts, 32) == 0 && dm_hits_found(&world, hits, 8) == 0 && dm_saved(&world, again, 1) == 0);
  free(text);
  free(again);
  dm_close(&world);
  dm_close(&other);
}

static void what_there_is(void) {
  dm_world world = DM_NONE;
  dm_joint_def def = {{1, 1}, {2, 1}, {10, 20}, {30, 40}, 2 * METRE, 1, 0};
  dm_handle joint = {0, 0}, ids[4];
  dm_body_info info;
  dm_joint_view seen;
  dm_shape shapes[2];
  dm_contact contacts[32];
  dm_counts counts;
  dm_sum sum, parts;
  size_t count = 9;
  make_heap(&world, 5, 120);
  WANT(dm_create_joint(&world, &def, &joint) == DM_DONE);
  WANT(dm_info(&world, (dm_handle){1, 1}, &info) == DM_DONE && info.kind == DM_DYNAMIC && info.enabled == 1 && info.mass == 200);
  WANT(info.inertia == 27000000000000 && info.shapes == 1 && info.island == 1);
  WANT(dm_info(&world, (dm_handle){0, 1}, &info) == DM_DONE && info.kind == DM_STATIC && info.mass == 0 && info.island == DM_NO_ISLAND);
  WANT(dm_info(&world, (dm_handle){1, 2}, &info) == DM_STALE_HANDLE && info.kind == DM_STATIC);
  WANT(dm_shapes(&world, (dm_handle){1, 1}, shapes, 2, &count) == DM_DONE && count == 1 && shapes[0].form == DM_CIRCLE);
  WANT(shapes[0].radius == METRE / 2 && shapes[0].friction == 128 && shapes[0].category == 1 && shapes[0].mask == UINT64_MAX);
  WANT(dm_shapes(&world, (dm_handle){0, 1}, shapes, 0, &count) == DM_DONE && count == 1 && shapes[0].form == DM_CIRCLE);
  WANT(dm_shapes(&world, (dm_handle){0, 1}, shapes, 1, &count) == DM_DONE && shapes[0].form == DM_SEGMENT && shapes[0].second.x == 8 * METRE);
  WANT(dm_joints(&world, ids, 4) == 1 && ids[0].slot == joint.slot && ids[0].generation == joint.generation);
  WANT(dm_joints_of(&world, (dm_handle){2, 1}, ids, 4, &count) == DM_DONE && count == 1 && ids[0].slot == joint.slot);
  WANT(dm_joints_of(&world, (dm_handle){3, 1}, ids, 4, &count) == DM_DONE && count == 0);
  WANT(dm_joint(&world, joint, &seen) == DM_DONE && memcmp(&seen.def, &def, sizeof def) == 0 && seen.impulse == 0 && seen.colour < 24);
  WANT(dm_joint(&world, (dm_handle){joint.slot, 7}, &seen) == DM_STALE_HANDLE);
  WANT(dm_body_in(&world, 5).generation == 1 && dm_body_in(&world, 6).generation == 0 && dm_joint_in(&world, joint.slot).generation == joint.generation);
  WANT(dm_contacts_of(&world, (dm_handle){1, 1}, contacts, 32, &count) == DM_DONE && count >= 1);
  for (size_t i = 0; i < count; i++) WANT(contacts[i].pair.first.slot == 1 || contacts[i].pair.second.slot == 1);
  uint32_t colour = dm_colour_of(&world, contacts[0].pair.first, contacts[0].pair.second);
  WANT(contacts[0].points > 0 ? colour <= 24 : colour == DM_NO_COLOUR);
  WANT(dm_colour_of(&world, contacts[0].pair.second, contacts[0].pair.first) == DM_NO_COLOUR);
  WANT(dm_colour_of(&world, contacts[0].pair.first, (dm_shape_id){contacts[0].pair.second.slot, 256}) == DM_NO_COLOUR);
  WANT(dm_count(&world, &counts) == DM_DONE && counts.bodies == 6 && counts.joints == 1 && counts.touching <= counts.contacts && counts.islands >= 1);
  WANT(dm_total(&world, &sum) == DM_DONE);
  uint64_t x = 0, y = 0;
  for (uint32_t cause = 0; cause < 6; cause++) {
    WANT(dm_total_of(&world, cause, &parts) == DM_DONE);
    x += parts.x_low;
    y += parts.y_low;
  }
  WANT(x == sum.x_low && y == sum.y_low);
  WANT(dm_total_of(&world, 6, &parts) == DM_BAD_KIND && dm_rules() == 1);
  dm_close(&world);
}

/* A ball on the ground, a wall to its left, and a ray that comes from above, from the right, or from within. */
static void on_one_shape(void) {
  dm_world world = DM_NONE;
  dm_shape ball = {DM_CIRCLE, 0, {0, 0}, {0, 0}, METRE, 0, 0, 1, UINT64_MAX}, wall = {DM_SEGMENT, 0, {0, -METRE}, {0, METRE}, 0, 0, 0, 1, UINT64_MAX};
  dm_body_def at_rest = {DM_STATIC, 0, {0, 0}, {(int64_t)1 << 30, 0}, 0, 0, {0, 0}, 0};
  dm_handle made;
  dm_shape_hit hit = {7, 7, {7, 7}, {7, 7}};
  WANT(dm_open(&world, (dm_vec){0, 0}) == DM_DONE && dm_create_body(&world, &at_rest, &ball, 1, &made) == DM_DONE);
  at_rest.at.x = -4 * METRE;
  WANT(dm_create_body(&world, &at_rest, &wall, 1, &made) == DM_DONE);
  WANT(dm_ray_on_shape(&world, (dm_vec){0, 9 * METRE}, (dm_vec){0, -16 * METRE}, (dm_shape_id){0, 0}, &hit) == DM_DONE && hit.is_hit == 1);
  WANT(hit.fraction == 1 << 23 && hit.point.x == 0 && hit.point.y == METRE && hit.normal.x == 0 && hit.normal.y == (int64_t)1 << 30);
  WANT(dm_ray_on_shape(&world, (dm_vec){9 * METRE, 0}, (dm_vec){-16 * METRE, 0}, (dm_shape_id){0, 0}, &hit) == DM_DONE && hit.normal.x == (int64_t)1 << 30);
  WANT(dm_ray_on_shape(&world, (dm_vec){0, 0}, (dm_vec){METRE, 0}, (dm_shape_id){0, 0}, &hit) == DM_DONE && hit.fraction == 0 && hit.normal.y == (int64_t)1 << 30);
  WANT(dm_ray_on_shape(&world, (dm_vec){0, 0}, (dm_vec){-8 * METRE, 0}, (dm_shape_id){1, 0}, &hit) == DM_DONE && hit.fraction == 1 << 23);
  WANT(hit.point.x == -4 * METRE && hit.normal.x == (int64_t)1 << 30 && hit.normal.y == 0);
  WANT(dm_ray_on_shape(&world, (dm_vec){-8 * METRE, 0}, (dm_vec){8 * METRE, 0}, (dm_shape_id){1, 0}, &hit) == DM_DONE && hit.normal.x == -((int64_t)1 << 30));
  WANT(dm_ray_on_shape(&world, (dm_vec){0, 9 * METRE}, (dm_vec){0, METRE}, (dm_shape_id){0, 0}, &hit) == DM_DONE && hit.is_hit == 0 && hit.normal.x == 0);
  hit.is_hit = 7;
  WANT(dm_ray_on_shape(&world, (dm_vec){0, 0}, (dm_vec){1, 0}, (dm_shape_id){0, 1}, &hit) == DM_STALE_HANDLE && hit.is_hit == 7);
  WANT(dm_ray_on_shape(&world, (dm_vec){0, 0}, (dm_vec){1, 0}, (dm_shape_id){0, 256}, &hit) == DM_STALE_HANDLE && hit.is_hit == 7);
  WANT(dm_ray_on_shape(&world, (dm_vec){0, 0}, (dm_vec){INT64_MAX, 0}, (dm_shape_id){9, 0}, &hit) == DM_OUT_OF_RANGE && hit.is_hit == 7);
  dm_close(&world);
}

static void through_a_filter(void) {
  dm_world world = DM_NONE;
  dm_vec above = {0, 20 * METRE}, down = {0, -40 * METRE};
  dm_filter all = {{0, 0}, 0, 0, 0}, none = {{0, 0}, 2, 1, 0}, stale = {{1, 9}, 0, 0, 0};
  dm_box box = {{-9 * METRE, -METRE}, {9 * METRE, 9 * METRE}};
  dm_hit first, hit, hits[8];
  dm_shape_id ids[8];
  size_t count = 9;
  make_heap(&world, 5, 120);
  WANT(dm_ray(&world, above, down, &first) == DM_DONE && dm_ray_through(&world, above, down, &all, &hit) == DM_DONE);
  WANT(first.is_hit == 1 && hit.shape.slot == first.shape.slot && hit.fraction == first.fraction);
  dm_filter but = {{first.shape.slot, 1}, 0, 0, 0};
  WANT(dm_ray_through(&world, above, down, &but, &hit) == DM_DONE && hit.is_hit == 1 && hit.shape.slot != first.shape.slot);
  WANT(dm_ray_through(&world, above, down, &none, &hit) == DM_DONE && hit.is_hit == 0);
  WANT(dm_ray_through(&world, above, down, &stale, &hit) == DM_STALE_HANDLE);
  WANT(dm_ray_through(&world, above, (dm_vec){INT64_MAX, 0}, &stale, &hit) == DM_OUT_OF_RANGE);
  WANT(dm_ray_all(&world, above, down, &all, &count) == DM_DONE && count >= 2 && dm_hits_found(&world, hits, 8) == count);
  WANT(hits[0].shape.slot == first.shape.slot && hits[0].fraction == first.fraction);
  for (size_t i = 1; i < count; i++) WANT(hits[i - 1].fraction <= hits[i].fraction);
  WANT(dm_ray_all(&world, above, down, &stale, &count) == DM_STALE_HANDLE && dm_hits_found(&world, hits, 8) == count);
  dm_view view;
  WANT(dm_body(&world, (dm_handle){1, 1}, &view) == DM_DONE);
  WANT(dm_ray_all(&world, view.pose.at, (dm_vec){0, 0}, &all, &count) == DM_DONE && count >= 1 && dm_hits_found(&world, hits, 8) == count);
  WANT(hits[0].shape.slot == 1 && hits[0].fraction == 0);
  WANT(dm_region_through(&world, &box, &but, &count) == DM_DONE && count == 5 && dm_region_found(&world, ids, 8) == 5);
  WANT(dm_region_through(&world, &box, &stale, &count) == DM_STALE_HANDLE && dm_region_found(&world, ids, 8) == 5);
  dm_close(&world);
}

/* A frame answers what its world did when it was taken, whatever has become of the world. */
static void in_a_frame(void) {
  dm_world world = DM_NONE;
  dm_frame frame = DM_NO_FRAME, other;
  dm_vec above = {0, 20 * METRE}, down = {0, -40 * METRE};
  dm_box box = {{-9 * METRE, -METRE}, {9 * METRE, 9 * METRE}}, wrong = {{1, 1}, {0, 0}};
  dm_pose pose, untouched = {{7, 7}, {7, 7}, {7, 7}};
  dm_view view;
  dm_hit hit, seen;
  dm_sum sum, booked;
  dm_shape_id ids[8], found[8];
  size_t count = 9, there = 9;
  uint64_t step;
  make_heap(&world, 5, 120);
  WANT(dm_frame_take(&world, &frame) == DM_DONE && frame.at != 0 && dm_frame_calls(frame) == 126);
  WANT(dm_body(&world, (dm_handle){1, 1}, &view) == DM_DONE && dm_ray(&world, above, down, &hit) == DM_DONE && dm_total(&world, &sum) == DM_DONE);
  WANT(dm_region(&world, &box, &count) == DM_DONE && dm_region_found(&world, ids, 8) == count && count == 6);
  WANT(dm_disable(&world, (dm_handle){2, 1}) == DM_DONE && dm_frame_take(&world, &frame) == DM_DONE && dm_frame_calls(frame) == 127);
  pose = untouched;
  WANT(dm_frame_pose(frame, (dm_handle){2, 1}, &pose) == DM_STALE_HANDLE && memcmp(&pose, &untouched, sizeof pose) == 0);
  WANT(dm_enable(&world, (dm_handle){2, 1}) == DM_DONE && dm_frame_take(&world, &frame) == DM_DONE);
  for (int i = 0; i < 30; i++) WANT(dm_step(&world, 4, &step) == DM_DONE);
  WANT(dm_destroy_body(&world, (dm_handle){1, 1}) == DM_DONE);
  dm_close(&world);
  other = frame;
  WANT(dm_frame_pose(other, (dm_handle){1, 1}, &pose) == DM_DONE && memcmp(&pose, &view.pose, sizeof pose) == 0);
  WANT(dm_frame_pose(other, (dm_handle){1, 2}, &pose) == DM_STALE_HANDLE && dm_frame_pose(other, (dm_handle){9, 1}, &pose) == DM_STALE_HANDLE);
  WANT(dm_frame_ray(frame, above, down, &seen) == DM_DONE && memcmp(&seen, &hit, sizeof hit) == 0);
  seen.fraction = 7;
  WANT(dm_frame_ray(frame, above, (dm_vec){INT64_MAX, 0}, &seen) == DM_OUT_OF_RANGE && seen.fraction == 7);
  WANT(dm_frame_region(frame, &box, found, 8, &there) == DM_DONE && there == count && memcmp(found, ids, count * sizeof *ids) == 0);
  found[2].slot = 77;
  WANT(dm_frame_region(frame, &box, found, 2, &there) == DM_DONE && there == count && found[2].slot == 77);
  there = 9;
  WANT(dm_frame_region(frame, &wrong, found, 8, &there) == DM_OUT_OF_RANGE && there == 9 && found[2].slot == 77);
  WANT(dm_frame_total(frame, &booked) == DM_DONE && dm_frame_calls(frame) == 128);
  dm_frame_drop(&frame);
  dm_frame_drop(&frame);
  WANT(frame.at == 0 && dm_frame_calls(frame) == 0);
}

static void in_a_batch(void) {
  dm_world world = DM_NONE, other = DM_NONE;
  dm_command commands[5];
  dm_answer answers[6];
  dm_shape shape = circle_of(METRE / 2);
  dm_handle made = {0, 0};
  uint64_t step = 0;
  memset(commands, 0, sizeof commands);
  memset(answers, 1, sizeof answers);
  commands[0].kind = DM_DO_CREATE_BODY;
  commands[0].shapes_count = 1;
  commands[0].body = (dm_body_def){DM_DYNAMIC, 0, {0, METRE}, {1 << 30, 0}, 200, 27000000000000, {0, 0}, 0};
  commands[1].kind = DM_DO_STEP;
  commands[1].ticks = 4;
  commands[2].kind = 14;
  commands[3] = commands[0];
  commands[3].shapes_from = 1;
  commands[4].kind = DM_DO_PUSH;
  commands[4].joint.a = (dm_handle){0, 1};
  commands[4].by = (dm_vec){1000, 0};
  WANT(dm_open(&world, (dm_vec){0, -179}) == DM_DONE && dm_open(&other, (dm_vec){0, -179}) == DM_DONE);
  WANT(dm_apply_all(&world, commands, 5, &shape, 1, answers, 6) == 5);
  WANT(answers[0].status == 0 && answers[0].made.generation == 1 && answers[1].step == 1);
  WANT(answers[2].status == DM_BAD_KIND && answers[3].status == DM_BAD_SPAN && answers[4].status == 0);
  WANT(answers[5].status == 0x01010101);
  WANT(dm_create_body(&other, &commands[0].body, &shape, 1, &made) == DM_DONE);
  WANT(dm_step(&other, 4, &step) == DM_DONE && dm_push(&other, made, (dm_vec){1000, 0}) == DM_DONE);
  WANT(same(digest_of(&world), digest_of(&other)));
  dm_close(&world);
  dm_close(&other);
}

/* A journal has what was accepted, and its replay is the same world. */
static void in_a_journal(void) {
  dm_world world = DM_NONE, other = DM_NONE;
  dm_journal journal = DM_NO_JOURNAL;
  dm_command make, step, push;
  dm_shape shapes[2] = {circle_of(METRE / 2), circle_of(METRE / 4)};
  dm_answer answer;
  memset(&make, 0, sizeof make);
  make.body = (dm_body_def){DM_DYNAMIC, 0, {0, METRE}, {1 << 30, 0}, 200, 27000000000000, {0, 0}, 0};
  make.shapes_count = 2;
  step = push = make;
  step.kind = DM_DO_STEP;
  step.ticks = 4;
  push.kind = DM_DO_PUSH;
  push.joint.a = (dm_handle){7, 1};
  WANT(dm_journal_apply(&journal, &world, &step, shapes, &answer) == DM_NO_WORLD && journal.commands_len == 0);
  WANT(dm_journal_open(&journal, &world, (dm_vec){INT64_MAX, 0}) == DM_OUT_OF_RANGE && dm_journal_open(&journal, &world, (dm_vec){0, -179}) == DM_DONE);
  for (uint32_t i = 0; i < 40; i++) {
    make.body.at.y = (1 + (int64_t)i) * 2 * METRE;
    WANT(dm_journal_apply(&journal, &world, &make, shapes, &answer) == DM_DONE && answer.made.slot == i);
    WANT(dm_journal_apply(&journal, &world, &step, shapes, &answer) == DM_DONE && answer.step == i + 1);
  }
  push.joint.a = (dm_handle){77, 1};
  WANT(dm_journal_apply(&journal, &world, &push, shapes, &answer) == DM_STALE_HANDLE && journal.commands_len == 80 && journal.shapes_len == 80);
  WANT(dm_settle(&world) == DM_DONE && dm_journal_replay(&journal, &other) == DM_DONE && same(digest_of(&world), digest_of(&other)));
  dm_answer *answers = malloc(80 * sizeof *answers);
  WANT(dm_open(&other, journal.gravity) == DM_DONE && dm_apply_all(&other, journal.commands, 80, journal.shapes, 80, answers, 80) == 80);
  WANT(same(digest_of(&world), digest_of(&other)));
  free(answers);
  dm_journal_close(&journal);
  dm_journal_close(&journal);
  dm_close(&world);
  dm_close(&other);
}

int main(void) {
  WANT(dm_version() == DM_VERSION);
  without_a_world();
  with_a_heap();
  what_is_kept();
  what_there_is();
  through_a_filter();
  on_one_shape();
  in_a_frame();
  in_a_batch();
  in_a_journal();
  in_motion();
  to_facings();
  in_all_steps();
  puts("each call answers as it should");
  return 0;
}
