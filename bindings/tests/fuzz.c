/* For libFuzzer: bytes are a saved world, or else eight shapes and the commands of a batch. A refused call leaves the digest as it was.
 *
 *     bindings/run --fuzz 10
 */
#include "check.h"
#include "dillmonth_journal.h"

/* A world to which a text is loaded: what was refused has changed nothing. */
static void load_it(dm_world *world, const uint8_t *bytes, size_t count) {
  digest_t before = digest_of(world);
  uint32_t clause = 0;
  dm_status status = dm_load(world, bytes, count, &clause);
  WANT(status == DM_DONE || same(before, digest_of(world)));
  WANT(status != DM_BAD_FILE || (clause >= 1 && clause <= 10));
  uint64_t step = 0;
  if (status == DM_DONE) dm_step(world, 4, &step);
}

/* The same in a journal, whose replay is the same world. */
static void keep_them(const dm_command *commands, size_t count, const dm_shape *shapes) {
  dm_world world = DM_NONE, other = DM_NONE;
  dm_journal journal = DM_NO_JOURNAL;
  dm_answer answer;
  WANT(dm_journal_open(&journal, &world, (dm_vec){0, -179}) == DM_DONE);
  for (size_t i = 0; i < count; i++) {
    dm_command command = commands[i];
    command.shapes_count %= 9;
    WANT(dm_journal_apply(&journal, &world, &command, shapes, &answer) == answer.status);
  }
  WANT(dm_journal_replay(&journal, &other) == DM_DONE && same(digest_of(&world), digest_of(&other)));
  dm_journal_close(&journal);
  dm_close(&world);
  dm_close(&other);
}

static void apply_them(dm_world *world, const uint8_t *bytes, size_t count) {
  dm_command commands[64];
  dm_answer answers[64];
  dm_shape shapes[8];
  size_t head = count < sizeof shapes ? count : sizeof shapes;
  memset(shapes, 0, sizeof shapes);
  memcpy(shapes, bytes, head);
  size_t some = (count - head) / sizeof *commands < 64 ? (count - head) / sizeof *commands : 64;
  memcpy(commands, bytes + head, some * sizeof *commands);
  for (size_t i = 0; i < some; i++) { /* mostly without what is refused before all else */
    commands[i].kind %= 16;
    commands[i].unused = commands[i].unused == 1;
    commands[i].body.unused = commands[i].body.unused == 1;
    commands[i].joint.unused = commands[i].joint.unused == 1;
  }
  digest_t before = digest_of(world);
  keep_them(commands, some, shapes);
  WANT(dm_apply_all(world, commands, some, shapes, 8, answers, 64) == some);
  int done = 0;
  for (size_t i = 0; i < some; i++) {
    done |= answers[i].status == DM_DONE;
    WANT(!commands[i].unused || answers[i].status == DM_OUT_OF_RANGE);
  }
  WANT(done || same(before, digest_of(world)));
}

/* What is asked of a world, by ids and filters of any bytes: it changes nothing, and what is counted is what there is. */
static void ask(dm_world *world, const uint8_t *bytes, size_t count) {
  struct { dm_handle id; dm_filter filter; dm_vec from, along; dm_box box; uint32_t number; } asked;
  digest_t before = digest_of(world);
  dm_body_info info;
  dm_joint_view joint;
  dm_shape shapes[8];
  dm_handle joints[8];
  dm_contact contacts[8];
  dm_counts counts;
  dm_sum sum;
  dm_hit hit, first;
  dm_shape_hit on;
  dm_pose pose;
  size_t all = 0, found = 0;
  memset(&asked, 0, sizeof asked);
  memcpy(&asked, bytes, count < sizeof asked ? count : sizeof asked);
  asked.id.slot %= 8;
  asked.filter.without.slot %= 8;
  asked.filter.unused = asked.filter.unused == 1;
  WANT((dm_info(world, asked.id, &info) == DM_DONE) == (dm_body_in(world, asked.id.slot).generation == asked.id.generation && asked.id.generation != 0));
  if (dm_shapes(world, asked.id, shapes, 8, &found) == DM_DONE) WANT(found == info.shapes && found >= 1);
  if (dm_joints_of(world, asked.id, joints, 8, &found) == DM_DONE) WANT(found <= dm_joints(world, joints, 0));
  if (dm_contacts_of(world, asked.id, contacts, 8, &found) == DM_DONE) {
    WANT(dm_contacts(world, &all) == DM_DONE && found <= all);
    for (size_t i = 0; i < found && i < 8; i++) {
      uint32_t colour = dm_colour_of(world, contacts[i].pair.first, contacts[i].pair.second);
      WANT(colour == DM_NO_COLOUR || (colour <= 24 && contacts[i].points > 0));
    }
  }
  if (dm_joint(world, asked.id, &joint) == DM_DONE) WANT(dm_joint_in(world, asked.id.slot).generation == asked.id.generation);
  WANT(dm_count(world, &counts) == DM_DONE && counts.bodies == dm_poses(world, &pose, 0) && counts.joints == dm_joints(world, joints, 0));
  WANT((dm_total_of(world, asked.number, &sum) == DM_DONE) == (asked.number < 6) && dm_total(world, &sum) == DM_DONE);
  dm_status status = dm_ray_through(world, asked.from, asked.along, &asked.filter, &hit);
  WANT(dm_ray_all(world, asked.from, asked.along, &asked.filter, &all) == status);
  if (status == DM_DONE) WANT((all > 0) == (hit.is_hit != 0) && (!all || (dm_hits_found(world, &first, 1) == all && memcmp(&first, &hit, sizeof hit) == 0)));
  if (status == DM_DONE && hit.is_hit) WANT(dm_ray_on_shape(world, asked.from, asked.along, hit.shape, &on) == DM_DONE && on.is_hit && on.fraction == hit.fraction);
  if (dm_region_through(world, &asked.box, &asked.filter, &found) == DM_DONE) WANT(dm_region(world, &asked.box, &all) == DM_DONE && found <= all);
  WANT(same(before, digest_of(world)));
}

/* What a frame answers is what its world does: where a body is enabled, what a ray hits, which shapes lie over a region. */
static void look_at_a_frame(dm_world *world, const uint8_t *bytes, size_t count) {
  struct { dm_handle id; dm_vec from, along; dm_box box; } asked;
  dm_frame frame = DM_NO_FRAME, again = DM_NO_FRAME;
  dm_body_info info;
  dm_pose pose;
  dm_view view;
  dm_hit hit, seen;
  dm_sum sum, booked;
  dm_shape_id ids[16], found[16];
  size_t all = 0, some = 0;
  memset(&asked, 0, sizeof asked);
  memcpy(&asked, bytes, count < sizeof asked ? count : sizeof asked);
  asked.id.slot %= 8;
  WANT(dm_frame_take(world, &frame) == DM_DONE);
  int enabled = dm_info(world, asked.id, &info) == DM_DONE && info.enabled;
  WANT((dm_frame_pose(frame, asked.id, &pose) == DM_DONE) == enabled);
  if (enabled) WANT(dm_body(world, asked.id, &view) == DM_DONE && memcmp(&view.pose, &pose, sizeof pose) == 0);
  dm_status status = dm_ray(world, asked.from, asked.along, &hit);
  WANT(dm_frame_ray(frame, asked.from, asked.along, &seen) == status && (status != DM_DONE || memcmp(&hit, &seen, sizeof hit) == 0));
  status = dm_region(world, &asked.box, &all);
  WANT(dm_frame_region(frame, &asked.box, found, 16, &some) == status && some == all);
  if (status == DM_DONE) WANT(dm_region_found(world, ids, 16) == all && memcmp(ids, found, (all < 16 ? all : 16) * sizeof *ids) == 0);
  WANT(dm_total(world, &sum) == DM_DONE && dm_frame_total(frame, &booked) == DM_DONE && memcmp(&sum, &booked, sizeof sum) == 0);
  WANT(dm_frame_take(world, &again) == DM_DONE && dm_frame_calls(again) == dm_frame_calls(frame));
  dm_frame_drop(&again);
  dm_frame_drop(&frame);
}

/* A target of so many ticks is met in a copy that lets them pass. */
static void meet(const dm_world *world, dm_handle body, dm_rot facing, int64_t ticks) {
  dm_world copied = DM_NONE;
  dm_view view;
  uint64_t step = 0;
  WANT(dm_copy(world, &copied) == DM_DONE);
  if (dm_step(&copied, ticks, &step) == DM_DONE) {
    WANT(dm_body(&copied, body, &view) == DM_DONE);
    int64_t c = view.pose.facing.c - facing.c, s = view.pose.facing.s - facing.s;
    WANT(c <= ticks + 6 && -c <= ticks + 6 && s <= ticks + 6 && -s <= ticks + 6);
  }
  dm_close(&copied);
}

/* Motions that are set by numbers of any bytes, tags and events: a refused call leaves the digest as it was, and what is told is what happened. */
static void steer(dm_world *world, const uint8_t *bytes, size_t count) {
  struct { dm_handle id; dm_vec vec; dm_rot rot; int64_t number, ticks; uint64_t tag; } asked;
  digest_t before = digest_of(world);
  dm_course course;
  dm_view view;
  dm_event events[64];
  size_t told = 0, begun = 0;
  uint64_t step = 0;
  dm_pair pair;
  memset(&asked, 0, sizeof asked);
  memcpy(&asked, bytes, count < sizeof asked ? count : sizeof asked);
  asked.id.slot %= 8;
  WANT(dm_events_clear(world, 1) == DM_DONE && same(before, digest_of(world)));
  int lives = dm_motion(world, asked.id, &course) == DM_DONE;
  WANT((dm_set_tag(world, asked.id, asked.tag) == DM_DONE) == lives && same(before, digest_of(world)));
  if (lives) WANT(dm_body(world, asked.id, &view) == DM_DONE && view.tag == asked.tag && dm_tag(world, asked.id) == asked.tag);
  if (dm_push_to(world, asked.id, asked.vec)) WANT(same(before, digest_of(world)));
  before = digest_of(world);
  if (dm_set_target(world, asked.id, asked.vec, asked.rot, asked.ticks)) WANT(same(before, digest_of(world)));
  else meet(world, asked.id, asked.rot, asked.ticks);
  before = digest_of(world);
  if (dm_twist(world, asked.id, asked.number)) WANT(same(before, digest_of(world)));
  before = digest_of(world);
  if (dm_twist_to(world, asked.id, asked.number)) WANT(same(before, digest_of(world)));
  for (int i = 0; i < 4; i++) {
    if (dm_step(world, 1, &step) != DM_DONE) break;
    begun += dm_begun(world, &pair, 0);
  }
  WANT(dm_events(world, events, 64, &told) == DM_DONE && told >= begun);
  for (size_t i = 0; i < told && i < 64; i++) {
    WANT(events[i].kind <= DM_EVENT_WOKE && events[i].step <= step && events[i].step + 4 > step);
    WANT(events[i].kind != DM_EVENT_BEGUN || events[i].contact.points >= 1);
  }
  WANT(dm_events_clear(world, 0) == DM_DONE && dm_events(world, events, 64, &told) == DM_DONE && told == 0);
}

int LLVMFuzzerTestOneInput(const uint8_t *bytes, size_t count) {
  static const uint8_t none = 0;
  dm_world world = DM_NONE;
  make_heap(&world, 3, 2);
  if (count && bytes[0] == '{') {
    load_it(&world, bytes, count);
  } else {
    apply_them(&world, count ? bytes : &none, count);
    ask(&world, count ? bytes : &none, count);
    look_at_a_frame(&world, count ? bytes : &none, count);
    steer(&world, count ? bytes : &none, count);
    load_it(&world, count ? bytes : &none, count);
  }
  dm_close(&world);
  return 0;
}
