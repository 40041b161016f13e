/* Each allocation of each call refused in turn: the call answers 1, the world is as it was by its digest, and the call made again does what it
 * does in a world that met no refusal. Link it with -Wl,--wrap=malloc,--wrap=realloc. */
#include "check.h"

void *__real_malloc(size_t size);
void *__real_realloc(void *at, size_t size);
static long left = -1; /* how many allocations are granted still; below 0 all are */

static int is_refused(void) { return left >= 0 && left-- == 0; }
void *__wrap_malloc(size_t size) { return is_refused() ? 0 : __real_malloc(size); }
void *__wrap_realloc(void *at, size_t size) { return is_refused() ? 0 : __real_realloc(at, size); }

static dm_world other = DM_NONE;
static uint8_t *text;
static size_t text_len;

static dm_status create(dm_world *world) {
  dm_body_def def = {DM_DYNAMIC, 0, {0, 30 * METRE}, {1 << 30, 0}, 200, 27000000000000, {0, 0}, 0};
  dm_shape shapes[3] = {circle_of(METRE), circle_of(METRE / 2), circle_of(METRE / 4)};
  dm_handle made;
  return dm_create_body(world, &def, shapes, 3, &made);
}
static dm_status join(dm_world *world) {
  dm_joint_def def = {{1, 1}, {2, 1}, {0, 0}, {0, 0}, METRE, 0, 0};
  dm_handle made;
  return dm_create_joint(world, &def, &made);
}
static dm_status destroy(dm_world *world) { return dm_destroy_body(world, (dm_handle){1, 1}); }
static dm_status push(dm_world *world) { return dm_push(world, (dm_handle){1, 1}, (dm_vec){1000, 1000}); }
static dm_status disable(dm_world *world) { return dm_disable(world, (dm_handle){2, 1}); }
static dm_status rest(dm_world *world) { return dm_sleep(world, (dm_handle){1, 1}); }
static dm_status step(dm_world *world) {
  uint64_t number;
  return dm_step(world, 4, &number);
}
static dm_status copy(dm_world *world) { return dm_copy(world, &other); }
static dm_status save(dm_world *world) {
  size_t bytes;
  return dm_save(world, &bytes);
}
static dm_status load(dm_world *world) {
  uint32_t clause;
  return dm_load(world, text, text_len, &clause);
}
static dm_status contacts(dm_world *world) {
  size_t count;
  return dm_contacts(world, &count);
}
static dm_status region(dm_world *world) {
  dm_box box = {{-9 * METRE, -METRE}, {9 * METRE, 9 * METRE}};
  size_t count;
  return dm_region(world, &box, &count);
}
static dm_status region_through(dm_world *world) {
  dm_box box = {{-9 * METRE, -METRE}, {9 * METRE, 9 * METRE}};
  dm_filter filter = {{1, 1}, 0, 0, 0};
  size_t count;
  return dm_region_through(world, &box, &filter, &count);
}
static dm_status all_hits(dm_world *world) {
  dm_filter all = {{0, 0}, 0, 0, 0};
  size_t count;
  return dm_ray_all(world, (dm_vec){-9 * METRE, METRE}, (dm_vec){18 * METRE, 0}, &all, &count);
}
static dm_status own_contacts(dm_world *world) {
  dm_contact contacts[4];
  size_t count;
  return dm_contacts_of(world, (dm_handle){1, 1}, contacts, 4, &count);
}
static dm_status own_joints(dm_world *world) {
  dm_handle joints[4];
  size_t count;
  return dm_joints_of(world, (dm_handle){1, 1}, joints, 4, &count);
}
static dm_status counts(dm_world *world) {
  dm_counts all;
  return dm_count(world, &all);
}
static dm_status frame(dm_world *world) {
  static dm_frame held = DM_NO_FRAME;
  const uint64_t before = dm_frame_calls(held);
  const dm_status status = dm_frame_take(world, &held);
  WANT(dm_frame_calls(held) == (status == DM_DONE ? 53 : before));
  if (status == DM_DONE) dm_frame_drop(&held);
  return status;
}
static dm_status framed_region(dm_world *world) {
  static dm_frame held = DM_NO_FRAME;
  dm_box box = {{-9 * METRE, -METRE}, {9 * METRE, 9 * METRE}};
  dm_shape_id ids[4];
  size_t count = 77;
  dm_status status = held.at ? DM_DONE : dm_frame_take(world, &held);
  if (status == DM_DONE) status = dm_frame_region(held, &box, ids, 4, &count);
  WANT((count == 77) == (status != DM_DONE));
  if (status == DM_DONE) dm_frame_drop(&held);
  return status;
}
static dm_status digest(dm_world *world) {
  uint8_t bytes[DM_DIGEST_SIZE];
  return dm_digest(world, bytes, DM_DIGEST_SIZE);
}
static dm_status batch(dm_world *world) {
  dm_command commands[2];
  dm_answer answers[2];
  dm_shape shapes[2] = {circle_of(METRE), circle_of(METRE / 2)};
  memset(commands, 0, sizeof commands);
  commands[0].kind = DM_DO_CREATE_BODY;
  commands[0].shapes_count = 2;
  commands[0].body = (dm_body_def){DM_DYNAMIC, 0, {0, 40 * METRE}, {1 << 30, 0}, 200, 27000000000000, {0, 0}, 0};
  dm_apply_all(world, commands, 1, shapes, 2, answers, 2);
  return answers[0].status;
}

static dm_status push_to(dm_world *world) { return dm_push_to(world, (dm_handle){1, 1}, (dm_vec){100, 100}); }
static dm_status tag(dm_world *world) { return dm_set_tag(world, (dm_handle){5, 1}, 5); }

typedef struct {
  const char *name;
  dm_status (*call)(dm_world *);
} call_t;
static const call_t calls[] = {{"create", create}, {"join", join}, {"destroy", destroy}, {"push", push}, {"disable", disable}, {"sleep", rest},
                               {"step", step}, {"copy", copy}, {"save", save}, {"load", load}, {"contacts", contacts}, {"region", region},
                               {"region through", region_through}, {"all hits", all_hits}, {"own contacts", own_contacts}, {"own joints", own_joints},
                               {"counts", counts}, {"frame", frame}, {"framed region", framed_region}, {"digest", digest}, {"batch", batch},
                               {"push to", push_to}, {"tag", tag}};

static int try_call(call_t each) {
  dm_world before = DM_NONE, wanted = DM_NONE, world = DM_NONE;
  make_heap(&before, 12, 40);
  WANT(dm_copy(&before, &wanted) == DM_DONE && each.call(&wanted) == DM_DONE);
  int refused = 0;
  for (long granted = 0;; granted++) {
    WANT(dm_copy(&before, &world) == DM_DONE);
    left = granted;
    dm_status status = each.call(&world);
    int met = left < 0;
    left = -1;
    if (!met) {
      WANT(status == DM_DONE && same(digest_of(&world), digest_of(&wanted)));
      break;
    }
    refused++;
    /* a call may do without memory that it was refused, and then it has done all that it says */
    WANT(status == DM_NO_MEMORY || status == DM_DONE);
    if (status == DM_NO_MEMORY) WANT(same(digest_of(&world), digest_of(&before)) && each.call(&world) == DM_DONE);
    WANT(same(digest_of(&world), digest_of(&wanted)));
  }
  dm_close(&before);
  dm_close(&wanted);
  dm_close(&world);
  return refused;
}

/* Memory that is wanting for the events of a step: the next command is refused, and no event is lost. */
static int try_events(void) {
  dm_world before = DM_NONE, world = DM_NONE;
  dm_event events[64];
  size_t wanted = 0, told = 0;
  int refused = 0;
  make_heap(&before, 12, 40);
  for (long granted = -1;; granted++) {
    uint64_t number;
    WANT(dm_copy(&before, &world) == DM_DONE && dm_events_clear(&world, 1) == DM_DONE);
    for (int i = 0; i < 60; i++) WANT(dm_step(&world, 1, &number) == DM_DONE);
    digest_t digest = digest_of(&world);
    left = granted;
    dm_status status = dm_sleep(&world, (dm_handle){1, 1});
    int met = granted >= 0 && left < 0;
    left = -1;
    if (status == DM_NO_MEMORY) WANT(same(digest, digest_of(&world)));
    WANT((status == DM_DONE || status == DM_NO_MEMORY) && dm_events(&world, events, 64, &told) == DM_DONE);
    if (granted < 0) wanted = told;
    WANT(told == wanted);
    if (granted >= 0 && !met) break;
    refused += met;
  }
  dm_close(&before);
  dm_close(&world);
  return refused;
}

int main(void) {
  dm_world world = DM_NONE;
  int refused = try_events();
  make_heap(&world, 12, 60);
  WANT(dm_save(&world, &text_len) == DM_DONE);
  text = malloc(text_len);
  dm_saved(&world, text, text_len);
  for (size_t i = 0; i < sizeof calls / sizeof *calls; i++) refused += try_call(calls[i]);
  for (long granted = 0;; granted++) {
    dm_world none = DM_NONE;
    left = granted;
    dm_status status = dm_open(&none, (dm_vec){0, 0});
    int met = left < 0;
    left = -1;
    dm_close(&none);
    if (!met) break;
    WANT(status == DM_NO_MEMORY);
    refused++;
  }
  dm_close(&world);
  dm_close(&other);
  free(text);
  printf("%d allocations were refused\n", refused);
  return refused > 100 ? 0 : 1;
}
