// dillmonth.hpp: a world for C++, over dillmonth.h. C++17.
//
//     dm::world world(dm::gravity(0, -9.81));
//     world.create_body(dm::static_body(dm::at(0, 0)), {dm::segment(dm::at(-8, 0), dm::at(8, 0))});
//     dm::body_id ball = world.create_body(dm::dynamic_body(dm::at(0, 4), dm_circle_mass(dm_metres(0.5), 256)), {dm::circle(0.5)});
//     world.step(1);
//
// A world is an owner: it moves, it isn't copied but by `copy`, and it is closed with its scope. A call that is refused throws `dm::refused`,
// which has the status; each command has a `try_` call too, which answers the status in its place. Without exceptions (-fno-exceptions) a
// refusal ends the program with its text, and the `try_` calls stay.
//
// `const` calls change nothing of the world, and yet aren't for two threads at once: a world is used by one call at a time.
// An id that names nothing any more: a question about it answers nothing (`std::nullopt`), and a command is refused with DM_STALE_HANDLE.
// What helps with units, masses and definitions is that of dillmonth_inline.h, at DM_RATE ticks a second where no rate is given.
#ifndef DILLMONTH_HPP
#define DILLMONTH_HPP
#include "dillmonth.h"
#include "dillmonth_journal.h"
#include <array>
#include <cstdint>
#include <cstdio>
#include <cstdlib>
#include <exception>
#include <functional>
#include <optional>
#include <string>
#include <utility>
#include <vector>

inline bool operator==(dm_handle a, dm_handle b) { return dm_same(a, b) != 0; }
inline bool operator!=(dm_handle a, dm_handle b) { return dm_same(a, b) == 0; }

namespace dm {

// ---- ids ----

// The id of a body, or of a joint: types of their own, so that one can't stand for the other. The lists of C have ids of bodies alone.
template <class Named> class id {
 public:
  constexpr id() = default;
  constexpr id(dm_handle handle) : held(handle) {}
  constexpr dm_handle handle() const { return held; }
  std::uint64_t packed() const { return dm_pack(held); }
  friend bool operator==(id a, id b) { return a.held == b.held; }
  friend bool operator!=(id a, id b) { return a.held != b.held; }
  friend bool operator<(id a, id b) { return a.packed() < b.packed(); }

 private:
  dm_handle held{0, 0};
};
using body_id = id<struct names_a_body>;
using joint_id = id<struct names_a_joint>;

// ---- refusals ----

// A call was refused, and has changed nothing.
class refused : public std::exception {
 public:
  explicit refused(dm_status why, std::uint32_t broken = 0)
      : status(why), clause(broken), words("the world refused (" + std::to_string(why) + "): " + dm_status_text(why)) {
    if (clause != 0) words += ", clause " + std::to_string(clause);
  }
  const char *what() const noexcept override { return words.c_str(); }
  dm_status status;
  std::uint32_t clause; // the clause that a saved world breaks, or 0

 private:
  std::string words;
};

inline void must(dm_status status, std::uint32_t clause = 0) {
  if (status == DM_DONE) return;
#if defined(__cpp_exceptions) || defined(_CPPUNWIND)
  throw refused(status, clause);
#else
  std::fprintf(stderr, "%s\n", refused(status, clause).what());
  std::abort();
#endif
}

// ---- units ----

inline dm_vec at(double x, double y) { return dm_at(x, y); }                                                        // metres
inline dm_vec velocity(double x, double y, int rate = DM_RATE) { return dm_velocity(x, y, rate); }                  // metres a second
inline dm_vec gravity(double x, double y, int rate = DM_RATE) { return dm_gravity_of(x, y, rate); }                 // metres a second a second
inline dm_vec push_of(std::int64_t mass, double x, double y, int rate = DM_RATE) { return dm_push_of(mass, x, y, rate); }
inline std::int64_t spin(double degrees_a_second, int rate = DM_RATE) { return dm_spin_of(degrees_a_second, rate); }
inline dm_rot degrees(double turn) { return dm_degrees(turn); }

// ---- definitions that are valid as they are made ----

// A shape that collides with all, without friction and restitution. Shares are of 1.
struct shape : dm_shape {
  explicit shape(dm_shape made) : dm_shape(made) {}
  shape with_friction(double share) const {
    shape made = *this;
    made.friction = dm_share(share);
    return made;
  }
  shape with_restitution(double share) const {
    shape made = *this;
    made.restitution = dm_share(share);
    return made;
  }
  // It collides where the mask of each meets the category of the other, unless the groups are equal and not 0: then by the group's sign.
  shape with_filter(std::uint64_t its_category, std::uint64_t its_mask, std::int32_t its_group = 0) const {
    shape made = *this;
    made.category = its_category;
    made.mask = its_mask;
    made.group = its_group;
    return made;
  }
};
inline shape circle(double radius, dm_vec center = {0, 0}) { return shape(dm_shape_of(DM_CIRCLE, center, {0, 0}, dm_metres(radius))); }
inline shape capsule(dm_vec first, dm_vec second, double radius) { return shape(dm_capsule_shape(first, second, dm_metres(radius))); }
inline shape segment(dm_vec first, dm_vec second) { return shape(dm_segment_shape(first, second)); }

inline dm_body_def static_body(dm_vec place, dm_rot facing = {DM_ONE, 0}) {
  dm_body_def def = dm_static_def(place);
  def.facing = facing;
  return def;
}
inline dm_body_def kinematic_body(dm_vec place, dm_vec its_velocity, std::int64_t its_spin = 0) {
  dm_body_def def = dm_kinematic_def(place, its_velocity);
  def.spin = its_spin;
  return def;
}
inline dm_body_def dynamic_body(dm_vec place, dm_mass_data mass, dm_rot facing = {DM_ONE, 0}) {
  dm_body_def def = dm_dynamic_def(place, mass);
  def.facing = facing;
  return def;
}
// From anchor to anchor, each from its body's centre.
inline dm_joint_def joint(body_id a, body_id b, std::int64_t length, dm_vec from = {0, 0}, dm_vec to = {0, 0}, bool collide = false) {
  return {a.handle(), b.handle(), from, to, length, collide ? 1u : 0u, 0};
}

// ---- a frame ----

// What a world shows at one moment: `take_frame` of a world takes one. It never changes, and outlives the world. Any number of threads may read one at once, with no
// lock, also while the world steps; a `std::shared_ptr` to it is dropped by the last that reads it.
class frame {
 public:
  frame(frame &&other) noexcept : held(std::exchange(other.held, dm_frame{})) {}
  frame &operator=(frame &&other) noexcept {
    if (this != &other) {
      dm_frame_drop(&held);
      held = std::exchange(other.held, dm_frame{});
    }
    return *this;
  }
  frame(const frame &) = delete;
  frame &operator=(const frame &) = delete;
  ~frame() { dm_frame_drop(&held); }

  // Where an enabled body was; nothing where the id named none.
  [[nodiscard]] std::optional<dm_pose> pose(body_id body) const {
    dm_pose pose{};
    const dm_status status = dm_frame_pose(held, body.handle(), &pose);
    if (status == DM_STALE_HANDLE) return std::nullopt;
    must(status);
    return pose;
  }
  // The first shape on the way; nothing where there is none.
  [[nodiscard]] std::optional<dm_hit> ray(dm_vec from, dm_vec along) const {
    dm_hit hit{};
    must(dm_frame_ray(held, from, along, &hit));
    return hit.is_hit ? std::optional<dm_hit>(hit) : std::nullopt;
  }
  [[nodiscard]] std::vector<dm_shape_id> region(const dm_box &bounds) const {
    std::vector<dm_shape_id> items(32);
    std::size_t count = 0;
    must(dm_frame_region(held, &bounds, items.data(), items.size(), &count));
    if (count > items.size()) {
      items.resize(count);
      must(dm_frame_region(held, &bounds, items.data(), items.size(), &count));
    }
    items.resize(count);
    return items;
  }
  // What all causes had given the movers.
  [[nodiscard]] dm_sum total() const {
    dm_sum sum{};
    must(dm_frame_total(held, &sum));
    return sum;
  }
  // How many calls the world had accepted.
  [[nodiscard]] std::uint64_t calls() const { return dm_frame_calls(held); }
  // For the calls of C.
  dm_frame get() const { return held; }

 private:
  friend class world;
  frame() = default;
  dm_frame held{};
};

// ---- a world ----

class world {
 public:
  explicit world(dm_vec gravity) {
    test_version();
    must(dm_open(&held, gravity));
  }
  // Nothing where the world can't be opened.
  static std::optional<world> try_open(dm_vec gravity) {
    world made;
    if (dm_version() != DM_VERSION || dm_open(&made.held, gravity) != DM_DONE) return std::nullopt;
    return made;
  }
  // The world of a text that `save` made.
  [[nodiscard]] static world load(const std::string &text) {
    test_version();
    world made;
    std::uint32_t clause = 0;
    const dm_status status = dm_load(&made.held, bytes_of(text), text.size(), &clause);
    must(status, status == DM_BAD_FILE ? clause : 0);
    return made;
  }
  world(world &&other) noexcept : held(std::exchange(other.held, dm_world{})) {}
  world &operator=(world &&other) noexcept {
    if (this != &other) {
      dm_close(&held);
      held = std::exchange(other.held, dm_world{});
    }
    return *this;
  }
  world(const world &) = delete;
  world &operator=(const world &) = delete;
  ~world() { dm_close(&held); }

  // A world of its own.
  [[nodiscard]] world copy() const {
    world made;
    must(dm_copy(&held, &made.held));
    return made;
  }
  // For the calls of C: those that this class hasn't, or to have a status.
  dm_world *get() const { return &held; }

  // ---- commands, each of which may be refused ----

  body_id create_body(const dm_body_def &def, const std::vector<dm_shape> &shapes) {
    body_id made;
    must(try_create_body(def, shapes, made));
    return made;
  }
  [[nodiscard]] dm_status try_create_body(const dm_body_def &def, const std::vector<dm_shape> &shapes, body_id &made) {
    dm_handle handle{0, 0};
    const dm_status status = dm_create_body(&held, &def, some(shapes), shapes.size(), &handle);
    if (status == DM_DONE) made = handle;
    return status;
  }
  joint_id create_joint(const dm_joint_def &def) {
    joint_id made;
    must(try_create_joint(def, made));
    return made;
  }
  [[nodiscard]] dm_status try_create_joint(const dm_joint_def &def, joint_id &made) {
    dm_handle handle{0, 0};
    const dm_status status = dm_create_joint(&held, &def, &handle);
    if (status == DM_DONE) made = handle;
    return status;
  }
  void destroy_body(body_id body) { must(try_destroy_body(body)); }
  void destroy_joint(joint_id joint) { must(try_destroy_joint(joint)); }
  void push(body_id body, dm_vec by) { must(try_push(body, by)); }
  void push_at(body_id body, dm_vec by, dm_vec offset) { must(try_push_at(body, by, offset)); }
  void set_pose(body_id body, dm_vec place, dm_rot facing) { must(try_set_pose(body, place, facing)); }
  void set_velocity(body_id body, dm_vec velocity, std::int64_t spin = 0) { must(try_set_velocity(body, velocity, spin)); }
  // A mover's velocity and its spin, by pushes. An angular impulse is two, a push beside the centre and the opposite one at it: `dm_twist` says more.
  void push_to(body_id body, dm_vec velocity) { must(try_push_to(body, velocity)); }
  void twist(body_id body, std::int64_t by) { must(try_twist(body, by)); }
  void twist_to(body_id body, std::int64_t spin) { must(try_twist_to(body, spin)); }
  // The course that leads a kinematic body to a pose in a step of so many ticks, and that it keeps.
  void set_target(body_id body, dm_vec place, dm_rot facing, std::int64_t ticks) { must(try_set_target(body, place, facing, ticks)); }
  void set_gravity(dm_vec gravity) { must(try_set_gravity(gravity)); }
  void disable(body_id body) { must(try_disable(body)); }
  void enable(body_id body) { must(try_enable(body)); }
  void wake(body_id body) { must(try_wake(body)); }
  void sleep(body_id body) { must(try_sleep(body)); }
  [[nodiscard]] dm_status try_destroy_body(body_id body) { return dm_destroy_body(&held, body.handle()); }
  [[nodiscard]] dm_status try_destroy_joint(joint_id joint) { return dm_destroy_joint(&held, joint.handle()); }
  [[nodiscard]] dm_status try_push(body_id body, dm_vec by) { return dm_push(&held, body.handle(), by); }
  [[nodiscard]] dm_status try_push_at(body_id body, dm_vec by, dm_vec offset) { return dm_push_at(&held, body.handle(), by, offset); }
  [[nodiscard]] dm_status try_set_pose(body_id body, dm_vec place, dm_rot facing) { return dm_set_pose(&held, body.handle(), place, facing); }
  [[nodiscard]] dm_status try_set_velocity(body_id body, dm_vec velocity, std::int64_t spin = 0) {
    return dm_set_velocity(&held, body.handle(), velocity, spin);
  }
  [[nodiscard]] dm_status try_push_to(body_id body, dm_vec velocity) { return dm_push_to(&held, body.handle(), velocity); }
  [[nodiscard]] dm_status try_twist(body_id body, std::int64_t by) { return dm_twist(&held, body.handle(), by); }
  [[nodiscard]] dm_status try_twist_to(body_id body, std::int64_t spin) { return dm_twist_to(&held, body.handle(), spin); }
  [[nodiscard]] dm_status try_set_target(body_id body, dm_vec place, dm_rot facing, std::int64_t ticks) {
    return dm_set_target(&held, body.handle(), place, facing, ticks);
  }
  [[nodiscard]] dm_status try_set_gravity(dm_vec gravity) { return dm_set_gravity(&held, gravity); }
  [[nodiscard]] dm_status try_disable(body_id body) { return dm_disable(&held, body.handle()); }
  [[nodiscard]] dm_status try_enable(body_id body) { return dm_enable(&held, body.handle()); }
  [[nodiscard]] dm_status try_wake(body_id body) { return dm_wake(&held, body.handle()); }
  [[nodiscard]] dm_status try_sleep(body_id body) { return dm_sleep(&held, body.handle()); }

  // A step of 1 to 8 ticks, after which what was booked is summed up. Answers the number of the step.
  std::uint64_t step(std::int64_t ticks) {
    must(try_step(ticks));
    return steps();
  }
  [[nodiscard]] dm_status try_step(std::int64_t ticks) { return dm_advance(&held, ticks); }
  // Sums up what was booked, so that no memory is kept for it. `step` and `apply_all` do it.
  void settle() { dm_settle(&held); }

  // Does commands one after another, and answers each. A refused one changes nothing, and the next one follows.
  std::vector<dm_answer> apply_all(const std::vector<dm_command> &commands, const std::vector<dm_shape> &shapes = {}) {
    std::vector<dm_answer> answers(commands.size());
    if (dm_apply_all(&held, some(commands), commands.size(), some(shapes), shapes.size(), some(answers), answers.size()) != answers.size())
      must(DM_NO_WORLD);
    settle();
    return answers;
  }

  // ---- reading. The `_into` calls write over a list that the caller keeps, which saves memory from being asked for ----

  void poses_into(std::vector<dm_pose> &out) const { fill(out, dm_poses); }
  void moved_into(std::vector<dm_pose> &out) const { fill(out, dm_moved); }
  void begun_into(std::vector<dm_pair> &out) const { fill(out, dm_begun); }
  void ended_into(std::vector<dm_pair> &out) const { fill(out, dm_ended); }
  [[nodiscard]] std::vector<dm_pose> poses() const { return all<dm_pose>(dm_poses); }
  [[nodiscard]] std::vector<dm_pose> moved() const { return all<dm_pose>(dm_moved); }
  [[nodiscard]] std::vector<dm_pair> begun() const { return all<dm_pair>(dm_begun); }
  [[nodiscard]] std::vector<dm_pair> ended() const { return all<dm_pair>(dm_ended); }
  [[nodiscard]] std::vector<body_id> slept() const { return ids(dm_slept); }
  [[nodiscard]] std::vector<body_id> woke() const { return ids(dm_woke); }
  // Drops the events that were kept; from now on those of each step are kept, or none are.
  void clear_events(bool keeps = true) { must(dm_events_clear(&held, keeps ? 1 : 0)); }
  // Those of all steps since then, step by step. They stay.
  void events_into(std::vector<dm_event> &out) const {
    std::size_t count = 0;
    if (out.empty()) out.resize(32);
    must(dm_events(&held, out.data(), out.size(), &count));
    if (count > out.size()) {
      out.resize(count);
      must(dm_events(&held, out.data(), out.size(), &count));
    }
    out.resize(count);
  }
  [[nodiscard]] std::vector<dm_event> events() const {
    std::vector<dm_event> told;
    events_into(told);
    return told;
  }
  // A number of the program's own for a body, which its view and its events have.
  void set_tag(body_id body, std::uint64_t tag) { must(dm_set_tag(&held, body.handle(), tag)); }
  [[nodiscard]] std::uint64_t tag(body_id body) const { return dm_tag(&held, body.handle()); }
  [[nodiscard]] std::vector<dm_contact> contacts() const {
    std::size_t count = 0;
    must(dm_contacts(&held, &count));
    return all<dm_contact>(dm_contacts_listed);
  }
  [[nodiscard]] std::vector<dm_shape_id> region(const dm_box &bounds) const {
    std::size_t count = 0;
    must(dm_region(&held, &bounds, &count));
    return all<dm_shape_id>(dm_region_found);
  }
  // What is seen of a body; nothing where the id names none.
  [[nodiscard]] std::optional<dm_view> body(body_id body) const {
    dm_view view{};
    const dm_status status = dm_body(&held, body.handle(), &view);
    if (status == DM_STALE_HANDLE) return std::nullopt;
    must(status);
    return view;
  }
  // The velocity and the spin of a body, whatever its kind; nothing where the id names none.
  [[nodiscard]] std::optional<dm_course> motion(body_id body) const {
    dm_course course{};
    const dm_status status = dm_motion(&held, body.handle(), &course);
    if (status == DM_STALE_HANDLE) return std::nullopt;
    must(status);
    return course;
  }
  // The first shape on the way; nothing where there is none.
  [[nodiscard]] std::optional<dm_hit> ray(dm_vec from, dm_vec along) const {
    dm_hit hit{};
    must(dm_ray(&held, from, along, &hit));
    return hit.is_hit ? std::optional<dm_hit>(hit) : std::nullopt;
  }
  // Those through a filter: the shapes of one body aren't seen, or those alone of some categories.
  [[nodiscard]] std::optional<dm_hit> ray(dm_vec from, dm_vec along, const dm_filter &filter) const {
    dm_hit hit{};
    must(dm_ray_through(&held, from, along, &filter, &hit));
    return hit.is_hit ? std::optional<dm_hit>(hit) : std::nullopt;
  }
  // What the ray hits of one shape, as it lies now: the point and the normal of a hit. Nothing where it misses, or where there is no such shape.
  [[nodiscard]] std::optional<dm_shape_hit> ray_on(dm_shape_id shape, dm_vec from, dm_vec along) const {
    dm_shape_hit hit{};
    const dm_status status = dm_ray_on_shape(&held, from, along, shape, &hit);
    if (status != DM_STALE_HANDLE) must(status);
    return hit.is_hit ? std::optional<dm_shape_hit>(hit) : std::nullopt;
  }
  // All hits on the way, the nearest first. A way of {0, 0} hits the shapes that the start lies in.
  [[nodiscard]] std::vector<dm_hit> all_hits(dm_vec from, dm_vec along, const dm_filter &filter = {}) const {
    std::size_t count = 0;
    must(dm_ray_all(&held, from, along, &filter, &count));
    return all<dm_hit>(dm_hits_found);
  }
  [[nodiscard]] std::vector<dm_shape_id> region(const dm_box &bounds, const dm_filter &filter) const {
    std::size_t count = 0;
    must(dm_region_through(&held, &bounds, &filter, &count));
    return all<dm_shape_id>(dm_region_found);
  }
  // What a body is: its kind, its mass, how many shapes it has, its island; nothing where the id names none.
  [[nodiscard]] std::optional<dm_body_info> info(body_id body) const {
    dm_body_info info{};
    const dm_status status = dm_info(&held, body.handle(), &info);
    if (status == DM_STALE_HANDLE) return std::nullopt;
    must(status);
    return info;
  }
  [[nodiscard]] std::vector<dm_shape> shapes(body_id body) const { return all_of<dm_shape>(body, dm_shapes); }
  [[nodiscard]] std::vector<dm_contact> contacts(body_id body) const { return all_of<dm_contact>(body, dm_contacts_of); }
  // The colour of a contact while it acts, 0 to 23, or 24 in the overflow.
  [[nodiscard]] std::optional<std::uint32_t> colour_of(const dm_pair &pair) const {
    const std::uint32_t colour = dm_colour_of(&held, pair.first, pair.second);
    return colour == DM_NO_COLOUR ? std::nullopt : std::optional<std::uint32_t>(colour);
  }
  [[nodiscard]] std::vector<joint_id> joints(body_id body) const {
    const std::vector<dm_handle> handles = all_of<dm_handle>(body, dm_joints_of);
    return {handles.begin(), handles.end()};
  }
  [[nodiscard]] std::vector<joint_id> joints() const {
    const std::vector<dm_handle> handles = all<dm_handle>(dm_joints);
    return {handles.begin(), handles.end()};
  }
  // Its ends, its anchors, its length, its impulse and its colour; nothing where the id names none.
  [[nodiscard]] std::optional<dm_joint_view> joint(joint_id joint) const {
    dm_joint_view view{};
    const dm_status status = dm_joint(&held, joint.handle(), &view);
    if (status == DM_STALE_HANDLE) return std::nullopt;
    must(status);
    return view;
  }
  // The id of what is in a slot, as an event has it; one that names nothing where there is none.
  [[nodiscard]] body_id body_in(std::uint32_t slot) const { return dm_body_in(&held, slot); }
  [[nodiscard]] joint_id joint_in(std::uint32_t slot) const { return dm_joint_in(&held, slot); }
  [[nodiscard]] dm_counts count() const {
    dm_counts counts{};
    must(dm_count(&held, &counts));
    return counts;
  }
  // What a cause (`DM_BY_GRAVITY` and its like), or what all have given the movers.
  [[nodiscard]] dm_sum total_of(std::uint32_t cause) const {
    dm_sum sum{};
    must(dm_total_of(&held, cause, &sum));
    return sum;
  }
  [[nodiscard]] dm_sum total() const {
    dm_sum sum{};
    must(dm_total(&held, &sum));
    return sum;
  }
  [[nodiscard]] std::uint64_t steps() const { return dm_steps(&held); }
  [[nodiscard]] dm_vec gravity() const { return dm_gravity(&held); }

  // What it shows now, for readers in other threads.
  [[nodiscard]] frame take_frame() const {
    frame made;
    must(dm_frame_take(&held, &made.held));
    return made;
  }

  // The world as JSON.
  [[nodiscard]] std::string save() const {
    std::size_t bytes = 0;
    must(dm_save(&held, &bytes));
    std::string text(bytes, '\0');
    dm_saved(&held, reinterpret_cast<std::uint8_t *>(&text[0]), bytes);
    return text;
  }
  // Worlds with the same lists, counts and totals have the same digest.
  [[nodiscard]] std::array<std::uint8_t, DM_DIGEST_SIZE> digest() const {
    std::array<std::uint8_t, DM_DIGEST_SIZE> bytes{};
    must(dm_digest(&held, bytes.data(), bytes.size()));
    return bytes;
  }

 private:
  world() = default;
  static void test_version() {
    if (dm_version() == DM_VERSION) return;
    std::fputs("libdillmonth is of another version than dillmonth.h\n", stderr);
    std::abort();
  }
  static const std::uint8_t *bytes_of(const std::string &text) { return reinterpret_cast<const std::uint8_t *>(text.data()); }
  // An address for a list that may be empty.
  template <class T> static const T *some(const std::vector<T> &items) {
    static const T none{};
    return items.empty() ? &none : items.data();
  }
  template <class T> static T *some(std::vector<T> &items) {
    static thread_local T none{};
    return items.empty() ? &none : items.data();
  }
  template <class T> void fill(std::vector<T> &items, std::size_t (*read)(const dm_world *, T *, std::size_t)) const {
    if (items.size() < 32) items.resize(32);
    const std::size_t count = read(&held, items.data(), items.size());
    if (count > items.size()) {
      items.resize(count);
      read(&held, items.data(), items.size());
    }
    items.resize(count);
  }
  template <class T> std::vector<T> all(std::size_t (*read)(const dm_world *, T *, std::size_t)) const {
    std::vector<T> items;
    fill(items, read);
    return items;
  }
  // What a body has.
  template <class T> std::vector<T> all_of(body_id body, dm_status (*read)(const dm_world *, dm_handle, T *, std::size_t, std::size_t *)) const {
    std::vector<T> items(32);
    std::size_t count = 0;
    must(read(&held, body.handle(), items.data(), items.size(), &count));
    if (count > items.size()) {
      items.resize(count);
      must(read(&held, body.handle(), items.data(), items.size(), &count));
    }
    items.resize(count);
    return items;
  }
  std::vector<body_id> ids(std::size_t (*read)(const dm_world *, dm_handle *, std::size_t)) const {
    const std::vector<dm_handle> handles = all<dm_handle>(read);
    return {handles.begin(), handles.end()};
  }
  // (a call that only looks writes to the struct too, for as long as it lasts)
  mutable dm_world held{};
};

// ---- a journal ----

// The calls that a world accepted since it was opened, from which it can be made again: each command of the world goes by `apply`.
class journal {
 public:
  // Of this world, which is opened anew with this gravity.
  journal(world &of, dm_vec gravity) { must(dm_journal_open(&held, of.get(), gravity)); }
  journal(journal &&other) noexcept : held(std::exchange(other.held, dm_journal{})) {}
  journal &operator=(journal &&other) noexcept {
    if (this != &other) {
      dm_journal_close(&held);
      held = std::exchange(other.held, dm_journal{});
    }
    return *this;
  }
  journal(const journal &) = delete;
  journal &operator=(const journal &) = delete;
  ~journal() { dm_journal_close(&held); }

  // Applies a command, and keeps it where it is accepted. The answer has the status, and what was made.
  dm_answer apply(world &of, const dm_command &command, const std::vector<dm_shape> &shapes = {}) {
    dm_answer answer{};
    dm_command whole = command;
    whole.shapes_count = static_cast<std::uint32_t>(shapes.size());
    static_cast<void>(dm_journal_apply(&held, of.get(), &whole, shapes.data(), &answer));
    return answer;
  }
  // A world with the same digest.
  [[nodiscard]] world replay() const {
    world made = world(held.gravity);
    must(dm_journal_replay(&held, made.get()));
    return made;
  }
  // Its commands and their shapes, as `apply_all` takes them.
  [[nodiscard]] std::vector<dm_command> commands() const { return {held.commands, held.commands + held.commands_len}; }
  [[nodiscard]] std::vector<dm_shape> shapes() const { return {held.shapes, held.shapes + held.shapes_len}; }

 private:
  dm_journal held{};
};

} // namespace dm

template <> struct std::hash<dm_handle> {
  std::size_t operator()(dm_handle handle) const noexcept { return std::hash<std::uint64_t>()(dm_pack(handle)); }
};
template <class Named> struct std::hash<dm::id<Named>> {
  std::size_t operator()(dm::id<Named> id) const noexcept { return std::hash<std::uint64_t>()(id.packed()); }
};
#endif
