/* dillmonth_inline.h: defaults, units, ids and texts for dillmonth.h, which includes this file. Nothing here is in the library.
 *
 * A number of metres, seconds, kilograms or degrees becomes a whole number by one rounding, to the nearest and halves away from zero. No sum or
 * product is rounded twice, and no call of the mathematical library is made. So peers that call these with the same numbers get the same ones.
 * What is too large for 64 bits becomes the greatest or the least number, which the world refuses.
 *
 * `rate` is how many ticks a second has. A world doesn't know it, so a program takes one and keeps to it: DM_RATE is that of the pages.
 */
#ifndef DILLMONTH_INLINE_H
#define DILLMONTH_INLINE_H
#include "dillmonth.h"

#define DM_RATE 240                    /* ticks a second: a frame of 60 a second is four steps of one tick */
#define DM_METRE ((int64_t)1 << 20)    /* u */
#define DM_ONE ((int64_t)1 << 30)      /* a cosine or a sine of 1 */
#define DM_KILOGRAM ((int64_t)256)     /* the unit of mass is free, and this is the choice of these helpers: masses from 4 g to 4,096 kg */
#define DM_ALL UINT64_MAX              /* a mask that meets each category */

/* ---- ids ---- */

static const dm_handle DM_NOBODY = {0, 0}; /* names no body and no joint, ever */

static inline int dm_same(dm_handle a, dm_handle b) { return a.slot == b.slot && a.generation == b.generation; }
static inline uint64_t dm_pack(dm_handle id) { return (uint64_t)id.generation << 32 | id.slot; }
static inline dm_handle dm_unpack(uint64_t packed) {
  dm_handle id = {(uint32_t)packed, (uint32_t)(packed >> 32)};
  return id;
}

/* ---- statuses ---- */

/* What a status means, in words: for a log. */
static inline const char *dm_status_text(dm_status status) {
  switch (status) {
    case DM_DONE: return "done";
    case DM_NO_MEMORY: return "there is no memory";
    case DM_STALE_HANDLE: return "the id names nothing that lives";
    case DM_TOO_MANY: return "no slot can be given out";
    case DM_BAD_SHAPE: return "no shape or more than eight, or one that isn't allowed";
    case DM_OUT_OF_RANGE: return "a number is outside its limit";
    case DM_NOT_A_MOVER: return "the body isn't dynamic";
    case DM_SAME_BODY: return "both ends of the joint are one body";
    case DM_BODY_DISABLED: return "the body is disabled";
    case DM_TOO_FAST: return "the momentum would come beyond its limit";
    case DM_WORN_OUT: return "the world has accepted all the calls that it may";
    case DM_BAD_FILE: return "the saved world breaks a clause of its format";
    case DM_NOT_KINEMATIC: return "the body isn't kinematic";
    case DM_NO_WORLD: return "there is no world";
    case DM_BAD_KIND: return "a kind or a form that is none";
    case DM_BAD_SPAN: return "the command names shapes beyond those of the batch";
    case DM_BAD_TEXT: return "the bytes are no text in UTF-8, or no JSON";
    default: return "a status that is none";
  }
}

/* ---- a world's life ---- */

/* The usual way to begin: `world` may hold anything before, also what was never written, and it isn't dropped. */
DM_KEEP static inline dm_status dm_new(dm_world *world, dm_vec gravity) {
  world->at = NULL;
  return dm_open(world, gravity);
}
DM_KEEP static inline dm_status dm_new_copy(dm_world *world, const dm_world *from) {
  world->at = NULL;
  return dm_copy(from, world);
}
DM_KEEP static inline dm_status dm_new_load(dm_world *world, const uint8_t *text, size_t text_len, uint32_t *clause) {
  world->at = NULL;
  return dm_load(world, text, text_len, clause);
}

/* A step of 1 to 8 ticks, after which what was booked is summed up: the usual way to let time pass. The events are those of this step. */
DM_KEEP static inline dm_status dm_advance(dm_world *world, int64_t ticks) {
  uint64_t step = 0;
  dm_status status = dm_step(world, ticks, &step);
  if (status == DM_DONE) status = dm_settle(world);
  return status;
}

/* ---- questions ---- */

/* Where a ray that began at `from` hit something: `along` times the fraction, in 2^24ths, to the nearest. */
static inline int64_t dm_part(int64_t way, uint32_t fraction) {
  int64_t product = way * (int64_t)fraction; /* a way is within 2^28, and a fraction within 2^24 */
  return (product + (product < 0 ? -((int64_t)1 << 23) : (int64_t)1 << 23)) / ((int64_t)1 << 24);
}
static inline dm_vec dm_hit_point(dm_vec from, dm_vec along, dm_hit hit) {
  dm_vec point;
  point.x = from.x + dm_part(along.x, hit.fraction);
  point.y = from.y + dm_part(along.y, hit.fraction);
  return point;
}

/* ---- units ---- */

static inline int64_t dm_nearest(double value) {
  int64_t whole;
  double rest;
  if (!(value > -9.2e18)) return INT64_MIN; /* what is no number too */
  if (value > 9.2e18) return INT64_MAX;
  whole = (int64_t)value;
  rest = value - (double)whole;
  return whole + (rest >= 0.5) - (rest <= -0.5);
}

static inline int64_t dm_metres(double metres) { return dm_nearest(metres * 1048576.0); }
static inline dm_vec dm_at(double x, double y) {
  dm_vec at = {dm_metres(x), dm_metres(y)};
  return at;
}
static inline int64_t dm_kilograms(double kilograms) { return dm_nearest(kilograms * 256.0); }
static inline int64_t dm_share(double share) { return dm_nearest(share * 256.0); } /* of friction and restitution */
static inline int64_t dm_ticks(double seconds, int rate) { return dm_nearest(seconds * rate); }
static inline int64_t dm_speed(double metres_a_second, int rate) { return dm_nearest(metres_a_second * 1048576.0 / rate); }
static inline dm_vec dm_velocity(double x, double y, int rate) { /* metres a second */
  dm_vec velocity = {dm_speed(x, rate), dm_speed(y, rate)};
  return velocity;
}
static inline dm_vec dm_gravity_of(double x, double y, int rate) { /* metres a second a second */
  double square = (double)rate * rate;
  dm_vec gravity = {dm_nearest(x * 1048576.0 / square), dm_nearest(y * 1048576.0 / square)};
  return gravity;
}
/* The push that gives a body of this mass so much of a velocity, which is in metres a second. */
static inline dm_vec dm_push_of(int64_t mass, double x, double y, int rate) {
  dm_vec by = {dm_nearest((double)mass * (x * 1048576.0) / rate), dm_nearest((double)mass * (y * 1048576.0) / rate)};
  return by;
}
static inline int64_t dm_spin_of(double degrees_a_second, int rate) { return dm_nearest(degrees_a_second * 18740330.145169 / rate); } /* 2^30·π/180 */
static inline double dm_in_metres(int64_t u) { return (double)u / 1048576.0; }

/* An eighth of a turn times `part`, which is in 2^31sts: its cosine or, where `is_sine`, its sine, in 2^32nds. By Taylor's series. */
static inline uint64_t dm_eighth(uint64_t part, int is_sine) {
  static const uint64_t cosine[] = {4294967296u, 1324675879, 68093890, 1400124, 15423, 106}; /* (π/4)^n / n! in 2^32nds, n even */
  static const uint64_t sine[] = {3373259426u, 346799334, 10696163, 157094, 1346, 8};        /* n odd */
  const uint64_t *terms = is_sine ? sine : cosine;
  uint64_t square = (part * part) >> 31, sum = terms[5];
  int n;
  for (n = 4; n >= 0; n--) sum = terms[n] - ((sum * square) >> 31);
  return is_sine ? (sum * part) >> 31 : sum;
}

/* The facing of a turn by so many degrees, counterclockwise: each part is the nearest whole number or next to it. Beyond a million turns it is
 * {0, 0}, which is refused. */
static inline dm_rot dm_degrees(double degrees) {
  const int64_t eighth = (int64_t)45 << 32;
  dm_rot facing = {0, 0};
  int64_t angle, quarter, rest, c, s;
  uint64_t part;
  if (!(degrees > -3.6e8 && degrees < 3.6e8)) return facing;
  angle = (int64_t)(degrees * 4294967296.0) % (8 * eighth); /* the product is exact, and what is beyond 2^-32 degrees is cut off */
  if (angle < 0) angle += 8 * eighth;
  quarter = (angle + eighth) / (2 * eighth);
  rest = angle - quarter * 2 * eighth;
  part = ((uint64_t)(rest < 0 ? -rest : rest) + 45) / 90;
  c = (int64_t)((dm_eighth(part, 0) + 2) >> 2);
  s = (int64_t)((dm_eighth(part, 1) + 2) >> 2);
  if (rest < 0) s = -s;
  switch (quarter & 3) {
    case 0: facing.c = c; facing.s = s; break;
    case 1: facing.c = -s; facing.s = c; break;
    case 2: facing.c = -c; facing.s = -s; break;
    default: facing.c = s; facing.s = -c; break;
  }
  return facing;
}

/* ---- definitions that are valid as they are made: upright, of category 1, meeting all, without friction and restitution ---- */

static inline dm_shape dm_shape_of(uint32_t form, dm_vec first, dm_vec second, int64_t radius) {
  dm_shape shape = {0, 0, {0, 0}, {0, 0}, 0, 0, 0, 1, DM_ALL};
  shape.form = form;
  shape.first = first;
  shape.second = second;
  shape.radius = radius;
  return shape;
}
/* About the body's centre. */
static inline dm_shape dm_circle_shape(int64_t radius) { return dm_shape_of(DM_CIRCLE, dm_at(0, 0), dm_at(0, 0), radius); }
static inline dm_shape dm_capsule_shape(dm_vec first, dm_vec second, int64_t radius) { return dm_shape_of(DM_CAPSULE, first, second, radius); }
static inline dm_shape dm_segment_shape(dm_vec first, dm_vec second) { return dm_shape_of(DM_SEGMENT, first, second, 0); }

typedef struct { int64_t mass, inertia; } dm_mass_data;

static inline dm_body_def dm_def_of(uint32_t kind, dm_vec at) {
  dm_body_def def = {0, 0, {0, 0}, {DM_ONE, 0}, 0, 0, {0, 0}, 0};
  def.kind = kind;
  def.at = at;
  return def;
}
static inline dm_body_def dm_static_def(dm_vec at) { return dm_def_of(DM_STATIC, at); }
static inline dm_body_def dm_kinematic_def(dm_vec at, dm_vec velocity) {
  dm_body_def def = dm_def_of(DM_KINEMATIC, at);
  def.velocity = velocity;
  return def;
}
static inline dm_body_def dm_dynamic_def(dm_vec at, dm_mass_data mass) {
  dm_body_def def = dm_def_of(DM_DYNAMIC, at);
  def.mass = mass.mass;
  def.inertia = mass.inertia;
  return def;
}
/* From centre to centre. Its two bodies don't collide. */
static inline dm_joint_def dm_joint_def_of(dm_handle a, dm_handle b, int64_t length) {
  dm_joint_def def = {{0, 0}, {0, 0}, {0, 0}, {0, 0}, 0, 0, 0};
  def.a = a;
  def.b = b;
  def.length = length;
  return def;
}
/* A body of one shape. */
DM_KEEP static inline dm_status dm_add_body(dm_world *world, dm_body_def def, dm_shape shape, dm_handle *made) {
  return dm_create_body(world, &def, &shape, 1, made);
}

/* ---- mass and inertia by density, which is mass a square metre: 256 is a kilogram a square metre. By the formulas of the preset bodies
 * (plain_world/Presets), with 355/113 for π. {0, 0}, which no dynamic body may have, where the radius or half the length is beyond 2^24 u, the density
 * beyond 32 bits, the mass not 1 to 2^20, or the inertia beyond 2^60. ---- */
#ifdef __SIZEOF_INT128__
__extension__ typedef unsigned __int128 dm_wide;

static inline dm_mass_data dm_mass_within(dm_wide mass, dm_wide twice_over, dm_wide under) {
  dm_mass_data none = {0, 0}, data;
  dm_wide inertia;
  if (mass < 1 || mass > (1 << 20)) return none;
  inertia = (mass * twice_over + under) / (2 * under);
  if (inertia > (dm_wide)1 << 60) return none;
  data.mass = (int64_t)mass;
  data.inertia = (int64_t)inertia;
  return data;
}
static inline int dm_fits(int64_t length, int64_t density) { return length >= 0 && length <= 1 << 24 && density >= 0 && density <= UINT32_MAX; }

/* A disc: density·π·r², and mass·r²/2. */
static inline dm_mass_data dm_circle_mass(int64_t radius, int64_t density) {
  dm_mass_data none = {0, 0};
  const dm_wide under = (dm_wide)113 << 40;
  dm_wide square;
  if (!dm_fits(radius, density)) return none;
  square = (dm_wide)radius * (dm_wide)radius;
  return dm_mass_within((2 * (355 * (dm_wide)density * square) + under) / (2 * under), 2 * square, 2);
}
/* A capsule whose core is `half` long to either side of the body's centre: density·(4·r·h + π·r²), and
 * mass·(8·h·(h² + 3·r²) + 3·π·r·(r² + 2·h²)) / (6·(4·h + π·r)). */
static inline dm_mass_data dm_capsule_mass(int64_t half, int64_t radius, int64_t density) {
  dm_mass_data none = {0, 0};
  const dm_wide under = (dm_wide)113 << 40;
  dm_wide h, r, girth, bulk, weight;
  if (!dm_fits(half, density) || !dm_fits(radius, density) || radius < 1) return none;
  h = (dm_wide)half;
  r = (dm_wide)radius;
  girth = 452 * h + 355 * r;
  bulk = 904 * h * (h * h + 3 * r * r) + 1065 * r * (r * r + 2 * h * h);
  weight = r * girth;
  weight *= (uint64_t)density;
  return dm_mass_within((2 * weight + under) / (2 * under), 2 * bulk, 6 * girth);
}
#endif

#endif
