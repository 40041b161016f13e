/* dillmonth.h: a world of rigid bodies in whole numbers, for C, C++ and whatever calls C.
 *
 * Link libdillmonth.a, or .so: dist/ has it built, and bindings/build builds it. docs/EMBEDDING_C.md tells more.
 *
 * A call does all of what it says, or answers a status other than 0 and has changed nothing that it was given (but *clause of
 * dm_load). No call prints, keeps a pointer that it was passed, ends the process, starts a thread or takes a lock. The library has no state of its own.
 *
 * What a caller owes; nothing checks it:
 *   1. A dm_world begins as DM_NONE (all bytes 0), or by dm_new, and only this library writes it. It may be moved, as by memcpy, if the
 *      old bytes aren't used any more. Two copies of one that are both used are a double free. Close it at the end.
 *   2. One call at a time for each world. A world may go from thread to thread, ordered by a lock, a join or the like. Worlds of
 *      their own need no order: so a program uses several threads by a world each. No call from a signal handler, nor in the forked
 *      child of a process with threads.
 *   3. Each pointer is good for its type and count, and isn't null. An array with the count 0 may be NULL: proofs speak of an address, and tests of
 *      each call show this. What a call writes overlaps nothing else that it was passed. dm_copy gets two worlds.
 *   4. malloc, realloc and free are of one allocator, and align as C says.
 *   5. A call has 256 KB of stack (EMBEDDING_C.md).
 *   6. An object of type dm_world isn't const, also where a call takes a const dm_world *: such a call changes nothing that another one can
 *      tell, and yet writes to the struct for a while. So it is one call at a time for these too.
 *   7. A dm_frame begins as DM_NO_FRAME, and only dm_frame_take and dm_frame_drop write it. What 1 to 5 say of worlds holds for these two calls. No
 *      call reads a frame that was dropped.
 *
 * A step by workers isn't here: a library for C may neither start a thread nor take a lock.
 *
 * Numbers: lengths in u (2^20 u are a metre), velocities in u/tick (with 240 ticks a second a step of 4 is a frame of 60), masses as the
 * caller likes, momenta and impulses in mass*u/tick, angular momenta in mass*u^2/tick, cosines and sines times 2^30, friction and restitution
 * in 256ths. docs/UNITS.md helps.
 */
#ifndef DILLMONTH_H
#define DILLMONTH_H
#include <stddef.h>
#include <stdint.h>
#ifdef __cplusplus
extern "C" {
#endif

/* An answer that isn't to be dropped: without it nobody knows whether what a pointer names was written. */
#if (defined(__cplusplus) && __cplusplus >= 201703L) || (defined(__STDC_VERSION__) && __STDC_VERSION__ >= 202311L)
#define DM_KEEP [[nodiscard]]
#elif defined(__GNUC__)
#define DM_KEEP __attribute__((warn_unused_result))
#else
#define DM_KEEP
#endif

#define DM_VERSION 1
uint32_t dm_version(void); /* DM_VERSION of the library that is linked: compare it once */

/* ---- statuses ---- */
enum {
  DM_DONE = 0,
  /* refusals of the world, with the numbers that scripts have (docs/SCRIPT.md) */
  DM_NO_MEMORY = 1,
  DM_STALE_HANDLE = 2,     /* the id names nothing that lives */
  DM_TOO_MANY = 3,         /* no slot can be given out */
  DM_BAD_SHAPE = 4,        /* no shape or more than eight, or one that isn't allowed */
  DM_OUT_OF_RANGE = 5,     /* a number outside its limit; an `unused` that isn't 0 */
  DM_NOT_A_MOVER = 6,      /* the body isn't dynamic */
  DM_SAME_BODY = 7,        /* both ends of a joint are one body */
  DM_BODY_DISABLED = 8,
  DM_TOO_FAST = 9,         /* a momentum would come beyond its limit */
  DM_WORN_OUT = 10,        /* 2^40 calls were accepted */
  DM_BAD_FILE = 12,        /* a saved world breaks a clause of its format */
  DM_NOT_KINEMATIC = 15,
  /* those of this boundary */
  DM_NO_WORLD = 32,        /* the dm_world holds none */
  DM_BAD_KIND = 33,        /* a kind or a form that is none */
  DM_BAD_SPAN = 34,        /* a command of a batch names shapes beyond those of the batch */
  DM_BAD_TEXT = 35         /* no text in UTF-8, or no JSON */
};
typedef uint32_t dm_status;

/* ---- values. `unused` is 0 in what a call answers. In what a call is given it has to be 0: else the call answers 5, also where there is no world ---- */
typedef struct { void *at; } dm_world;
#define DM_NONE { 0 }

typedef struct { int64_t x, y; } dm_vec;
typedef struct { int64_t c, s; } dm_rot;                  /* upright: { 1 << 30, 0 } */
typedef struct { uint32_t slot, generation; } dm_handle;  /* the id of a body or of a joint; { 0, 0 } names nothing, ever. It holds numbers
  * alone: an id of another world, or of a joint where a body's is wanted, means what has these numbers here */
typedef struct { uint32_t slot, index; } dm_shape_id;     /* the slot of its body, and its place among the body's shapes */
typedef struct { dm_shape_id first, second; } dm_pair;    /* two shapes, the lesser first */
typedef struct { dm_vec lo, hi; } dm_box;

enum { DM_CIRCLE = 0, DM_CAPSULE = 1, DM_SEGMENT = 2 };   /* dm_shape.form; segments are for static bodies */
enum { DM_STATIC = 0, DM_KINEMATIC = 1, DM_DYNAMIC = 2 }; /* dm_body_def.kind */
enum { DM_SET_STATIC = 0, DM_SET_DISABLED = 1, DM_SET_AWAKE = 2, DM_SET_ASLEEP = 3 };

typedef struct {
  uint32_t form;
  int32_t group;             /* equal groups other than 0 decide: a positive one collides, a negative one doesn't */
  dm_vec first, second;      /* from the body's centre; a circle has its centre in `first` */
  int64_t radius;            /* of a segment it isn't read */
  int64_t friction, restitution;
  uint64_t category, mask;   /* else the mask of each has to meet the category of the other */
} dm_shape;                  /* 80 bytes */

typedef struct {
  uint32_t kind, unused;
  dm_vec at;
  dm_rot facing;
  int64_t mass, inertia;     /* of a dynamic body; of others they aren't read */
  dm_vec velocity;           /* of a kinematic body; of others it isn't read, nor is the spin */
  int64_t spin;
} dm_body_def;               /* 80 bytes */

typedef struct {
  dm_handle a, b;
  dm_vec from, to;           /* the anchors, from each body's centre in the body's own axes */
  int64_t length;
  uint32_t collide, unused;  /* 0 where its two bodies don't collide */
} dm_joint_def;              /* 64 bytes */

typedef struct { dm_handle handle; dm_vec at; dm_rot facing; } dm_pose; /* 40 bytes: what a loop that draws needs */

typedef struct {
  dm_pose pose;
  dm_vec p;                  /* the momentum */
  uint64_t l_low;            /* the angular momentum is l_high * 2^64 + l_low */
  int64_t l_high;
  dm_vec velocity;           /* of a kinematic body */
  int64_t spin;
  uint32_t set, island;      /* a sleeper has the name of its island */
  uint64_t tag;              /* of dm_set_tag, or 0 */
} dm_view;                   /* 112 bytes */

typedef struct {
  dm_vec velocity;           /* in u/tick */
  int64_t spin;              /* the tangent of the turn of a tick, times 2^30 */
} dm_course;                 /* 24 bytes */

typedef struct {
  dm_vec offset;             /* from the centre of the first shape's body */
  int64_t separation;        /* below 0 where the shapes overlap */
  int64_t normal_impulse;    /* along the normal, in mass*u/tick */
  int64_t tangent_impulse;   /* across it, of friction */
} dm_contact_point;          /* 40 bytes */

typedef struct {
  dm_pair pair;
  uint32_t points, unused;   /* 0 to 2: without a point the shapes are near and don't touch */
  dm_vec normal;             /* from the first shape to the second, times 2^30 */
  dm_contact_point first, second; /* all zeros where it isn't there */
} dm_contact;                /* 120 bytes */

enum { DM_EVENT_BEGUN = 0, DM_EVENT_ENDED = 1, DM_EVENT_SLEPT = 2, DM_EVENT_WOKE = 3 }; /* dm_event.kind */
typedef struct {
  uint64_t step;             /* the number of the step */
  uint32_t kind, unused;
  dm_handle first, second;   /* the bodies of both shapes; where a body fell asleep or woke, `second` names nothing */
  uint64_t first_tag, second_tag; /* the tags that they had then */
  dm_contact contact;        /* of shapes: as the step left it, so that one that began has the impulses of its first step */
} dm_event;                  /* 168 bytes */

typedef struct {
  uint32_t is_hit;           /* 1 where something was hit */
  uint32_t fraction;         /* how far along the way, in 2^24ths */
  dm_shape_id shape;
} dm_hit;                    /* 16 bytes */

typedef struct {
  uint32_t is_hit;           /* 1 where the shape was hit; else all is 0 */
  uint32_t fraction;         /* how far along the way, in 2^24ths */
  dm_vec point;              /* where */
  dm_vec normal;             /* how the surface faces there: from the shape outwards, times 2^30 */
} dm_shape_hit;              /* 40 bytes */

#define DM_NO_ISLAND UINT32_MAX
#define DM_NO_COLOUR UINT32_MAX
typedef struct {
  uint32_t kind;             /* DM_STATIC, DM_KINEMATIC or DM_DYNAMIC */
  uint32_t enabled;          /* 0 where it is disabled */
  int64_t mass, inertia;     /* 0 but of a dynamic body */
  size_t shapes;             /* how many it has */
  uint32_t island;           /* of a mover, awake or asleep: the island's name, its lowest slot; else DM_NO_ISLAND */
  uint32_t unused;
} dm_body_info;              /* 40 bytes */

typedef struct {
  dm_joint_def def;
  int64_t impulse;           /* that it keeps, in mass*u/tick, above 0 where it pushes its bodies apart */
  uint32_t colour;           /* while it acts, 0 to 23, or 24 in the overflow; else DM_NO_COLOUR */
  uint32_t unused;
} dm_joint_view;             /* 80 bytes */

typedef struct {
  size_t bodies, awake;      /* `awake` counts movers */
  size_t joints;
  size_t contacts, touching; /* `contacts` counts those of near shapes */
  size_t islands;            /* of movers, awake or asleep */
  size_t colours;            /* that some constraint has; the overflow counts as one */
} dm_counts;                 /* 56 bytes */

typedef struct {             /* a sum of impulses, in mass*u/tick: x is x_high * 2^64 + x_low, and y likewise */
  uint64_t x_low;
  int64_t x_high;
  uint64_t y_low;
  int64_t y_high;
} dm_sum;                    /* 32 bytes */

typedef struct {
  dm_handle without;         /* a body whose shapes aren't seen, which has to live; { 0, 0 } leaves nobody out */
  uint64_t mask;             /* the categories that are seen: a shape's has to have a bit in common with it */
  uint32_t by_mask, unused;  /* 0 where each category is seen, and the mask isn't read */
} dm_filter;                 /* 24 bytes; all bytes 0 let each shape through */

/* ---- a world's life ---- */
DM_KEEP dm_status dm_open(dm_world *world, dm_vec gravity);    /* an empty world; what was held is dropped, with all that it kept. 5, 1 */
void dm_close(dm_world *world);                                /* drops it, if there is one; twice is harmless */
DM_KEEP dm_status dm_copy(const dm_world *from, dm_world *to); /* a world of its own, which keeps no list and no text yet; `to` is another dm_world. 32, 1 */
dm_status dm_settle(dm_world *world);                          /* sums up what was booked. 32. See dm_step */

/* ---- commands: one call of the world each. What a pointer names is written only where the status is 0. Each may answer 32 (no world),
 * 10 before all else, and 1 after all else. A body or a joint to be made is read first: so 34, 5 for its `unused` and 33, and 1 where memory is
 * wanting for its shapes, come before these; and so does 1 where memory is wanting for the events of the last step (dm_events_clear). ---- */
DM_KEEP dm_status dm_create_body(dm_world *world, const dm_body_def *def, const dm_shape *shapes, size_t shapes_len, dm_handle *made); /* 33, 4, 5, 3 */
dm_status dm_destroy_body(dm_world *world, dm_handle body);                                   /* with its joints and, untold, its contacts. 2 */
DM_KEEP dm_status dm_create_joint(dm_world *world, const dm_joint_def *def, dm_handle *made); /* 2, 7, 8, 5, 3 */
dm_status dm_destroy_joint(dm_world *world, dm_handle joint);                                 /* 2 */
dm_status dm_push(dm_world *world, dm_handle body, dm_vec by);                                /* an impulse, on a mover, which wakes. 2, 6, 8, 5, 9 */
dm_status dm_push_at(dm_world *world, dm_handle body, dm_vec by, dm_vec offset);              /* at an offset from the centre. 2, 6, 8, 5, 9 */
dm_status dm_set_pose(dm_world *world, dm_handle body, dm_vec at, dm_rot facing);             /* 2, 5 */
dm_status dm_set_velocity(dm_world *world, dm_handle body, dm_vec velocity, int64_t spin);    /* of a kinematic body. 2, 15, 8, 5 */
dm_status dm_set_gravity(dm_world *world, dm_vec gravity);                                    /* 5 */
dm_status dm_disable(dm_world *world, dm_handle body);                                        /* 2, 8 */
dm_status dm_enable(dm_world *world, dm_handle body);                                         /* 2 */
dm_status dm_wake(dm_world *world, dm_handle body);                                           /* 2, 6, 8 */
dm_status dm_sleep(dm_world *world, dm_handle body);                                          /* 2, 6, 8 */
/* These are the commands above, with what a body is and has taken into account. */
dm_status dm_push_to(dm_world *world, dm_handle body, dm_vec velocity);                       /* a mover's velocity, by the push mass * velocity - p. As dm_push */
dm_status dm_twist(dm_world *world, dm_handle body, int64_t by);                              /* an angular impulse, in mass*u^2/tick: a push beside the centre and
  * the opposite one at it. Up to 2^40 it is met, up to 2^60 to the nearest 2^20. 2, 6, 8, 5, 9; 10 and 1 may also come between the two, and the first stays */
dm_status dm_twist_to(dm_world *world, dm_handle body, int64_t spin);                         /* a mover's spin, by the twist inertia * spin / 2^30 - l. As dm_twist */
dm_status dm_set_target(dm_world *world, dm_handle body, dm_vec at, dm_rot facing, int64_t ticks); /* the course that leads a kinematic body to a pose in a
  * step of so many ticks, which it keeps after it: the way by the ticks, and the spin that turns by the angle in them. The place is met to half a u a tick, and
  * the facing as near as a spin comes to it: to some 2^-30 of a turn a tick. 2, 15, 8; 5 also for a quarter of a turn or more */
DM_KEEP dm_status dm_step(dm_world *world, int64_t ticks, uint64_t *step);                    /* 1 to 8 ticks; *step: its number, from 1. 5.
  * A world books what its momentum gains. A program calls dm_settle now and then, as after each step: that takes no memory, and changes
  * nothing that a call answers, nor the digest. Without it up to some hundred bytes are kept for each step. */

/* The same as a batch: for replays, for a network's inputs, for languages in which a call is dear. A refused command changes
 * nothing, and the next one follows. Answers how many were answered: the lesser of the two counts; 0 without a world. */
enum {
  DM_DO_CREATE_BODY = 0,   /* body; its shapes are shapes[shapes_from .. shapes_from + shapes_count] */
  DM_DO_DESTROY_BODY = 1,  /* joint.a is the body, here and in all below */
  DM_DO_CREATE_JOINT = 2,  /* joint */
  DM_DO_DESTROY_JOINT = 3, /* joint.a is the joint */
  DM_DO_PUSH = 4,          /* by */
  DM_DO_PUSH_AT = 5,       /* by, offset */
  DM_DO_SET_POSE = 6,      /* body.at, body.facing */
  DM_DO_SET_VELOCITY = 7,  /* body.velocity, body.spin */
  DM_DO_SET_GRAVITY = 8,   /* by */
  DM_DO_DISABLE = 9,
  DM_DO_ENABLE = 10,
  DM_DO_WAKE = 11,
  DM_DO_SLEEP = 12,
  DM_DO_STEP = 13          /* ticks */
};
typedef struct {
  uint32_t kind, shapes_from, shapes_count, unused;
  dm_body_def body;
  dm_joint_def joint;
  dm_vec by, offset;
  int64_t ticks;
} dm_command;              /* 200 bytes; what a kind doesn't name isn't read */
typedef struct {
  dm_status status;
  uint32_t unused;
  dm_handle made;          /* of a body or a joint that was made */
  uint64_t step;           /* of a step */
} dm_answer;               /* 24 bytes */
size_t dm_apply_all(dm_world *world, const dm_command *commands, size_t commands_len, const dm_shape *shapes, size_t shapes_len,
                    dm_answer *answers, size_t answers_len);

/* ---- reading: nothing changes. Each answers how many there are, and writes the first of them, as many as fit; the rest of `out` stays ---- */
size_t dm_poses(const dm_world *world, dm_pose *out, size_t out_len);           /* of the bodies, by slot */
size_t dm_moved(const dm_world *world, dm_pose *out, size_t out_len);           /* of those that a step may move: awake movers, kinematic bodies */
size_t dm_begun(const dm_world *world, dm_pair *out, size_t out_len);           /* the pairs that began to touch in the last step, ascending */
size_t dm_ended(const dm_world *world, dm_pair *out, size_t out_len);           /* those that ceased to touch */
size_t dm_slept(const dm_world *world, dm_handle *out, size_t out_len);         /* the bodies that fell asleep in the last step, ascending */
size_t dm_woke(const dm_world *world, dm_handle *out, size_t out_len);          /* those that woke */
DM_KEEP dm_status dm_body(const dm_world *world, dm_handle body, dm_view *out); /* 32, 2 */
DM_KEEP dm_status dm_motion(const dm_world *world, dm_handle body, dm_course *out); /* of any body: its velocity and its spin. 32, 2 */
uint64_t dm_steps(const dm_world *world);                                       /* how many steps were accepted */
dm_vec dm_gravity(const dm_world *world);

/* ---- the events of all steps since dm_events_clear, with ids, and with the contact of shapes that began to touch. A world keeps them from the first
 * dm_events_clear on, and until the next. A copy and a loaded world keep none ---- */
dm_status dm_events_clear(dm_world *world, uint32_t keeps);                          /* drops them; from now on those of each step are kept, where `keeps` isn't 0. 32 */
DM_KEEP dm_status dm_events(dm_world *world, dm_event *out, size_t out_len, size_t *count); /* step by step; of a step those that began, ended, slept, woke.
  * They stay. 32, 1 */

/* ---- tags: a number of the program's own for each body, which views and events have. No save and no digest has it; a copy has ---- */
dm_status dm_set_tag(dm_world *world, dm_handle body, uint64_t tag);                 /* 32, 2, 1 */
uint64_t dm_tag(const dm_world *world, dm_handle body);                              /* 0 without one. Also of a body that is gone, until another in its slot gets one */

/* ---- what a body and a joint are: nothing changes. Where a call counts into *count, it writes the first of them, as many as fit ---- */
DM_KEEP dm_status dm_info(const dm_world *world, dm_handle body, dm_body_info *out); /* kind, mass, number of shapes, island. 32, 2 */
DM_KEEP dm_status dm_shapes(const dm_world *world, dm_handle body, dm_shape *out, size_t out_len, size_t *count); /* as dm_create_body takes them. 32, 2 */
DM_KEEP dm_status dm_joints_of(const dm_world *world, dm_handle body, dm_handle *out, size_t out_len, size_t *count); /* of a body, by slot. 32, 2, 1 */
DM_KEEP dm_status dm_contacts_of(const dm_world *world, dm_handle body, dm_contact *out, size_t out_len, size_t *count); /* ascending; all contacts are
  * looked at. 32, 2, 1 */
uint32_t dm_colour_of(const dm_world *world, dm_shape_id first, dm_shape_id second); /* of the contact of two shapes, as its dm_pair has them, while it acts: 0 to 23, 24
  * in the overflow; else DM_NO_COLOUR */
dm_handle dm_body_in(const dm_world *world, uint32_t slot);                          /* the id of the body in a slot, as of an event; else { 0, 0 } */
dm_handle dm_joint_in(const dm_world *world, uint32_t slot);                         /* the same of joints */
size_t dm_joints(const dm_world *world, dm_handle *out, size_t out_len);             /* all joints, by slot: answers how many there are */
DM_KEEP dm_status dm_joint(const dm_world *world, dm_handle joint, dm_joint_view *out); /* its ends, anchors, length, impulse, colour. 32, 2 */

/* ---- how much there is. Nothing changes ---- */
DM_KEEP dm_status dm_count(const dm_world *world, dm_counts *out);                   /* all is looked at. 32, 1 */
enum { DM_BY_COMMANDS = 0, DM_BY_GRAVITY = 1, DM_BY_IMMOVABLE = 2, DM_BY_CLAMP = 3, DM_BY_REST = 4, DM_BY_DEPARTED = 5 };
DM_KEEP dm_status dm_total_of(const dm_world *world, uint32_t cause, dm_sum *out);   /* what a cause has given the movers. 32, 33 */
DM_KEEP dm_status dm_total(const dm_world *world, dm_sum *out);                      /* what all have: the movers' momentum. 32 */
uint32_t dm_rules(void);                                                             /* the number of the rules: peers have to have the same */

/* ---- questions. What takes memory to find is kept in the world, and fetched by a second call. It stays until the next call that keeps its like, or
 * until another world is put in its place: no command, no save and no other question changes it ---- */
DM_KEEP dm_status dm_ray(const dm_world *world, dm_vec from, dm_vec along, dm_hit *out); /* the first shape on the way. 32, 5 */
DM_KEEP dm_status dm_region(dm_world *world, const dm_box *bounds, size_t *count);       /* the shapes over a region. 32, 5, 1 */
size_t dm_region_found(const dm_world *world, dm_shape_id *out, size_t out_len);         /* those that the last dm_region or dm_region_through found, ascending */
DM_KEEP dm_status dm_ray_through(const dm_world *world, dm_vec from, dm_vec along, const dm_filter *filter, dm_hit *out); /* the first that is let
  * through. 32, 5, 2 */
DM_KEEP dm_status dm_ray_all(dm_world *world, dm_vec from, dm_vec along, const dm_filter *filter, size_t *count); /* all that are, a hit for each shape.
  * A way of { 0, 0 } hits the shapes that the start lies in. 32, 5, 2, 1 */
size_t dm_hits_found(const dm_world *world, dm_hit *out, size_t out_len);                /* those of the last dm_ray_all, the nearest first, then by name */
DM_KEEP dm_status dm_ray_on_shape(const dm_world *world, dm_vec from, dm_vec along, dm_shape_id shape, dm_shape_hit *out); /* what the ray hits of one shape, as
  * it lies now: the point and the normal of a hit of these are those of its shape. Where the start lies on a circle's centre or on a capsule's core, the normal
  * is up, or square to the core to its left; a segment's is square to it, to the side of the start. 32, 5, 2 (no shape of an enabled body) */
DM_KEEP dm_status dm_region_through(dm_world *world, const dm_box *bounds, const dm_filter *filter, size_t *count); /* fetched as dm_region's. 32, 5, 2, 1 */
DM_KEEP dm_status dm_contacts(dm_world *world, size_t *count);                           /* the contacts of near shapes. 32, 1 */
size_t dm_contacts_listed(const dm_world *world, dm_contact *out, size_t out_len);       /* those that the last dm_contacts found, ascending */

/* ---- frames. A frame is what a world shows at one moment: the poses and the shapes of its enabled bodies, what all causes gave the movers, and the
 * number of its calls. It is a value of its own, which no later call changes, and outlives the world. Threads may read one at once, with no lock, also
 * while the world steps: a read writes nothing to it. A dm_frame may be copied for that; all its copies name one frame, which is dropped once, by one of
 * them, when nobody reads it any more. A dm_frame is passed by value ---- */
typedef struct { void *at; } dm_frame;
#define DM_NO_FRAME { 0 }
DM_KEEP dm_status dm_frame_take(const dm_world *world, dm_frame *frame);                 /* what was held is dropped. A call of the world. 32, 1 */
void dm_frame_drop(dm_frame *frame);                                                     /* drops it, if there is one; twice is harmless */
DM_KEEP dm_status dm_frame_pose(dm_frame frame, dm_handle body, dm_pose *out);           /* of an enabled body. 32 (no frame), 2 */
DM_KEEP dm_status dm_frame_ray(dm_frame frame, dm_vec from, dm_vec along, dm_hit *out);  /* as dm_ray; it looks at each shape. 32, 5 */
DM_KEEP dm_status dm_frame_region(dm_frame frame, const dm_box *bounds, dm_shape_id *out, size_t out_len, size_t *count); /* as dm_region, and written at once,
  * as many as fit; it looks at each shape. 32, 5, 1 */
DM_KEEP dm_status dm_frame_total(dm_frame frame, dm_sum *out);                           /* as dm_total. 32 */
uint64_t dm_frame_calls(dm_frame frame);                                                 /* how many calls were accepted; 0 without a frame */

/* ---- keeping ---- */
DM_KEEP dm_status dm_save(dm_world *world, size_t *bytes);                                          /* the world as JSON, kept in it. 32, 1 */
size_t dm_saved(const dm_world *world, uint8_t *out, size_t out_len);                               /* the text of the last dm_save */
DM_KEEP dm_status dm_load(dm_world *world, const uint8_t *text, size_t text_len, uint32_t *clause); /* 35, 12, 1. It keeps no list and no
  * text yet. *clause is written always: the number of the broken clause where 12 is answered, else 0 */
#define DM_DIGEST_SIZE 32
DM_KEEP dm_status dm_digest(const dm_world *world, uint8_t *out, size_t out_len); /* docs/WORLD.md says of what. 32, 1 */

#ifdef __cplusplus
}
#endif

#include "dillmonth_inline.h" /* defaults, units, ids and texts, which aren't calls of the library */
#endif
