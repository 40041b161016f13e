/* A pinball table in C, which plays itself for twenty seconds and prints what is to be heard, while two threads draw it.
 *
 *     cc bindings/c/pinball.c -Ibindings/c bindings/out/libdillmonth.a -pthread -o pinball && ./pinball
 *
 * It shows what a game needs beside falling bodies: flippers that are led to an angle, bumpers that kick, sounds as loud as the blow, a ray that doesn't see its
 * own ball, and pictures that other threads draw while the world goes on. The table is 6 metres wide and 10 high.
 */
#include "dillmonth.h"
#include <pthread.h>
#include <stdio.h>
#include <stdlib.h>
#include <string.h>

enum { FRAMES = 1200, STEPS = 4, SLOTS = 8 };                   /* 60 frames a second, each of 4 steps of one tick */
enum { NOTHING, BALL, WALL, BUMPER, FLIPPER };                  /* the tags of the bodies */
static const char *const names[] = {"nothing", "the ball", "the wall", "a bumper", "a flipper"};
static const char marks[] = " O#*=";                            /* of each in a picture */

typedef struct {
  dm_handle body;
  dm_vec pivot;
  double rest, up, angle;                                       /* in degrees */
  int held;                                                     /* for how many frames its button is still down */
} flipper_t;

typedef struct {
  dm_world world;
  dm_handle ball;
  int64_t mass;                                                 /* of the ball */
  flipper_t flippers[2];
  int tags[SLOTS];                                              /* by the body's slot, for the threads that draw, which can't ask the world */
  int score, lost;
} game_t;

static void must(dm_status status) {
  if (status == DM_DONE) return;
  fprintf(stderr, "the world refused: %s\n", dm_status_text(status));
  exit(1);
}

/* ---- the table ---- */

static dm_handle add(game_t *game, int tag, dm_body_def def, const dm_shape *shapes, size_t count) {
  dm_handle made = DM_NOBODY;
  must(dm_create_body(&game->world, &def, shapes, count, &made));
  must(dm_set_tag(&game->world, made, (uint64_t)tag));
  game->tags[made.slot] = tag;
  return made;
}

/* One body with a segment from each corner to the next. */
static void add_wall(game_t *game) {
  static const double corners[8][2] = {{-1.6, 2.1}, {-3, 3}, {-3, 9}, {-2, 10}, {2, 10}, {3, 9}, {3, 3}, {1.6, 2.1}};
  dm_shape sides[7];
  for (int i = 0; i < 7; i++) {
    sides[i] = dm_segment_shape(dm_at(corners[i][0], corners[i][1]), dm_at(corners[i + 1][0], corners[i + 1][1]));
    sides[i].restitution = dm_share(0.4);
  }
  add(game, WALL, dm_static_def(dm_at(0, 0)), sides, 7);
}

static void add_bumper(game_t *game, double x, double y) {
  dm_shape disc = dm_circle_shape(dm_metres(0.5));
  disc.restitution = dm_share(0.5);
  add(game, BUMPER, dm_static_def(dm_at(x, y)), &disc, 1);
}

/* A flipper turns about its body's centre, from which its arm reaches to one side. */
static void add_flipper(game_t *game, flipper_t *flipper, double x, double reach, double rest) {
  dm_shape arm = dm_capsule_shape(dm_at(0, 0), dm_at(reach, 0), dm_metres(0.12));
  dm_body_def def = dm_kinematic_def(dm_at(x, 2), dm_at(0, 0));
  arm.friction = dm_share(0.3);
  def.facing = dm_degrees(rest);
  flipper->pivot = def.at;
  flipper->rest = flipper->angle = rest;
  flipper->up = -rest;
  flipper->body = add(game, FLIPPER, def, &arm, 1);
}

static void make_table(game_t *game) {
  dm_shape disc = dm_circle_shape(dm_metres(0.2));
  dm_mass_data mass = dm_circle_mass(disc.radius, 20 * DM_KILOGRAM);
  must(dm_new(&game->world, dm_gravity_of(0, -4, DM_RATE)));    /* the table leans */
  must(dm_events_clear(&game->world, 1));                       /* from now on events are kept */
  add_wall(game);
  add_bumper(game, -1.2, 7);
  add_bumper(game, 1.3, 6.6);
  add_bumper(game, 0.2, 8.4);
  add_flipper(game, &game->flippers[0], -1.5, 1.1, -30);
  add_flipper(game, &game->flippers[1], 1.5, -1.1, 30);
  game->ball = add(game, BALL, dm_dynamic_def(dm_at(2.5, 4), mass), &disc, 1);
  game->mass = mass.mass;
}

/* Puts the ball where it begins, and gives it a velocity whatever it had before. */
static void shoot(game_t *game) {
  must(dm_set_pose(&game->world, game->ball, dm_at(2.5, 4), dm_degrees(0)));
  must(dm_push_to(&game->world, game->ball, dm_velocity(-0.3 * (game->lost + 1), 8, DM_RATE)));
  must(dm_twist_to(&game->world, game->ball, 0));
}

/* ---- the player ---- */

/* The body that the ball meets in the next tenth of a second, if it goes straight on. The ray begins in the ball: the filter leaves it out. */
static dm_handle ahead(game_t *game) {
  const int64_t ticks = dm_ticks(0.1, DM_RATE);
  dm_filter others = {game->ball, 0, 0, 0};
  dm_view view;
  dm_course course;
  dm_hit hit;
  must(dm_body(&game->world, game->ball, &view));
  must(dm_motion(&game->world, game->ball, &course));
  const dm_vec way = {course.velocity.x * ticks, course.velocity.y * ticks};
  must(dm_ray_through(&game->world, view.pose.at, way, &others, &hit));
  return hit.is_hit ? dm_body_in(&game->world, hit.shape.slot) : DM_NOBODY;
}

static void press(game_t *game) {
  const dm_handle next = ahead(game);
  for (int i = 0; i < 2; i++) {
    flipper_t *flipper = &game->flippers[i];
    if (flipper->held > 0) flipper->held--;
    else if (dm_same(next, flipper->body)) flipper->held = 12;
  }
}

/* Leads a flipper up to two and a half degrees further in a tick. One that has arrived is led to where it is, and so loses the course that it had. */
static void turn(game_t *game, flipper_t *flipper) {
  const double rest = (flipper->held > 0 ? flipper->up : flipper->rest) - flipper->angle;
  flipper->angle += rest > 2.5 ? 2.5 : rest < -2.5 ? -2.5 : rest;
  must(dm_set_target(&game->world, flipper->body, flipper->pivot, dm_degrees(flipper->angle), 1));
}

/* ---- what is heard ---- */

/* A bumper gives the ball three metres a second away from it. The normal leads from the event's first body to its second. */
static void kick(game_t *game, const dm_event *event) {
  const int64_t push = game->mass * dm_speed(event->second_tag == BALL ? 3 : -3, DM_RATE);
  const dm_vec by = {push * event->contact.normal.x / DM_ONE, push * event->contact.normal.y / DM_ONE};
  must(dm_push(&game->world, game->ball, by));
  game->score += 100;
}

/* From 0 to 100: ten for each metre a second by which the blow changed the ball's velocity. */
static int loudness(const game_t *game, const dm_contact *contact) {
  const int64_t impulse = contact->first.normal_impulse + contact->second.normal_impulse;
  const double change = dm_in_metres(impulse / game->mass) * DM_RATE;
  return change < 10 ? (int)(10 * change) : 100;
}

static void hear(game_t *game, int frame) {
  dm_event events[64];
  size_t count = 0;
  must(dm_events(&game->world, events, 64, &count));
  for (size_t i = 0; i < count && i < 64; i++) {
    const dm_event *event = &events[i];
    if (event->kind != DM_EVENT_BEGUN) continue;
    const uint64_t other = event->first_tag == BALL ? event->second_tag : event->first_tag;
    const int loud = loudness(game, &event->contact);
    if (other == BUMPER) kick(game, event);
    if (loud >= 5) printf("frame %4d: the ball meets %s, loudness %3d, score %d\n", frame, names[other], loud, game->score);
  }
  must(dm_events_clear(&game->world, 1));
}

/* ---- pictures: the threads that draw read frames, and never the world ---- */

/* Of four frames one is shown, at most two more are being drawn, and so one is free to be taken anew. */
static struct { dm_frame frame; int readers; } shots[4];
static int shown = -1, is_over;
static pthread_mutex_t lock = PTHREAD_MUTEX_INITIALIZER;
static pthread_cond_t changed = PTHREAD_COND_INITIALIZER;

/* A frame is taken with no lock: nobody begins to read one that isn't shown. */
static void show(game_t *game, int last) {
  int at = 0;
  pthread_mutex_lock(&lock);
  while (at == shown || shots[at].readers > 0) at++;
  pthread_mutex_unlock(&lock);
  must(dm_frame_take(&game->world, &shots[at].frame));          /* what it held is dropped */
  pthread_mutex_lock(&lock);
  shown = at;
  is_over = last;
  pthread_cond_broadcast(&changed);
  pthread_mutex_unlock(&lock);
}

enum { ROWS = 22, COLUMNS = 32 };
typedef struct {
  const game_t *game;                                           /* of which only `ball` and `tags` are read */
  int follows;                                                  /* the ball, from near; else it shows the whole table */
  char rows[ROWS][COLUMNS + 1];
} picture_t;

/* Each cell has the mark of what a ray across it meets. */
static void draw(dm_frame frame, picture_t *picture) {
  const int64_t width = dm_metres(picture->follows ? 0.1 : 0.2);
  dm_pose middle = {DM_NOBODY, dm_at(0, 5.8), dm_degrees(0)};
  dm_hit hit;
  if (picture->follows) must(dm_frame_pose(frame, picture->game->ball, &middle));
  for (int row = 0; row < ROWS; row++)
    for (int column = 0; column < COLUMNS; column++) {
      const dm_vec from = {middle.at.x + (column - COLUMNS / 2) * width, middle.at.y + (ROWS - 2 - 2 * row) * width}, across = {width, 2 * width};
      must(dm_frame_ray(frame, from, across, &hit));
      picture->rows[row][column] = marks[hit.is_hit ? picture->game->tags[hit.shape.slot] : NOTHING];
    }
}

static void *draw_all(void *argument) {
  int at = -1, last = 0;
  while (!last) {
    pthread_mutex_lock(&lock);
    while (shown == at && !is_over) pthread_cond_wait(&changed, &lock);
    at = shown;
    last = is_over;
    shots[at].readers++;
    pthread_mutex_unlock(&lock);
    draw(shots[at].frame, argument);                            /* with no lock, while the world steps */
    pthread_mutex_lock(&lock);
    shots[at].readers--;
    pthread_mutex_unlock(&lock);
  }
  return NULL;
}

/* ---- the game ---- */

static void play_frame(game_t *game, int frame) {
  dm_view view;
  press(game);
  for (int step = 0; step < STEPS; step++) {
    for (int i = 0; i < 2; i++) turn(game, &game->flippers[i]);
    must(dm_advance(&game->world, 1));
  }
  hear(game, frame);
  must(dm_body(&game->world, game->ball, &view));
  if (view.pose.at.y > 0) return;
  game->lost++;
  printf("frame %4d: the ball is lost\n", frame);
  shoot(game);
}

int main(void) {
  static game_t game;                                           /* all zeros: no world, no score */
  static picture_t pictures[2] = {{&game, 0, {{0}}}, {&game, 1, {{0}}}};
  pthread_t threads[2];
  make_table(&game);
  shoot(&game);
  show(&game, 0);
  for (int i = 0; i < 2; i++)
    if (pthread_create(&threads[i], NULL, draw_all, &pictures[i])) return 1;
  for (int frame = 1; frame <= FRAMES; frame++) {
    play_frame(&game, frame);
    show(&game, frame == FRAMES);
  }
  for (int i = 0; i < 2; i++) pthread_join(threads[i], NULL);
  for (int row = 0; row < ROWS; row++) printf("%s  |  %s\n", pictures[0].rows[row], pictures[1].rows[row]);
  printf("score %d, lost %d\n", game.score, game.lost);
  for (int at = 0; at < 4; at++) dm_frame_drop(&shots[at].frame);
  dm_close(&game.world);
  return 0;
}
