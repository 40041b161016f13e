/* Two peers over a network with a delay, by the library: each plays a frame with what it guesses of the other, and goes back where the guess was wrong.
 *
 *     cc bindings/c/predict.c -Ibindings/c bindings/out/libdillmonth.a -o predict && ./predict
 *
 * Each peer has a world, and a copy of it at the last frame of which all inputs are known. An input that arrives late is put into its place: the peer goes back to that copy
 * by dm_copy, and plays the frames again. Both peers come to the digest that a world has to which all inputs were known at once.
 */
#include "dillmonth.h"
#include <inttypes.h>
#include <stdio.h>
#include <stdlib.h>
#include <string.h>

enum { PEERS = 2, FRAMES = 600, DELAY = 7, STEPS_A_FRAME = 4 };

typedef struct { dm_vec push; } input; /* what a player does in a frame: a push of his ball */

static void must(dm_status status) {
  if (status == DM_DONE) return;
  fprintf(stderr, "the world refused: %s\n", dm_status_text(status));
  exit(1);
}

/* A world as both begin with it: a floor, two walls, a ball for each player, and some that lie about. */
static void begin(dm_world *world, dm_handle balls[PEERS]) {
  const double side[] = {-8, 8};
  dm_shape floor = dm_segment_shape(dm_at(-8, 0), dm_at(8, 0)), wall = dm_segment_shape(dm_at(0, 0), dm_at(0, 12)), disc = dm_circle_shape(dm_metres(0.5));
  dm_handle other;
  floor.friction = disc.friction = dm_share(0.5);
  disc.restitution = dm_share(0.5);
  must(dm_new(world, dm_gravity_of(0, -9.81, DM_RATE)));
  must(dm_add_body(world, dm_static_def(dm_at(0, 0)), floor, &other));
  for (int i = 0; i < 2; i++) must(dm_add_body(world, dm_static_def(dm_at(side[i], 0)), wall, &other));
  for (int i = 0; i < 12; i++) {
    dm_body_def def = dm_dynamic_def(dm_at(-5.5 + i, 0.5 + i % 3), dm_circle_mass(disc.radius, DM_KILOGRAM));
    must(dm_add_body(world, def, disc, i < PEERS ? &balls[i] : &other));
  }
}

/* A frame with the inputs of all. A push of a ball that is gone, or that would be too fast, is the game's own affair: both peers meet it alike. */
static void play(dm_world *world, const dm_handle balls[PEERS], const input inputs[PEERS]) {
  for (int i = 0; i < PEERS; i++) {
    dm_status status = dm_push(world, balls[i], inputs[i].push);
    if (status != DM_STALE_HANDLE && status != DM_TOO_FAST) must(status);
  }
  for (int i = 0; i < STEPS_A_FRAME; i++) must(dm_advance(world, 1));
}

/* What a player does in a frame; he holds a key for a while. */
static input wish(int peer, int frame) {
  const uint32_t mixed = (uint32_t)(frame / (9 + 4 * peer) + 1) * 2654435761u * (uint32_t)(peer + 3);
  input made = {dm_push_of(201, (int)(mixed >> 16) % 3 - 1, mixed % 5 == 0 ? 4 : 0, DM_RATE)};
  return made;
}

typedef struct {
  dm_world world, kept;           /* of now, and of the frame `known` */
  dm_handle balls[PEERS];
  input inputs[FRAMES][PEERS];    /* his own, those that arrived, and guesses */
  int known, now, again;          /* frames: of which all is known, that are played, and how many were played again */
} peer;

static void copy(const dm_world *from, dm_world *to) { must(dm_copy(from, to)); }

/* An input of the other arrived: if it isn't what was guessed, the frames since then are played again. */
static void hear(peer *me, int other, int frame, input truth) {
  const int is_right = memcmp(&me->inputs[frame][other].push, &truth.push, sizeof truth.push) == 0;
  me->inputs[frame][other] = truth;
  play(&me->kept, me->balls, me->inputs[frame]); /* inputs arrive in order, so this frame is the next one of which all is known */
  me->known = frame + 1;
  if (is_right) return;
  copy(&me->kept, &me->world);
  for (int f = me->known; f < me->now; f++) {
    me->inputs[f][other] = truth; /* the guess: he goes on as he did */
    play(&me->world, me->balls, me->inputs[f]);
    me->again++;
  }
}

static void advance(peer *me, int seat, int frame) {
  me->inputs[frame][seat] = wish(seat, frame);
  me->inputs[frame][1 - seat] = me->inputs[frame > 0 ? frame - 1 : 0][1 - seat];
  play(&me->world, me->balls, me->inputs[frame]);
  me->now = frame + 1;
}

static void print_digest(const char *whose, const dm_world *world) {
  uint8_t digest[DM_DIGEST_SIZE];
  must(dm_digest(world, digest, DM_DIGEST_SIZE));
  printf("%-12s", whose);
  for (int i = 0; i < DM_DIGEST_SIZE; i++) printf("%02x", digest[i]);
  printf("\n");
}

int main(void) {
  static peer peers[PEERS];
  dm_world judge;
  dm_handle balls[PEERS];
  if (dm_version() != DM_VERSION) return 2;
  for (int i = 0; i < PEERS; i++) {
    begin(&peers[i].world, peers[i].balls);
    must(dm_new_copy(&peers[i].kept, &peers[i].world));
  }
  for (int frame = 0; frame < FRAMES + DELAY; frame++) {
    for (int i = 0; i < PEERS; i++) {
      if (frame >= DELAY) hear(&peers[i], 1 - i, frame - DELAY, wish(1 - i, frame - DELAY));
      if (frame < FRAMES) advance(&peers[i], i, frame);
    }
  }
  begin(&judge, balls);
  for (int frame = 0; frame < FRAMES; frame++) {
    const input inputs[PEERS] = {wish(0, frame), wish(1, frame)};
    play(&judge, balls, inputs);
  }
  printf("%d frames, of which the peers played %d and %d again\n", FRAMES, peers[0].again, peers[1].again);
  print_digest("one peer", &peers[0].world);
  print_digest("the other", &peers[1].world);
  print_digest("no delay", &judge);
  for (int i = 0; i < PEERS; i++) {
    dm_close(&peers[i].world);
    dm_close(&peers[i].kept);
  }
  dm_close(&judge);
  return 0;
}
