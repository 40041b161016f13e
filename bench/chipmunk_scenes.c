// Makes the steps of a scene by Chipmunk 7 (Debian's libchipmunk-dev): the lines that box2d_scenes.cpp tells of, and the same answer.
#include <chipmunk/chipmunk.h>
#include <stdio.h>
#include <stdlib.h>
#include <string.h>
#include <time.h>

enum { MOST_BODIES = 100000 };

static cpBody *bodies[MOST_BODIES];
static int count = 0;
static cpSpace *space;

static double nanoseconds(void) {
  struct timespec now;
  clock_gettime(CLOCK_PROCESS_CPUTIME_ID, &now);
  return 1e9 * now.tv_sec + now.tv_nsec;
}

static double number(void) {
  double value = 0;
  if (scanf("%lf", &value) != 1) exit(1);
  return value;
}

static cpVect place(void) {
  double x = number();
  return cpv(x, number());
}

static cpBody *add(cpBody *body) {
  if (count == MOST_BODIES) exit(1);
  return bodies[count++] = cpSpaceAddBody(space, body);
}

static cpBody *body(void) {
  int at = (int)number();
  if (at < 0 || at >= count) exit(1);
  return bodies[at];
}

static void add_circle(void) {
  cpVect at = place();
  double radius = number();
  cpBody *mover = add(cpBodyNew(1, cpMomentForCircle(1, 0, radius, cpvzero)));
  cpBodySetPosition(mover, at);
  cpShapeSetFriction(cpSpaceAddShape(space, cpCircleShapeNew(mover, radius, cpvzero)), number());
}

static void add_capsule(void) {
  cpVect at = place();
  cpVect first = place();
  cpVect second = place();
  double radius = number();
  cpBody *mover = add(cpBodyNew(1, number()));
  cpBodySetPosition(mover, at);
  cpShapeSetFriction(cpSpaceAddShape(space, cpSegmentShapeNew(mover, first, second, radius)), number());
}

static void add_segment(void) {
  cpBody *floor = add(cpBodyNewStatic());
  cpBodySetPosition(floor, place());
  cpVect first = place();
  cpVect second = place();
  cpShapeSetFriction(cpSpaceAddShape(space, cpSegmentShapeNew(floor, first, second, 0)), number());
}

static void add_joint(void) {
  cpBody *a = body();
  cpBody *b = body();
  cpConstraint *joint = cpSpaceAddConstraint(space, cpPinJointNew(a, b, cpvzero, cpvzero));
  cpPinJointSetDist(joint, number());
}

int main(void) {
  space = cpSpaceNew();
  cpSpaceSetIterations(space, 4);
  cpSpaceSetSleepTimeThreshold(space, 0.5);
  cpSpaceUseSpatialHash(space, 1.0, 40000);
  double took = 0;
  int steps = 0, movers = 0, awake = 0;
  cpBody *asleep = NULL;
  char word[16];
  while (scanf("%15s", word) == 1) {
    if (!strcmp(word, "gravity")) {
      cpSpaceSetGravity(space, place());
    } else if (!strcmp(word, "circle")) {
      add_circle();
    } else if (!strcmp(word, "capsule")) {
      add_capsule();
    } else if (!strcmp(word, "segment")) {
      add_segment();
    } else if (!strcmp(word, "nail")) {
      cpBody *nail = add(cpBodyNewStatic());
      cpBodySetPosition(nail, place());
    } else if (!strcmp(word, "velocity")) {
      cpBody *mover = body();
      cpBodySetVelocity(mover, place());
    } else if (!strcmp(word, "joint")) {
      add_joint();
    } else if (!strcmp(word, "sleep")) {
      cpBody *mover = body();
      if (!cpBodyIsSleeping(mover)) cpBodySleepWithGroup(mover, asleep);
      if (!asleep) asleep = mover;
    } else if (!strcmp(word, "tick")) {
      cpSpaceStep(space, 1.0 / 240);
    } else {
      double start = nanoseconds();
      cpSpaceStep(space, 1.0 / 60);
      took += nanoseconds() - start;
      steps++;
    }
  }
  for (int i = 0; i < count; i++) {
    int mover = cpBodyGetType(bodies[i]) == CP_BODY_TYPE_DYNAMIC;
    movers += mover;
    awake += mover && !cpBodyIsSleeping(bodies[i]);
  }
  printf("%.0f %d %d %d\n", took, steps, movers, awake);
  return 0;
}
