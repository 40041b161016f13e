// Makes the steps of a scene by Box2D 2.4 (Debian's libbox2d-dev), for bench/peers, which writes the scene as lines of words and numbers, in metres and
// seconds: 'gravity X Y'; 'circle X Y RADIUS FRICTION' and 'capsule X Y AX AY BX BY RADIUS INERTIA FRICTION', movers, whose inertia is that of a mass of 1;
// 'segment X Y AX AY BX BY FRICTION' and 'nail X Y', which stand; 'velocity BODY VX VY';
// 'joint A B LENGTH', between two centres; 'sleep BODY'; 'tick', a step of a 240th of a second; 'step', one of a 60th. A body is named by its place among
// all bodies. A number of sub-steps may be given: a step is then made by so many, each with its part of the 4 iterations. It prints the nanoseconds of processor time of all 'step's together, how many there were, how many movers there are, and how many of them are awake.
#include <box2d/box2d.h>
#include <cstdio>
#include <cstdlib>
#include <cstring>
#include <ctime>
#include <vector>

static const float THIN = 0.01f; // metres

static double nanoseconds() {
  timespec now;
  clock_gettime(CLOCK_PROCESS_CPUTIME_ID, &now);
  return 1e9 * double(now.tv_sec) + double(now.tv_nsec);
}

static float number() {
  float value = 0;
  if (std::scanf("%f", &value) != 1) std::exit(1);
  return value;
}

static b2Vec2 place() {
  float x = number();
  return b2Vec2(x, number());
}

int main(int count, char **words) {
  const int parts = count > 1 ? std::atoi(words[1]) : 1;
  b2World world(b2Vec2(0, 0));
  std::vector<b2Body *> bodies;
  double took = 0;
  int steps = 0, movers = 0, awake = 0;
  auto add = [&](b2BodyType type) {
    b2BodyDef def;
    def.type = type;
    def.position = place();
    bodies.push_back(world.CreateBody(&def));
    return bodies.back();
  };
  auto body = [&] { return bodies.at(size_t(number())); };
  char word[16];
  while (std::scanf("%15s", word) == 1) {
    if (!std::strcmp(word, "gravity")) {
      world.SetGravity(place());
    } else if (!std::strcmp(word, "circle")) {
      b2Body *mover = add(b2_dynamicBody);
      b2CircleShape circle;
      circle.m_radius = number();
      b2FixtureDef fixture;
      fixture.shape = &circle;
      fixture.density = 1;
      fixture.friction = number();
      mover->CreateFixture(&fixture);
    } else if (!std::strcmp(word, "capsule")) {
      // a thin box along the x axis, rounded: there is no capsule
      b2Body *mover = add(b2_dynamicBody);
      b2Vec2 first = place(), second = place();
      float radius = number();
      b2PolygonShape core;
      core.SetAsBox((second.x - first.x) / 2, THIN);
      core.m_radius = radius - THIN;
      b2MassData mass = {1, b2Vec2(0, 0), number()};
      b2FixtureDef fixture;
      fixture.shape = &core;
      fixture.density = 1;
      fixture.friction = number();
      mover->CreateFixture(&fixture);
      mover->SetMassData(&mass);
    } else if (!std::strcmp(word, "segment")) {
      b2Body *floor = add(b2_staticBody);
      b2EdgeShape edge;
      b2Vec2 first = place();
      edge.SetTwoSided(first, place());
      b2FixtureDef fixture;
      fixture.shape = &edge;
      fixture.friction = number();
      floor->CreateFixture(&fixture);
    } else if (!std::strcmp(word, "nail")) {
      add(b2_staticBody);
    } else if (!std::strcmp(word, "velocity")) {
      b2Body *mover = body();
      mover->SetLinearVelocity(place());
    } else if (!std::strcmp(word, "joint")) {
      b2Body *a = body(), *b = body();
      b2DistanceJointDef def;
      def.Initialize(a, b, a->GetPosition(), b->GetPosition());
      def.length = def.minLength = def.maxLength = number();
      world.CreateJoint(&def);
    } else if (!std::strcmp(word, "sleep")) {
      body()->SetAwake(false);
    } else if (!std::strcmp(word, "tick")) {
      world.Step(1.0f / 240, 4, 1);
    } else {
      double start = nanoseconds();
      for (int part = 0; part < parts; part++) world.Step(1.0f / float(60 * parts), 4 / parts, 1);
      took += nanoseconds() - start;
      steps++;
    }
  }
  for (b2Body *each : bodies) {
    movers += each->GetType() == b2_dynamicBody;
    awake += each->GetType() == b2_dynamicBody && each->IsAwake();
  }
  std::printf("%.0f %d %d %d\n", took, steps, movers, awake);
}
