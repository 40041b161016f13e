// Asks Box2D (Debian's libbox2d-dev) what bench/queries asks of the world: rays and regions over circles of half a metre that stand apart.
// It reads numbers in metres: 'circle X Y', 'ray X Y ALONG_X ALONG_Y' and 'region LEFT BELOW RIGHT ABOVE', a line each, and prints the least time of
// some rounds over all rays, and over all regions. A ray asks for its first hit, a region for all shapes whose boxes overlap it.
#include <box2d/box2d.h>
#include <algorithm>
#include <chrono>
#include <cstdio>
#include <cstdlib>
#include <cstring>
#include <vector>

static double seconds() {
  return std::chrono::duration<double>(std::chrono::steady_clock::now().time_since_epoch()).count();
}

struct FirstHit : b2RayCastCallback {
  float fraction = 1;
  bool met = false;
  float ReportFixture(b2Fixture *, const b2Vec2 &, const b2Vec2 &, float at) override {
    met = true;
    fraction = at;
    return at;
  }
};

struct AllOver : b2QueryCallback {
  std::vector<b2Fixture *> found;
  bool ReportFixture(b2Fixture *fixture) override {
    found.push_back(fixture);
    return true;
  }
};

struct Four {
  float a, b, c, d;
};

int main(int argc, char **argv) {
  int rounds = argc > 1 ? std::atoi(argv[1]) : 5;
  b2World world(b2Vec2(0, 0));
  std::vector<Four> rays, regions;
  char word[16];
  while (std::scanf("%15s", word) == 1) {
    Four n{};
    if (!std::strcmp(word, "circle")) {
      if (std::scanf("%f %f", &n.a, &n.b) != 2) return 1;
      b2BodyDef body;
      body.type = b2_dynamicBody;
      body.position.Set(n.a, n.b);
      b2CircleShape circle;
      circle.m_radius = 0.5f;
      world.CreateBody(&body)->CreateFixture(&circle, 1);
    } else {
      if (std::scanf("%f %f %f %f", &n.a, &n.b, &n.c, &n.d) != 4) return 1;
      (std::strcmp(word, "ray") ? regions : rays).push_back(n);
    }
  }
  double ray_time = 1e9, region_time = 1e9;
  long hits = 0, over = 0;
  for (int round = 0; round < rounds; round++) {
    double start = seconds();
    hits = 0;
    for (const Four &n : rays) {
      FirstHit first;
      if (n.c != 0 || n.d != 0) world.RayCast(&first, b2Vec2(n.a, n.b), b2Vec2(n.a + n.c, n.b + n.d));
      hits += first.met;
    }
    ray_time = std::min(ray_time, seconds() - start);
    start = seconds();
    over = 0;
    for (const Four &n : regions) {
      AllOver all;
      b2AABB box;
      box.lowerBound.Set(n.a, n.b);
      box.upperBound.Set(n.c, n.d);
      world.QueryAABB(&all, box);
      over += long(all.found.size());
    }
    region_time = std::min(region_time, seconds() - start);
  }
  std::printf("Box2D: a ray %.2f microseconds, %zu of them, %ld hits; a region %.2f microseconds, %zu of them, %ld shapes over them\n",
              ray_time * 1e6 / std::max<size_t>(rays.size(), 1), rays.size(), hits,
              region_time * 1e6 / std::max<size_t>(regions.size(), 1), regions.size(), over);
}
