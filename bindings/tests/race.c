/* Two threads that read one world without a lock: a sanitizer has to see it. */
#include "check.h"
#include <pthread.h>

static dm_world shared = DM_NONE;

static void *look(void *argument) {
  uint64_t *sum = argument;
  for (int i = 0; i < 2000; i++) *sum += dm_steps(&shared);
  return 0;
}

int main(void) {
  pthread_t threads[2];
  uint64_t sums[2] = {0, 0};
  make_heap(&shared, 5, 0);
  for (int i = 0; i < 2; i++) WANT(pthread_create(&threads[i], 0, look, &sums[i]) == 0);
  for (int i = 0; i < 2; i++) WANT(pthread_join(threads[i], 0) == 0);
  puts("two threads have read one world");
  return 0;
}
