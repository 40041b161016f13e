/* Eight threads, each with a world of its own, and one world that goes from thread to thread under a lock. */
#include "check.h"
#include <pthread.h>

static pthread_mutex_t lock = PTHREAD_MUTEX_INITIALIZER;
static dm_world shared = DM_NONE;
static digest_t digests[8];

static void *work(void *argument) {
  int seat = (int)(intptr_t)argument;
  dm_world own = DM_NONE;
  make_heap(&own, 10, 60);
  digests[seat] = digest_of(&own);
  dm_close(&own);
  for (int i = 0; i < 20; i++) {
    pthread_mutex_lock(&lock);
    WANT(dm_advance(&shared, 4) == DM_DONE);
    pthread_mutex_unlock(&lock);
  }
  return 0;
}

int main(void) {
  pthread_t threads[8];
  make_heap(&shared, 5, 0);
  for (intptr_t i = 0; i < 8; i++) WANT(pthread_create(&threads[i], 0, work, (void *)i) == 0);
  for (int i = 0; i < 8; i++) WANT(pthread_join(threads[i], 0) == 0);
  for (int i = 1; i < 8; i++) WANT(same(digests[0], digests[i]));
  WANT(dm_steps(&shared) == 160);
  dm_close(&shared);
  puts("eight threads agree");
  return 0;
}
