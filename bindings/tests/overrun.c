/* A list that is told to have room for more poses than it has: a sanitizer has to see that the library writes beyond it. */
#include "check.h"

int main(void) {
  dm_world world = DM_NONE;
  make_heap(&world, 12, 30);
  dm_pose *poses = malloc(2 * sizeof *poses);
  size_t count = dm_poses(&world, poses, 13);
  printf("%zu poses were written over room for two\n", count);
  free(poses);
  dm_close(&world);
  return 0;
}
