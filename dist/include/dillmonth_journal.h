/* dillmonth_journal.h: a list of the calls that a world accepted, from which the world can be made again. Nothing here is in the library: a program that keeps no
 * journal pays nothing for one.
 *
 *     dm_journal journal = DM_NO_JOURNAL;
 *     dm_journal_open(&journal, &world, gravity);
 *     dm_journal_apply(&journal, &world, &command, shapes, &answer);    each command of this world goes by here
 *     dm_journal_replay(&journal, &other);                              a world with the same digest
 *     dm_journal_close(&journal);
 *
 * The commands and their shapes lie in the journal as dm_apply_all takes them. A replay gives the same world since a command that is refused changes nothing, and
 * one that is accepted does what the rules say. dm_settle, and all calls that only read, change no digest.
 */
#ifndef DILLMONTH_JOURNAL_H
#define DILLMONTH_JOURNAL_H
#include "dillmonth.h"
#include <stdlib.h>
#include <string.h>

typedef struct {
  dm_vec gravity;                                   /* of the world when it was opened */
  dm_command *commands;                             /* those that were accepted, in their order */
  size_t commands_len, commands_room;
  dm_shape *shapes;                                 /* of the bodies that they make */
  size_t shapes_len, shapes_room;
} dm_journal;
#define DM_NO_JOURNAL { { 0, 0 }, 0, 0, 0, 0, 0, 0 }

/* Room for some more items of a list. */
static inline int dm_journal_grow(void **items, size_t len, size_t more, size_t *room, size_t size) {
  size_t wanted = *room;
  void *grown;
  if (more <= *room - len) return 1;
  while (wanted - len < more) {
    if (wanted > SIZE_MAX / size / 4) return 0;
    wanted = 2 * wanted + 16;
  }
  grown = realloc(*items, wanted * size);
  if (grown == 0) return 0;
  *items = grown;
  *room = wanted;
  return 1;
}

/* Opens an empty world, of which the journal begins. What both held before is dropped. 5, 1; then nothing has changed. */
DM_KEEP static inline dm_status dm_journal_open(dm_journal *journal, dm_world *world, dm_vec gravity) {
  const dm_status status = dm_open(world, gravity);
  if (status != DM_DONE) return status;
  journal->gravity = gravity;
  journal->commands_len = journal->shapes_len = 0;
  return DM_DONE;
}

/* Applies a command of the world that the journal is of, and keeps it where it is accepted. `shapes` are those of a body to be made, from the first one on. Refused as
 * the command is, or 1 where memory is wanting for the journal; then nothing has changed. */
DM_KEEP static inline dm_status dm_journal_apply(dm_journal *journal, dm_world *world, const dm_command *command, const dm_shape *shapes, dm_answer *answer) {
  const size_t count = command->kind == DM_DO_CREATE_BODY ? command->shapes_count : 0;
  static const dm_shape none = {0, 0, {0, 0}, {0, 0}, 0, 0, 0, 0, 0};
  dm_command alone = *command;
  void *commands = journal->commands, *kept = journal->shapes;
  int fits = dm_journal_grow(&commands, journal->commands_len, 1, &journal->commands_room, sizeof *journal->commands);
  journal->commands = (dm_command *)commands;
  fits = fits && dm_journal_grow(&kept, journal->shapes_len, count, &journal->shapes_room, sizeof *journal->shapes);
  journal->shapes = (dm_shape *)kept;
  memset(answer, 0, sizeof *answer);
  answer->status = DM_NO_MEMORY;
  if (!fits || journal->shapes_len + count > UINT32_MAX) return DM_NO_MEMORY;
  alone.shapes_from = 0;
  if (dm_apply_all(world, &alone, 1, count ? shapes : &none, count, answer, 1) != 1) answer->status = DM_NO_WORLD;
  if (answer->status != DM_DONE) return answer->status;
  alone.shapes_from = (uint32_t)journal->shapes_len;
  journal->commands[journal->commands_len++] = alone;
  if (count) memcpy(journal->shapes + journal->shapes_len, shapes, count * sizeof *shapes);
  journal->shapes_len += count;
  return DM_DONE;
}

/* Opens a world and plays the journal in it. Refused 1 where memory is wanting; the world is then that after some of the commands. */
DM_KEEP static inline dm_status dm_journal_replay(const dm_journal *journal, dm_world *world) {
  static const dm_shape none = {0, 0, {0, 0}, {0, 0}, 0, 0, 0, 0, 0};
  dm_status status = dm_open(world, journal->gravity);
  size_t at;
  for (at = 0; status == DM_DONE && at < journal->commands_len; at++) {
    dm_answer answer;
    const dm_shape *shapes = journal->shapes_len ? journal->shapes : &none;
    status = dm_apply_all(world, &journal->commands[at], 1, shapes, journal->shapes_len, &answer, 1) == 1 ? answer.status : (dm_status)DM_NO_WORLD;
    if (status == DM_DONE) status = dm_settle(world);
  }
  return status;
}

/* Gives its memory back. The world stays. Twice is harmless. */
static inline void dm_journal_close(dm_journal *journal) {
  free(journal->commands);
  free(journal->shapes);
  memset(journal, 0, sizeof *journal);
}

#endif
