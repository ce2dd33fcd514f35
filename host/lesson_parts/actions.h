/* What a pupil at work may do in a turn. Each tells the returned number of its call, or 0 if it finds nothing to do. */
#ifndef ACTIONS_H
#define ACTIONS_H

#include "picking.h"

typedef uint64_t action(struct host *host, struct pupil *pupil);

/* Editors (editing.c): they append, at times across the end of the file, overwrite, set the length, and save by a new file that
 * takes the place of the old one. */
action create_file, append, overwrite, set_length, begin_save, go_on_saving;

/* Whether the pupil is saving a file. It gives up where another one of its group has moved or removed the old file. */
int is_saving(const struct host *host, struct pupil *pupil);

/* Files and subfolders get new names and places (filing.c). */
action make_subfolder, rename_subfolder, remove_subfolder, move_file, rename_file, remove_file;

#endif
