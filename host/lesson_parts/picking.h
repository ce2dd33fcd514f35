/* How a pupil chooses what to work on. */
#ifndef PICKING_H
#define PICKING_H

#include "pupils.h"

/* Whether an object is of the sort that an action looks for. */
typedef int sort(const struct host *host, const struct pupil *pupil, uint64_t object);

sort any_file, any_folder;
sort own_file;  /* its number is one of the program's own */
sort work_file; /* own, or in the group's folder; neither is one that is being saved */
sort own_waste; /* an own file that may be removed, one of a save that was given up too */
sort own_subfolder;   /* a directory of its own below its folders */

/* An object at random of this sort; 0, the root, if there is none. */
uint64_t pick(struct host *host, const struct pupil *pupil, sort *is);

/* A file to look at: mostly one that the pupil works on, at times one of anybody. */
uint64_t pick_to_see(struct host *host, const struct pupil *pupil);

/* Where something new goes: mostly into the own folder. */
uint64_t pick_place(struct host *host, const struct pupil *pupil);

#endif
