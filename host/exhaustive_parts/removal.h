/* What host/exhaustive asks about the two removals, wb_remove_file and wb_remove_directory. */
#ifndef REMOVAL_H
#define REMOVAL_H

#include "trial.h"

/* Asks for the remove by the call that takes objects of this kind. */
struct wb_value call_removal(struct buffers *lent, const struct operation *given, uint64_t kind);

/* With the operations that are issued: each remove of the alphabet by the call for the other kind is refused for that, a directory
 * with children too. With no slot free the call for the object's own kind is refused for children first and then for the slot.
 * Nothing changes; the asker makes these calls and becomes no dependent. */
void try_removals(void);

/* A remove by the call for its object's kind was refused: for the number, which is free, or else for a directory's children. */
void check_refused_removal(struct wb_value got, const struct operation *given);

#endif
