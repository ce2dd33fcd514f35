/* What host/exhaustive asks about names in several spellings. */
#ifndef SPELLINGS_H
#define SPELLINGS_H

#include "trial.h"

/* Counts what an operation does with spellings that is issued in the view, and does not yet stand in it. */
void count_spellings(const struct volume *view, const struct operation *operation);

/* Whether the operation makes an object under a name that stands in the view in another spelling. */
int taken_otherwise(const struct volume *view, const struct operation *operation);

/* What a cut with the set sent leaves on the server: no two names of a directory are the same; and of each rename that changes only
 * the case the new spelling or the old one, if of the other operations that name its object just the earlier were sent. This is
 * asked of the server's bytes and the sends alone, whatever the host replays. */
void check_spellings(const struct buffers *lent, unsigned sent);

/* With two objects of a directory under two spellings of one name, on the server or in the view: mount refuses the first and does
 * not look at the second, another call refuses both. The buffers are as mount left them, and stay. */
void try_twice(const struct buffers *lent);

/* Each object is found by its path with each letter in the other case. Nothing waits. */
void look_up_all(struct buffers *lent);

#endif
