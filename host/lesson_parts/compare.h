/* The host's own replay of what was sent, and the comparison of volumes with it. */
#ifndef COMPARE_H
#define COMPARE_H

#include "host.h"

/* Replays, on the server volume as mounted, every accepted operation that was not fetched as a loss. Nothing waits then, so
 * that these are the ones sent. Ends with 1 where one does not apply, where one is the append of a write across the end whose
 * overwrite was lost, where the server volume is not the result, or where it has two names in a directory that are the same. */
void compare_server(struct host *host);

/* Ends with 1 where the view lent is not the host's own. */
void compare_view(const struct host *host);

#endif
