/* How far the lesson is, on standard error while it runs. */
#ifndef PROGRESS_H
#define PROGRESS_H

#include "host.h"

/* On a terminal one line that changes, else a line every 5 seconds. */
void tell_progress(const struct host *host, uint64_t operations);

/* Takes the line away, so that the report does not run into it. */
void clear_progress(void);

#endif
