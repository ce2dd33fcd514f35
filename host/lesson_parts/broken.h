/* The two broken links, and what follows each: losses fetched and printed, marks renewed. */
#ifndef BROKEN_H
#define BROKEN_H

#include "link.h"
#include "pupils.h"

/* The first: the link sends some of what waits, and is cut. */
struct burst break_by_cut(struct host *host);

/* The second: a program asks by fsync for more sends than the link still carries. Needs an object with two sends at least; tells
 * whether there is one. */
int break_by_fsync(struct host *host, struct burst *burst);

/* Who is marked, every loss fetched and printed unless quiet, renewals; then work can go on. */
void recover(struct host *host, struct class *class, const struct burst *burst, int quiet);

#endif
