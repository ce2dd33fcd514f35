/* What the lesson comes to at its end. */
#ifndef SUMMARY_H
#define SUMMARY_H

#include "pupils.h"

/* Counts, calls with their times and refusals, and the time in the library against the floor. */
void print_summary(const struct host *host, const struct class *class);

#endif
