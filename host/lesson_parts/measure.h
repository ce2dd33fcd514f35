/* What the library took: calls, time and returned numbers of each entry, and the floor, which is the time of a plain | over the
 * bytes lent. */
#ifndef MEASURE_H
#define MEASURE_H

#include "writebehind.h"

enum entry {
    ENTRY_FORMAT, ENTRY_MOUNT, ENTRY_LOOKUP, ENTRY_LIST, ENTRY_STAT, ENTRY_READ, ENTRY_CREATE, ENTRY_MKDIR, ENTRY_REMOVE_FILE,
    ENTRY_REMOVE_DIRECTORY, ENTRY_RENAME, ENTRY_WRITE, ENTRY_SETLEN, ENTRY_FORDER, ENTRY_PUSH, ENTRY_FSYNC, ENTRY_CUT, ENTRY_TAKE,
    ENTRY_RENEW, ENTRIES
};

struct measure {
    uint64_t begun;                                 /* the time when the call now under way began */
    uint64_t calls;
    struct {
        uint64_t calls, time;                       /* times are in nanoseconds */
        uint64_t returned[WB_BAD_RECORD + 1];
    } entries[ENTRIES];
    uint64_t floors, floor_time, least_floor, kept; /* the results of | are kept, so that it is not left out */
    uint64_t started;                               /* when the lesson began */
};

const char *entry_text(enum entry entry);

/* Nanoseconds from some moment on. */
uint64_t time_now(void);

/* Around one call: the first just before it, the second just after it with what it returned. */
void begin_call(struct measure *measure);
void end_call(struct measure *measure, enum entry entry, uint64_t returned);

/* Measures the floor once in 250 calls; call it between calls. */
void measure_floor(struct measure *measure, const uint8_t *const bytes[3], const uint64_t lengths[3]);

/* The time of all calls together. */
uint64_t library_time(const struct measure *measure);

#endif
