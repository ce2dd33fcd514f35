/* The host of the lesson: the buffers that it lends to the library, and all that it reckons on its own, from the calls that it
 * saw accepted and from the loss records. */
#ifndef HOST_H
#define HOST_H

#include "chance.h"
#include "measure.h"
#include "options.h"
#include "order.h"
#include "replay.h"

struct name {
    uint64_t length;
    uint8_t bytes[WB_NAME_BYTES + 1]; /* room for one that is too long */
};

/* Waiting, then sent, or lost and then fetched as a loss record. */
enum state { WAITING, SENT, LOST, FETCHED };

/* What is said when it happens for the first time. */
enum event { FULL_NAME, LONG_NAME, LOG_FULL, NOT_FIRST, ACROSS_END, ONE_SLOT, FOUND_OTHERWISE, CASE_ALONE, TAKEN_OTHERWISE,
    WRONG_CALL, EVENTS };

struct issued {
    struct operation operation;
    enum state state;
    int rest;            /* it is the append of a write across the end; the overwrite has the number before */
    uint64_t dependents; /* bit p for program p, by the host's own reckoning */
    struct name called;  /* what its object was called then; of a forder the first of its list */
};

struct host {
    uint64_t n, b, m;
    struct volume server, view;      /* lent, with the log */
    uint8_t *log;
    uint64_t volume_length, log_length;
    struct volume own;               /* the view as the host reckons it */
    struct volume mounted, replayed; /* the server volume as mounted, and room for a replay on it */
    struct issued **issued;          /* that of sequence number s at s - 1 */
    uint64_t issued_count, issued_room;
    const struct operation *waiting[WB_MOST_SLOTS]; /* in issue order */
    uint64_t waiting_count;
    const struct operation *lost[WB_MOST_SLOTS];    /* not yet fetched, in issue order */
    uint64_t lost_count;
    uint64_t marked;                 /* the programs that should be marked, bit p for program p */
    uint64_t sent_count, fetched_count, most_waiting;
    uint64_t pushed, overtaking;     /* sent by push; of these, sent while an earlier one waited */
    uint64_t looked_otherwise;       /* lookups that found an object by another spelling of its path */
    uint64_t taken_otherwise;        /* objects not made, since their name was there in another spelling */
    uint64_t wrong_files;            /* files given to remove directory */
    uint64_t wrong_empty;            /* empty directories given to remove file */
    uint64_t wrong_filled;           /* directories with children given to it */
    const char *server_file;         /* or NULL */
    int went_on;                     /* the file was there already */
    int happened[EVENTS];
    struct chance chance, typing;    /* how names are typed has a chance of its own, which changes nothing else; */
    struct chance removal;           /* so has the choice between the two removals */
    struct measure measure;
};

/* What every call is lent. */
#define LENT(host) (host)->n, (host)->b, (host)->m, (host)->server.bytes, (host)->volume_length, (host)->view.bytes, \
    (host)->volume_length, (host)->log, (host)->log_length

/* Makes one call, times it and counts it. */
#define CALL(host, entry, answer, call) \
    (begin_call(&(host)->measure), (answer) = (call), end_call(&(host)->measure, entry, (answer).returned))

/* Makes the buffers and mounts the server volume, that of the file if there is one. */
void open_host(struct host *host, const struct options *options);
void close_host(struct host *host);

/* The operation that was issued with this sequence number. */
struct issued *issued_as(const struct host *host, uint64_t sequence);

/* Puts an accepted operation behind the waiting ones, with its program as the only dependent. */
void add_waiting(struct host *host, const struct operation *operation);

/* The slots that neither a waiting operation nor a loss uses. */
uint64_t free_slots(const struct host *host);

/* The waiting ones that are chosen (1 where chosen) are sent and wait no longer. */
void now_sent(struct host *host, const uint8_t *chosen);

/* All that wait are lost; who depends on one of them should be marked. */
void now_lost(struct host *host);

/* The program had an accepted call on these objects (1 where it is one): it depends on all waiting ones that reach them. */
void note_dependence(struct host *host, uint64_t program, uint8_t objects[WB_MOST_OBJECTS]);

/* Chooses the waiting operations that an fsync of the object needs; tells how many. */
uint64_t choose_needed(const struct host *host, uint64_t object, uint8_t chosen[WB_MOST_SLOTS]);

/* The name of an object by the host's own view, and whether a name that leads to it is spelt in another way. */
struct name name_of(const struct host *host, uint64_t object);
int spelt_otherwise(const struct host *host, uint64_t object, const uint8_t *name, uint64_t length);

/* Whether an operation found its object by another spelling, and whether it is a rename that changes only the case. */
int found_otherwise(const struct issued *issued);
int case_alone(const struct issued *issued);

/* Whether it happens for the first time. */
int first_time(struct host *host, enum event event);

int is_marked(const struct host *host, uint64_t program);

/* Ends the program with 1: what the library did is not what the host expected. */
void fault(const char *format, ...);

#endif
