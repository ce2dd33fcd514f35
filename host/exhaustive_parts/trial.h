/* A trial of host/exhaustive: the buffers lent, the operations issued, what the host reckons from them, and comparing the two. */
#ifndef TRIAL_H
#define TRIAL_H

#include <stddef.h>
#include "alphabet.h"
#include "order.h"

enum { N = 4, B = 1, MOST = 5 };     /* object 0 is the root; a sequence has at most 5 operations */
enum { ASKER = 5 };                  /* the program that asks and calls fsync; lower ones issue operations */
#define VOLUME ((size_t)WB_VOLUME_BYTES(N, B))
#define LOG ((size_t)WB_LOG_BYTES(MOST))

struct buffers {
    uint8_t server[VOLUME], view[VOLUME], log[LOG];
};

/* The programs that issue the operations, numbered from 0 on, and when the asker asks for the status of object 1. Both operations
 * of a write across the end have the program of the first. */
struct assignment {
    const char *text;
    uint64_t count, programs[MOST];
    enum { AFTER_FIRST, AFTER_LAST, BEFORE_CUT } asks;
};

/* What is lent after some operations, all waiting, and what the host reckons. */
struct stage {
    struct buffers lent;
    uint8_t view[VOLUME];            /* the replay of all these operations */
    uint32_t dependents[MOST];       /* of each operation: bit p for program p */
};

/* Where the trial stands. A set of operations is a number with bit i for operations[i]. */
struct trial {
    const struct start *start;
    const struct assignment *assignment;
    uint64_t most;                         /* operations in a sequence */
    uint64_t issued;                       /* operations issued */
    uint64_t asked;                        /* operations of a call that is being made, which come after them */
    uint64_t pushes, pushed[MOST + 1];     /* the sequence numbers pushed, in this order; the last one may be refused */
    int fsyncs;                            /* an fsync of the object with so many sends comes next */
    uint64_t object, sends;
    struct operation operations[MOST + 1];
    unsigned rests;                        /* the appends of writes across the end; before each stands its overwrite */
    unsigned preceding[MOST];              /* of each operation the set that directly precedes it */
    struct stage stages[MOST + 2];         /* after so many operations; the last is for a call that is refused */
};
extern struct trial now;

struct counts {
    uint64_t sequences[MOST + 1], refused, kinds[FORDER + 1];
    uint64_t apart, touching, loose, common;  /* pairs of operations: no shared operand; one, and not two overwrites; two
                                               * overwrites of a file without and with a common byte */
    uint64_t across, one_slot;                /* writes across the end; those refused with one slot free */
    uint64_t both, overwrite_alone, neither;  /* what was sent of one, over all cuts and fsyncs with too few sends */
    uint64_t by_other;                        /* removes and renames that found their object by another spelling */
    uint64_t case_alone, displacing_other;    /* renames that change only the case; that displace the name in another spelling */
    uint64_t taken_other;                     /* objects not made, since their name was there in another spelling */
    uint64_t wrong_files;                     /* removes by the call for the other kind: files, empty directories, directories */
    uint64_t wrong_empty, wrong_filled;       /* with children */
    uint64_t wrong_full;                      /* of them those made with no slot free */
    uint64_t not_empty;                       /* directories with children given to remove directory */
    uint64_t new_spelling, old_spelling;      /* what the server has of a rename that changes only the case, over all cuts and */
    uint64_t no_spelling;                     /* fsyncs with too few sends: the new spelling, the old one, neither */
    uint64_t looked;                          /* objects then looked up by another spelling */
    uint64_t twice;                           /* volumes with two spellings of a name in a directory */
    uint64_t sets, orders, whole, cuts, losses, fsyncs, links, calls;
};
extern struct counts counts;

/* The first nine arguments of a call. The log has as many slots as a sequence has operations. */
#define SLOTS (now.most ? now.most : 1)
#define LENT(lent) counted(N), B, SLOTS, (lent)->server, VOLUME, (lent)->view, VOLUME, (lent)->log, WB_LOG_BYTES(SLOTS)
uint64_t counted(uint64_t number);                         /* the same number; counts a call that is lent it */

/* ---- Reckoning ---- */
struct volume volume_of(const uint8_t bytes[VOLUME]);
struct stage *stage(void);                                 /* the one after all operations issued */
int in(unsigned set, uint64_t i);
unsigned all(void);                                        /* the operations issued */
void reckon_order(void);                                   /* fills preceding */
int closed(unsigned set);                                  /* nothing outside the set precedes one in it */
unsigned needed(uint64_t object);                          /* what fsync of the object sends */
int first_call(void);                                      /* the operations issued are those of one call */
void outcome(unsigned set, uint8_t bytes[VOLUME]);         /* the replay of the set in issue order; all of it has to apply */

/* An accepted call of the program on the objects: it depends on the operations that lead to one of them. */
void depend(uint32_t dependents[MOST], uint64_t program, const uint64_t *objects, uint64_t count);
uint32_t dependents_of(unsigned set, const uint32_t dependents[MOST]);

/* ---- Comparing; at the first difference the trial is printed and the program ends with 1 ---- */
void fail(const char *text, ...);
void equal(const char *what, uint64_t got, uint64_t wanted);
void answered(const char *what, uint64_t got, uint64_t wanted);
void same(const char *what, const uint8_t *got, const uint8_t *wanted, size_t length);
void unchanged(const char *what, const struct buffers *got, const struct buffers *wanted);

/* The set is sent, the others wait: the server volume is the replay of the set, the view that of all operations, and the log has
 * the others with their dependents. */
void check_waiting(const struct buffers *lent, unsigned sent, const uint32_t dependents[MOST]);

/* After a cut: both volumes are the one given, and the log has the losses still to be fetched, and the marks. */
void check_lost(const struct buffers *lent, const uint8_t volume[VOLUME], unsigned losses, uint32_t marks);

#endif
