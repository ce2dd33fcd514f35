/* The class: one program a pupil, with a folder of its own and one that it shares with its group. */
#ifndef PUPILS_H
#define PUPILS_H

#include "naming.h"

#define GROUP_PUPILS 4

struct pupil {
    uint64_t program;
    uint64_t folder, shared; /* its directories */
    int settled;             /* it knows them */
    int at_work;
    enum { NOT_SAVING, CREATED, WRITTEN, ORDERED } saving; /* how far the new file is when it saves one */
    uint64_t fresh, old;     /* then the new file, and the one that it takes the place of */
};

struct class {
    struct pupil pupils[WB_PROGRAMS];
    uint64_t count, turns;
    uint64_t looked, made;   /* folders that were looked for, and made */
};

/* A smaller class where there are few operations. */
void gather(struct class *class, uint64_t operations);

/* The pupils come in: each looks for its folders and makes those that are not there, up to so many operations. */
void come_in(struct host *host, struct class *class, uint64_t operations);

/* One pupil at work does one thing, a change or a question; now and then one at rest has a look. Tells the returned number. */
uint64_t take_turn(struct host *host, struct class *class);

/* After a broken link: the marked ones look for their folders again, and begun saves are given up. */
void start_again(struct class *class, uint64_t marked);

/* A free number of the program's own; n if there is none. Each program takes numbers of its own, so that none gets a number which
 * another has freed. */
uint64_t own_number(const struct host *host, uint64_t program);

/* What a pupil does at work, and what one at rest does now and then; see actions.c. */
uint64_t act(struct host *host, struct pupil *pupil);
uint64_t look_in(struct host *host, struct pupil *pupil);

#endif
