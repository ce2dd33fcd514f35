/* The link to the server: it carries waiting operations one by one, in random order, at times fast and at times slowly. */
#ifndef LINK_H
#define LINK_H

#include "calls.h"

struct link {
    uint64_t most, calm; /* the most operations that it lets wait, and how many about when it breaks */
    uint64_t aim, held;  /* how many it lets wait now, and for how many turns it has done so */
};

/* What waited when the last sends before a broken link began: sequence numbers. */
struct burst {
    uint64_t count, sequences[WB_MOST_SLOTS];
};

void begin_link(struct link *link, uint64_t operations);

/* Tries to send one waiting operation. It is mostly one that can go now, and now and then one that may be behind another. */
void carry_one(struct host *host);

/* What the link carries between two turns. When it is soon to break it lets about `calm` operations wait. */
void carry(struct host *host, struct link *link, int soon);

/* Sends all that waits. */
void carry_all(struct host *host);

struct burst burst_of(const struct host *host);

#endif
