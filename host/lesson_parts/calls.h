/* The calls of the lesson. Each is made, timed and counted. Its answer is compared with what the host expects by its own
 * reckoning; the program ends with 1 where they differ. What an accepted call brings is noted. Each tells the returned number. */
#ifndef CALLS_H
#define CALLS_H

#include "host.h"

/* Changes and forder. An accepted one waits. A create is by the call for this kind of operation, a remove by the call for this kind
 * of object, FILE_ENTRY or DIRECTORY_ENTRY. */
uint64_t do_create(struct host *host, uint64_t program, enum kind kind, uint64_t parent, struct name name, uint64_t object);
uint64_t do_remove(struct host *host, uint64_t program, uint64_t kind, uint64_t parent, struct name name);
uint64_t do_rename(struct host *host, uint64_t program, uint64_t parent, struct name name, uint64_t second_parent,
                   struct name second_name);
uint64_t do_write(struct host *host, uint64_t program, uint64_t object, uint64_t offset, const uint8_t *data, uint64_t length);
uint64_t do_setlen(struct host *host, uint64_t program, uint64_t object, uint64_t length);
uint64_t do_forder(struct host *host, uint64_t program, const uint64_t *list, uint64_t count);

/* Questions. Lookup gives the object too. */
struct path {
    uint64_t length;
    uint8_t bytes[WB_PATH_BYTES];
};
uint64_t do_lookup(struct host *host, uint64_t program, const struct path *path, uint64_t *object);
uint64_t do_list(struct host *host, uint64_t program, uint64_t object);
uint64_t do_stat(struct host *host, uint64_t program, uint64_t object);
uint64_t do_read(struct host *host, uint64_t program, uint64_t object, uint64_t offset, uint64_t length);

/* Sends and the link. */
uint64_t do_push(struct host *host, uint64_t place); /* its place among the waiting ones */
uint64_t do_fsync(struct host *host, uint64_t program, uint64_t object, uint64_t sends);
uint64_t do_cut(struct host *host);

/* The first waiting one that directly precedes the one at this place; the place itself if none does. */
uint64_t holder(const struct host *host, uint64_t place);

/* Losses. The fetched one is the earliest of the program's own. */
uint64_t do_take(struct host *host, uint64_t program, struct operation *fetched);
uint64_t do_renew(struct host *host, uint64_t program);

/* Ends the program with 1 unless the answer is the expected one. */
void check_answer(const char *asked, uint64_t program, uint64_t object, struct wb_value answer, struct wb_value expected);

#endif
