/* A host's own reading of a volume in its stored form, and its own replay of operations on one. The library is not asked, so
 * that the server volume can be compared with the replay of what was sent. */
#ifndef REPLAY_H
#define REPLAY_H

#include "operation.h"

/* A volume of n objects and b blocks a file: WB_VOLUME_BYTES(n, b) bytes. */
struct volume {
    uint64_t n, b;
    uint8_t *bytes;
};

enum { FREE = 0, FILE_ENTRY = 1, DIRECTORY_ENTRY = 2 };

uint64_t kind_at(const struct volume *volume, uint64_t object);   /* FREE, FILE_ENTRY or DIRECTORY_ENTRY */
uint64_t parent_at(const struct volume *volume, uint64_t object);
uint64_t length_at(const struct volume *volume, uint64_t object); /* of a file, in bytes */

/* Where the name begins, with its length, and where the data of a file begin. */
const uint8_t *name_at(const struct volume *volume, uint64_t object, uint64_t *length);
const uint8_t *data_at(const struct volume *volume, uint64_t object);

/* The object that the name leads to in the directory, in whatever spelling; n if there is none. */
uint64_t sought(const struct volume *volume, uint64_t directory, const uint8_t *name, uint64_t length);

/* Whether the directory has children. */
int has_children(const struct volume *volume, uint64_t directory);

/* Whether the operation's own conditions hold in the volume and its names lead to its objects. */
int applies(const struct volume *volume, const struct operation *operation);

/* Applies the operation if it applies there; tells whether it did. A replay does so with a set of operations in issue order. */
int replay(struct volume *volume, const struct operation *operation);

/* The operations of a call that asks for this one in a view, in issue order; tells how many. It is the one asked for, but a write
 * across the end of a file is an overwrite of the bytes up to the length and an append of the rest. */
uint64_t divide(const struct volume *view, const struct operation *asked, struct operation parts[2]);

#endif
