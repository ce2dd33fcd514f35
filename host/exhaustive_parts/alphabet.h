/* The alphabet of host/exhaustive and the volumes that its sequences start from. */
#ifndef ALPHABET_H
#define ALPHABET_H

#include "replay.h"

/* A call as chosen before the state is known in which it is made. A file or directory is removed or renamed by the name that it
 * then has, as stored or in another spelling, and an append begins at the length that the file then has, or so many bytes before
 * it. */
struct letter {
    enum kind kind;
    uint64_t object, parent;         /* of a rename the second parent */
    const char *name;                /* of a rename the second name */
    int other;                       /* of a remove or rename: each letter of the name that it has is given in the other case */
    uint64_t offset, length;         /* of a write; of a set length the offset is the new length */
    uint64_t before;                 /* of an append: with some bytes before the length it is a write across the end */
    uint64_t list_length, list[3];
};

extern const struct letter alphabet[];
extern const uint64_t letter_count;

/* A volume, with the letters that make it. */
struct start {
    const char *text;
    uint64_t count;
    struct letter letters[6];
};

extern const struct start starts[];
extern const uint64_t start_count;

/* The operation that the letter asks for in a view, but for its program. Each sequence number writes bytes of its own. A write
 * across the end is here one overwrite; see divide in replay.h. */
void spell(const struct letter *letter, const struct volume *view, uint64_t sequence, struct operation *operation);

/* Whether the call of the operation has to be accepted in a view with slots enough; of two operations the first is given. */
int acceptable(const struct volume *view, const struct operation *operation);

#endif
