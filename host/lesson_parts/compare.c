#include "compare.h"
#include <string.h>

static uint64_t first_difference(const uint8_t *first, const uint8_t *second, uint64_t length)
{
    uint64_t i;
    for (i = 0; i < length && first[i] == second[i]; i++)
        ;
    return i;
}

/* Ends with 1 where a number of the two volumes differs at an object. */
static void same_number(const char *what, const char *field, uint64_t object, uint64_t got, uint64_t wanted)
{
    if (got != wanted)
        fault("%s: object %d has %s %lu; the host's replay has %lu", what, (int)object, field, (unsigned long)got,
              (unsigned long)wanted);
}

static void same_bytes(const char *what, const char *field, uint64_t object, const uint8_t *got, const uint8_t *wanted,
                       uint64_t length)
{
    uint64_t at = first_difference(got, wanted, length);
    if (at < length)
        fault("%s: object %d has, in its %s, byte %lu with the value %d; the host's replay has %d", what, (int)object, field,
              (unsigned long)at, got[at], wanted[at]);
}

/* Field by field, so that the message says where the first difference is. */
static void same_entry(const char *what, const struct volume *got, const struct volume *wanted, uint64_t object)
{
    uint64_t length, wanted_length;
    const uint8_t *name = name_at(got, object, &length), *wanted_name = name_at(wanted, object, &wanted_length);
    same_number(what, "kind", object, kind_at(got, object), kind_at(wanted, object));
    same_number(what, "parent", object, parent_at(got, object), parent_at(wanted, object));
    same_number(what, "name length", object, length, wanted_length);
    same_bytes(what, "name", object, name, wanted_name, WB_NAME_BYTES);
    same_number(what, "length", object, length_at(got, object), length_at(wanted, object));
    same_bytes(what, "data", object, data_at(got, object), data_at(wanted, object), got->b * WB_BLOCK_BYTES);
}

static void same_volume(const char *what, const struct volume *got, const struct volume *wanted)
{
    uint64_t object;
    if (memcmp(got->bytes, wanted->bytes, WB_VOLUME_BYTES(got->n, got->b)) == 0)
        return;
    for (object = 0; object < got->n; object++)
        same_entry(what, got, wanted, object);
    fault("%s differs from the host's replay", what);
}

/* No two names of a directory are the same: each leads to its own object. */
static void different_names(const char *what, const struct volume *volume)
{
    uint64_t object, length;
    for (object = 1; object < volume->n; object++) {
        const uint8_t *name = name_at(volume, object, &length);
        if (kind_at(volume, object) != FREE && sought(volume, parent_at(volume, object), name, length) != object)
            fault("%s: another object of the directory has the name of object %d", what, (int)object);
    }
}

static void replay_sent(struct host *host, uint64_t sequence)
{
    const struct issued *issued = issued_as(host, sequence);
    if (issued->rest && issued_as(host, sequence - 1)->state == FETCHED)
        fault("operation %lu, an append, was sent, and the overwrite of the same write was lost", (unsigned long)sequence);
    if (!replay(&host->replayed, &issued->operation))
        fault("operation %lu, which was sent, does not apply in the host's replay", (unsigned long)sequence);
}

void compare_server(struct host *host)
{
    uint64_t sequence;
    memcpy(host->replayed.bytes, host->mounted.bytes, host->volume_length);
    for (sequence = 1; sequence <= host->issued_count; sequence++)
        if (issued_as(host, sequence)->state != FETCHED)
            replay_sent(host, sequence);
    same_volume("the server volume", &host->server, &host->replayed);
    different_names("the server volume", &host->server);
}

void compare_view(const struct host *host) { same_volume("the view", &host->view, &host->own); }
