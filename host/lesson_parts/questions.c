/* The questions, each with what the host's own view answers. */
#include "calls.h"
#include <string.h>
#include "numbers.h"

#define READ_BYTES 4096
#define FILLER 0xa5 /* what a buffer holds before the call: bytes that are not written have to stay */

static void note_object(struct host *host, uint64_t program, uint64_t object)
{
    uint8_t objects[WB_MOST_OBJECTS] = {0};
    objects[object] = 1;
    note_dependence(host, program, objects);
}

/* Goes along the path in the host's own view. The objects met are marked as operands; tells too whether one is spelt otherwise. */
static struct wb_value expected_lookup(const struct host *host, const struct path *path, uint8_t objects[WB_MOST_OBJECTS],
                                       int *otherwise)
{
    struct wb_value answer = {WB_ACCEPTED, 0};
    uint64_t at = 1, end;
    *otherwise = 0;
    objects[0] = 1;
    while (at < path->length && answer.returned == WB_ACCEPTED) {
        for (end = at; end < path->length && path->bytes[end] != '/'; end++)
            ;
        if (end - at > WB_NAME_BYTES)
            answer.returned = WB_LONG_NAME;
        else if (kind_at(&host->own, answer.value) != DIRECTORY_ENTRY)
            answer.returned = WB_WRONG_KIND;
        else if ((answer.value = sought(&host->own, answer.value, path->bytes + at, end - at)) == host->n)
            answer.returned = WB_NO_OBJECT;
        else {
            objects[answer.value] = 1;
            *otherwise |= spelt_otherwise(host, answer.value, path->bytes + at, end - at);
        }
        at = end + 1;
    }
    answer.value = answer.returned == WB_ACCEPTED ? answer.value : 0;
    return answer;
}

uint64_t do_lookup(struct host *host, uint64_t program, const struct path *path, uint64_t *object)
{
    uint8_t objects[WB_MOST_OBJECTS] = {0};
    int otherwise;
    struct wb_value answer, expected = expected_lookup(host, path, objects, &otherwise);
    CALL(host, ENTRY_LOOKUP, answer, wb_lookup(LENT(host), program, path->bytes, path->length));
    check_answer("lookup", program, expected.value, answer, expected);
    if (answer.returned == WB_ACCEPTED)
        note_dependence(host, program, objects);
    host->looked_otherwise += answer.returned == WB_ACCEPTED && otherwise;
    *object = answer.value;
    return answer.returned;
}

/* The listing by the host's own view; tells its length. */
static uint64_t own_listing(const struct host *host, uint64_t directory, uint8_t *listing)
{
    uint64_t object, length, at = 0;
    const uint8_t *name;
    for (object = 1; object < host->n; object++) {
        if (kind_at(&host->own, object) == FREE || parent_at(&host->own, object) != directory)
            continue;
        name = name_at(&host->own, object, &length);
        put_number(listing + at, object, 2);
        listing[at + 2] = (uint8_t)kind_at(&host->own, object);
        listing[at + 3] = (uint8_t)length;
        memcpy(listing + at + 4, name, length);
        at += 4 + length;
    }
    return at;
}

uint64_t do_list(struct host *host, uint64_t program, uint64_t object)
{
    uint8_t got[WB_LISTING_BYTES(WB_MOST_OBJECTS)], wanted[sizeof got];
    struct wb_value answer, expected = {WB_ACCEPTED, 0};
    memset(got, FILLER, sizeof got);
    memset(wanted, FILLER, sizeof wanted);
    expected.value = own_listing(host, object, wanted);
    CALL(host, ENTRY_LIST, answer, wb_list(LENT(host), program, object, got, sizeof got));
    check_answer("list", program, object, answer, expected);
    if (memcmp(got, wanted, sizeof got) != 0)
        fault("the listing of object %d for program %d is not that of the host's own view", (int)object, (int)program);
    note_object(host, program, object);
    return answer.returned;
}

uint64_t do_stat(struct host *host, uint64_t program, uint64_t object)
{
    int marked = is_marked(host, program);
    struct wb_value expected = {marked ? WB_MARKED : WB_ACCEPTED, marked ? 0 : kind_at(&host->own, object)}, told;
    uint64_t length = marked ? 0 : length_at(&host->own, object), usage = (length + WB_BLOCK_BYTES / 2) / WB_BLOCK_BYTES;
    struct wb_status answer;
    CALL(host, ENTRY_STAT, answer, wb_stat(LENT(host), program, object));
    told.returned = answer.returned;
    told.value = answer.kind;
    check_answer("stat", program, object, told, expected);
    if (answer.length != length || answer.usage != usage)
        fault("stat of object %d by program %d: length %lu and usage %lu; expected were %lu and %lu", (int)object, (int)program,
              (unsigned long)answer.length, (unsigned long)answer.usage, (unsigned long)length, (unsigned long)usage);
    if (!marked)
        note_object(host, program, object);
    return answer.returned;
}

uint64_t do_read(struct host *host, uint64_t program, uint64_t object, uint64_t offset, uint64_t length)
{
    uint8_t got[READ_BYTES], wanted[READ_BYTES];
    struct wb_value answer, expected = {WB_BAD_RANGE, 0};
    uint64_t whole = length_at(&host->own, object);
    memset(got, FILLER, sizeof got);
    memset(wanted, FILLER, sizeof wanted);
    if (length > READ_BYTES)
        length = READ_BYTES;
    if (offset <= whole) {
        expected.returned = WB_ACCEPTED;
        expected.value = length < whole - offset ? length : whole - offset;
        memcpy(wanted, data_at(&host->own, object) + offset, expected.value);
    }
    CALL(host, ENTRY_READ, answer, wb_read(LENT(host), program, object, offset, got, length));
    check_answer("read", program, object, answer, expected);
    if (memcmp(got, wanted, sizeof got) != 0)
        fault("the %lu bytes read at %lu of object %d by program %d are not those of the host's own view",
              (unsigned long)answer.value, (unsigned long)offset, (int)object, (int)program);
    if (answer.returned == WB_ACCEPTED)
        note_object(host, program, object);
    return answer.returned;
}
