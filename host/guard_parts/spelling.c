/* Names that differ only in A to Z against a to z, which are the same name, and names that nearly do, which are not: how they are
 * spelt, and what is answered to them. */
#include <stdio.h>
#include <string.h>
#include "guard.h"

/* The answers that have to come to a call on a name in another spelling. */
static struct answered {
    const char *line; /* what a line of answers begins with */
    enum spelling is;
    enum entry entry;
    uint64_t returned;
    const char *when;
    uint64_t seen;
} answers[] = {
    {"names in another spelling", FOUND, LOOKUP, WB_ACCEPTED, "lookup 0", 0},
    {NULL, FOUND, REMOVE_FILE, WB_ACCEPTED, "remove_file 0", 0},
    {NULL, FOUND, REMOVE_FILE, WB_WRONG_KIND, "9", 0},
    {NULL, FOUND, REMOVE_DIRECTORY, WB_ACCEPTED, "remove_directory 0", 0},
    {NULL, FOUND, REMOVE_DIRECTORY, WB_WRONG_KIND, "9", 0},
    {NULL, FOUND, REMOVE_DIRECTORY, WB_NOT_EMPTY, "11", 0},
    {NULL, FOUND, RENAME, WB_ACCEPTED, "rename 0", 0},
    {NULL, FOUND, PUSH, WB_ACCEPTED, "push of a remove or rename 0", 0},
    {NULL, THERE, CREATE, WB_TAKEN, "create 10", 0},
    {NULL, THERE, MKDIR, WB_TAKEN, "mkdir 10", 0},
    {"renames to another spelling", CASE_OF_FILE, RENAME, WB_ACCEPTED, "0 of a file's own name", 0},
    {NULL, CASE_OF_DIRECTORY, RENAME, WB_ACCEPTED, "0 of that of a directory with children", 0},
    {NULL, STORED, RENAME, WB_ACCEPTED, "0 to the stored one, found by another", 0},
    {NULL, DISPLACED, RENAME, WB_ACCEPTED, "0 of a displaced object's name", 0},
    {NULL, DISPLACED, RENAME, WB_WRONG_KIND, "9", 0},
    {NULL, DISPLACED, RENAME, WB_NOT_EMPTY, "11", 0},
};
enum { ANSWERS = sizeof answers / sizeof *answers };

/* Pairs of bytes that differ by 32, as the two cases of a letter do, and are not the same. */
static struct pair {
    const char *what;
    uint8_t least, most; /* the lower of the two bytes */
    uint64_t made, not_found;
} pairs[] = {
    {"@ and `", '@', '@', 0, 0},
    {"[ and {", '[', '[', 0, 0},
    {"a digit and 32 more", '0', '9', 0, 0},
    {"a digit and 32 less", '0' - 32, '9' - 32, 0, 0},
    {"192 and 224", 192, 192, 0, 0},
};
enum { PAIRS = sizeof pairs / sizeof *pairs, NO_PAIR = PAIRS };

/* How often two spellings of a name in a directory of the server volume or the view were answered with 2. */
static uint64_t twice_seen[VIEW + 1][ENTRY_COUNT];

/* ---- Spelling ---- */
static int is_letter(uint8_t byte)
{
    return (byte >= 'A' && byte <= 'Z') || (byte >= 'a' && byte <= 'z');
}

static int same_byte(uint8_t first, uint8_t second)
{
    return first == second || (is_letter(first) && (first ^ second) == 32);
}

static int same_name(const uint8_t *first, uint64_t first_length, const uint8_t *second, uint64_t second_length)
{
    uint64_t at = 0;
    while (at < first_length && at < second_length && same_byte(first[at], second[at]))
        at++;
    return at == first_length && at == second_length;
}

/* Of all letters, of the first, of the last, or of any. */
void respell(uint8_t *text, uint64_t length)
{
    const uint64_t sort = below(4);
    uint64_t at, first = length, last = length;
    for (at = 0; at < length; at++)
        if (is_letter(text[at])) {
            first = first < at ? first : at;
            last = at;
        }
    for (at = first; at < length; at++)
        if (is_letter(text[at])
            && (sort == 0 || (sort == 1 && at == first) || (sort == 2 && at == last) || (sort == 3 && chance(1, 2))))
            text[at] ^= 32;
}

void shift(uint8_t *text, uint64_t length)
{
    const uint64_t at = length > 0 ? below(length) : 0;
    const uint8_t byte = (uint8_t)(length > 0 ? text[at] + (chance(1, 2) ? 32 : -32) : 0);
    if (length > 0 && text[at] != '/' && byte != '/' && byte != 0)
        text[at] = byte;
}

/* ---- What the view has under a name ---- */
static int is_child(uint64_t object, uint64_t directory)
{
    return object_at(object)[KIND_AT] != FREE && parent_of(object) == directory;
}

uint64_t sought(uint64_t directory, const uint8_t *name, uint64_t length)
{
    uint64_t object = 1;
    while (object < present.n && (!is_child(object, directory)
               || !same_name(object_at(object) + NAME_AT, object_at(object)[NAME_LENGTH_AT], name, length)))
        object++;
    return object;
}

static int spelt_alike(uint64_t object, const uint8_t *name, uint64_t length)
{
    return object_at(object)[NAME_LENGTH_AT] == length && memcmp(object_at(object) + NAME_AT, name, length) == 0;
}

/* The pair that two bytes are. */
static int pair_of(uint8_t first, uint8_t second)
{
    const uint8_t low = first < second ? first : second, high = first < second ? second : first;
    int pair = 0;
    while (pair < PAIRS && (high != low + 32 || low < pairs[pair].least || low > pairs[pair].most))
        pair++;
    return pair;
}

/* The pair in which two names of one length differ, and in nothing else but the case of letters. */
static int pair_of_names(const uint8_t *first, const uint8_t *second, uint64_t length)
{
    int pair = NO_PAIR;
    uint64_t at;
    for (at = 0; at < length; at++) {
        if (same_byte(first[at], second[at]))
            continue;
        pair = pair_of(first[at], second[at]);
        if (pair == NO_PAIR)
            return NO_PAIR;
    }
    return pair;
}

/* The pair in which a name of the directory differs from one that is absent. */
static int near_one(uint64_t directory, const uint8_t *name, uint64_t length)
{
    uint64_t object;
    int pair = NO_PAIR;
    for (object = 1; object < present.n && pair == NO_PAIR; object++)
        if (is_child(object, directory) && object_at(object)[NAME_LENGTH_AT] == length)
            pair = pair_of_names(object_at(object) + NAME_AT, name, length);
    return pair;
}

/* ---- What a call is ---- */
struct text {
    const uint8_t *bytes;
    uint64_t length;
};

static struct text text_of(const struct call *call, enum buffer buffer)
{
    struct text text = {copy_of(buffer, call->length[buffer]), call->length[buffer]};
    return text;
}

/* A name that is to be found: notes whether it is by another spelling, or not though one is near. Gives the object. */
static uint64_t find(struct spelt *spelt, uint64_t directory, struct text name)
{
    const uint64_t object = sought(directory, name.bytes, name.length);
    if (object == present.n)
        spelt->not_found = near_one(directory, name.bytes, name.length);
    else if (!spelt_alike(object, name.bytes, name.length))
        spelt->is |= BIT(FOUND);
    return object;
}

static void look_up(struct spelt *spelt, struct text path)
{
    uint64_t at = 1, object = 0;
    while (at < path.length && object < present.n) {
        struct text name = {path.bytes + at, 0};
        while (at + name.length < path.length && name.bytes[name.length] != '/')
            name.length++;
        object = find(spelt, object, name);
        at += name.length + 1;
    }
}

static void make_new(struct spelt *spelt, const struct call *call, struct text name)
{
    const uint64_t object = sought(call->number[PARENT], name.bytes, name.length);
    if (object == present.n)
        spelt->made = near_one(call->number[PARENT], name.bytes, name.length);
    else if (call->number[OBJECT] < present.n && object_at(call->number[OBJECT])[KIND_AT] == FREE
             && !spelt_alike(object, name.bytes, name.length))
        spelt->is |= BIT(THERE);
}

static void rename_one(struct spelt *spelt, const struct call *call, struct text second)
{
    const uint64_t object = find(spelt, call->number[PARENT], text_of(call, OWN));
    const uint64_t there = sought(call->number[SECOND_PARENT], second.bytes, second.length);
    spelt->not_found = NO_PAIR; /* the answer would depend on the second name too */
    if (object == present.n || second.length > WB_NAME_BYTES)
        return;
    if (there == present.n)
        spelt->made = near_one(call->number[SECOND_PARENT], second.bytes, second.length);
    else if (spelt_alike(there, second.bytes, second.length))
        spelt->is |= there == object && HAS(spelt->is, FOUND) ? BIT(STORED) : 0;
    else if (there != object)
        spelt->is |= BIT(DISPLACED);
    else if (object_at(object)[KIND_AT] == FILE_KIND)
        spelt->is |= BIT(CASE_OF_FILE);
    else if (listing_of(object) > 0)
        spelt->is |= BIT(CASE_OF_DIRECTORY);
}

/* A remove or rename that waits and whose name is not spelt as the server has it. */
static void push_one(struct spelt *spelt, uint64_t sequence)
{
    uint64_t slot = slots_lost();
    const uint64_t used = slots_used();
    while (slot < used && sequence_of(slot) != sequence)
        slot++;
    if (slot < used) {
        const uint8_t *const record = slot_at(slot) + RECORD_AT, *const fields = record + RECORD_FIELDS_AT;
        const uint8_t map = record[RECORD_MAP_AT], kind = record[RECORD_KIND_AT];
        const uint8_t *const name = fields + (map == 19 ? 4 : map == 55 ? 6 : 8); /* behind the objects, 2 bytes each */
        const uint8_t *const stored = entry_at(SERVER, fields[0] % present.n);
        if ((kind == 3 || kind == 4) && name[0] == stored[NAME_LENGTH_AT] && memcmp(name + 1, stored + NAME_AT, name[0]) != 0)
            spelt->is |= BIT(FOUND);
    }
}

struct spelt spelt_of(const struct call *call)
{
    struct spelt spelt = {0, NO_PAIR, NO_PAIR, LOG};
    const struct text own = text_of(call, OWN);
    if (!is_usual(call))
        return spelt;
    spelt.twice = name_twice();
    if (call->entry == LOOKUP && own.length <= WB_PATH_BYTES)
        look_up(&spelt, own);
    else if (call->entry == PUSH)
        push_one(&spelt, call->number[SEQUENCE]);
    else if (HAS(shapes[call->entry].numbers, PARENT) && own.length <= WB_NAME_BYTES) {
        if (is_removal(call->entry))
            find(&spelt, call->number[PARENT], own);
        else if (call->entry == RENAME)
            rename_one(&spelt, call, text_of(call, SECOND_NAME));
        else
            make_new(&spelt, call, own);
    }
    return spelt;
}

/* ---- Counting ---- */
void count_spelt(struct spelt spelt, const struct call *call, uint64_t returned)
{
    struct answered *answer;
    for (answer = answers; answer < answers + ANSWERS; answer++)
        answer->seen += HAS(spelt.is, answer->is) && answer->entry == call->entry && answer->returned == returned;
    if (spelt.made != NO_PAIR && returned == WB_ACCEPTED)
        pairs[spelt.made].made++;
    if (spelt.not_found != NO_PAIR && returned == WB_NO_OBJECT)
        pairs[spelt.not_found].not_found++;
    if (spelt.twice != LOG && returned == WB_DAMAGED)
        twice_seen[spelt.twice][call->entry]++;
}

/* Mount does not look at the view. */
static unsigned say_twice(enum buffer volume)
{
    unsigned missing = 0, entry;
    printf("two spellings of a name in a directory of the %s, 2", buffer_names[volume]);
    for (entry = volume == VIEW ? LOOKUP : MOUNT; entry <= RENEW; entry++) {
        printf("  %s: %s", shapes[entry].name, commas(twice_seen[volume][entry]));
        missing += twice_seen[volume][entry] == 0;
    }
    printf("\n");
    return missing;
}

unsigned say_spelt(void)
{
    unsigned missing = 0;
    const struct answered *answer;
    const struct pair *pair;
    for (answer = answers; answer < answers + ANSWERS; answer++) {
        printf("%s%s  %s: %s", answer->line && answer > answers ? "\n" : "", answer->line ? answer->line : "", answer->when,
               commas(answer->seen));
        missing += answer->seen == 0;
    }
    printf("\nnames that are not the same");
    for (pair = pairs; pair < pairs + PAIRS; pair++) {
        printf("  %s: made beside the other %s, not found by it %s", pair->what, commas(pair->made), commas(pair->not_found));
        missing += (pair->made == 0) + (pair->not_found == 0);
    }
    printf("\n");
    return missing + say_twice(SERVER) + say_twice(VIEW);
}
