/* Changes to the buffers between calls: damage, other moments of the same volume, and logs and volumes that no call has made. */
#include <string.h>
#include "guard.h"

#define MOMENTS 3

/* The three buffers at one time. */
struct moment {
    uint8_t held[LOG + 1][WB_LOG_BYTES(WB_MOST_SLOTS)];
};
static struct moment sound[MOMENTS], before;
static uint64_t undo_in; /* calls until the last change is undone, or left so */
static uint64_t damaged_calls;
static enum buffer twice = LOG;

enum buffer name_twice(void)
{
    return twice;
}

static void keep(struct moment *moment)
{
    int buffer;
    for (buffer = SERVER; buffer <= LOG; buffer++) {
        const uint64_t length = present_length((enum buffer)buffer);
        memcpy(moment->held[buffer], copy_of((enum buffer)buffer, length), length);
    }
}

/* Puts back some of the buffers (bits) as they were. */
static void restore(const struct moment *moment, uint32_t buffers)
{
    int buffer;
    for (buffer = SERVER; buffer <= LOG; buffer++) {
        const uint64_t length = present_length((enum buffer)buffer);
        if (HAS(buffers, buffer))
            put((enum buffer)buffer, length, 0, moment->held[buffer], length);
    }
}
#define ALL_THREE (BIT(SERVER) | BIT(VIEW) | BIT(LOG))

/* ---- Records, logs and volumes that are well formed ---- */
static uint8_t *add(uint8_t *at, uint64_t number, int bytes)
{
    put_number(at, number, bytes);
    return at + bytes;
}

/* Parent and name of an object: those that it has in the view, the name perhaps in another spelling, or any. */
struct place {
    uint64_t parent, length;
    uint8_t name[WB_NAME_BYTES];
};

static struct place place_of(uint64_t object, uint64_t n, int real)
{
    struct place place;
    place.parent = chance(2, 3) ? 0 : below(n);
    place.length = a_name(place.name);
    if (real && object_at(object)[NAME_LENGTH_AT] > 0 && object_at(object)[NAME_LENGTH_AT] <= WB_NAME_BYTES) {
        place.parent = parent_of(object) % n;
        place.length = object_at(object)[NAME_LENGTH_AT];
        memcpy(place.name, object_at(object) + NAME_AT, place.length);
        if (chance(1, 3))
            respell(place.name, place.length);
    }
    return place;
}

static uint8_t *add_name(uint8_t *at, const struct place *place)
{
    *at = (uint8_t)place->length;
    memcpy(at + 1, place->name, place->length);
    return at + 1 + place->length;
}

/* An offset, mostly this one, and data in its block. */
static uint8_t *add_data(uint8_t *at, uint64_t offset, uint64_t longest)
{
    const uint64_t block = below(longest / WB_BLOCK_BYTES) * WB_BLOCK_BYTES;
    const uint64_t within = ONE_OF(0, 0, 1, 2, 4, 1000, WB_BLOCK_BYTES - 1);
    const uint64_t begin = offset < longest && chance(1, 2) ? offset : block + within;
    const uint64_t room = WB_BLOCK_BYTES - begin % WB_BLOCK_BYTES, few = 1 + below(5);
    const uint64_t count = chance(1, 20) || few > room ? room : few;
    at = add(at, begin, 4);
    at = add(at, count, 2);
    memset(at, (int)below(256), count);
    return at + count;
}

static uint8_t *add_list(uint8_t *at, uint64_t n)
{
    const uint64_t wanted = ONE_OF(1, 2, 2, 3, 8), count = wanted < n ? wanted : n, from = below(n);
    uint64_t i;
    *at++ = (uint8_t)count;
    for (i = 0; i < count; i++)
        at = add(at, (from + i) % n, 2);
    return at;
}

/* Puts a valid record that fits n objects and files of that length; with n as it is, mostly one about what the view holds. */
void make_record(uint8_t *record, uint64_t sequence, uint64_t n, uint64_t longest)
{
    static const uint16_t maps[] = {0, 19, 19, 19, 55, 193, 193, 65, 256};
    const int real = n == present.n && chance(2, 3);
    const uint64_t kind = ONE_OF(1, 2, 3, 4, 4, 4, 5, 5, 6, 7, 8);
    const uint64_t object = 1 + below(n - 1), displaced = 1 + (object + below(n - 1)) % (n - 1);
    const uint64_t map = kind == 4 && displaced != object && chance(1, 2) ? 63 : maps[kind];
    const struct place first = place_of(object, n, real), second = place_of(displaced, n, real && map == 63);
    const uint64_t length = real ? length_of(object) % longest : below(longest + 1);
    uint8_t *at = add(record, map, 2);
    at = add(at, sequence, 4);
    at = add(at, ONE_OF(0, 0, 1, 2, 3, 31), 1);
    at = add(at, kind, 1);
    if (HAS(map, 0))
        at = add(at, object, 2);
    if (HAS(map, 1))
        at = add(at, first.parent, 2);
    if (HAS(map, 2))
        at = add(at, second.parent, 2);
    if (HAS(map, 3))
        at = add(at, displaced, 2);
    if (HAS(map, 4))
        at = add_name(at, &first);
    if (HAS(map, 5))
        at = add_name(at, &second);
    if (map == 65)
        at = add(at, ONE_OF(0, 1, 4, length, length, longest - 1, longest), 4);
    if (HAS(map, 7))
        at = add_data(at, length, longest);
    if (HAS(map, 8))
        add_list(at, n);
}

/* Makes a log of lost and then waiting operations, with gaps in the numbers and any dependents. */
static void make_log(void)
{
    static uint8_t log[WB_LOG_BYTES(WB_MOST_SLOTS)];
    const uint64_t count = present.m - below(present.m / 2 + 1), lost = below(count / 2 + 1);
    uint64_t sequence = ONE_OF(0, 0, 5, 4294960000), slot;
    memset(log, 0, WB_LOG_BYTES(present.m));
    for (slot = 0; slot < count; slot++) {
        uint8_t *const at = log + WB_LOG_HEAD_BYTES + slot * WB_SLOT_BYTES, *const record = at + RECORD_AT;
        uint32_t issuer;
        sequence += 1 + below(3);
        at[STATE_AT] = slot < lost ? STATE_LOST : STATE_WAITING;
        make_record(record, sequence, present.n, WB_BLOCK_BYTES * present.b);
        issuer = BIT(record[RECORD_PROGRAM_AT]);
        if (slot >= lost)
            put_number(at + DEPENDENTS_AT, ONE_OF(issuer, issuer, 0, 5, BIT(31), UINT32_MAX), 4);
    }
    put_number(log + NEXT_AT, ONE_OF(sequence + 1, sequence + 1, sequence + 9, WIDE - 1, WIDE - 2, WIDE - 3), 4);
    put_number(log + MARKS_AT, ONE_OF(0, 0, 0, 4, BIT(31)), 4);
    put(LOG, WB_LOG_BYTES(present.m), 0, log, WB_LOG_BYTES(present.m));
}

/* Makes a server volume of entries each in a directory of a lower number, with names that differ. */
void make_volume(void)
{
    static uint8_t volume[WB_LOG_BYTES(WB_MOST_SLOTS)];
    const uint64_t length = present_length(SERVER), directories = ONE_OF(1, 2, 2, 4, 12);
    uint64_t object;
    memset(volume, 0, length);
    volume[KIND_AT] = DIRECTORY;
    for (object = 1; object < present.n; object++) {
        uint8_t *const at = volume + object * ENTRY_BYTES;
        const uint64_t parent = below(object), bytes = chance(1, 4) ? below(WB_BLOCK_BYTES * present.b + 1) : below(12);
        uint64_t name;
        if (volume[parent * ENTRY_BYTES + KIND_AT] != DIRECTORY || chance(1, 3))
            continue;
        at[KIND_AT] = chance(directories, 16) ? DIRECTORY : FILE_KIND;
        put_number(at + PARENT_AT, parent, 2);
        name = ONE_OF(2, 2, 2, WB_NAME_BYTES - 1, WB_NAME_BYTES);
        at[NAME_LENGTH_AT] = (uint8_t)name;
        memset(at + NAME_AT, 'a' + (int)(object % 16), name);
        at[NAME_AT + name - 1] = (uint8_t)('a' + object / 16);
        if (chance(1, 2))
            respell(at + NAME_AT, name);
        if (at[KIND_AT] == FILE_KIND) {
            put_number(at + LENGTH_AT, bytes, 4);
            memset(at + DATA_AT, (int)below(256), bytes);
        }
    }
    put(SERVER, length, 0, volume, length);
}

/* ---- Damage ---- */

/* A byte of the log: of its head, or of the head, the record or the end of a slot that is used, or of the next. */
static uint64_t place_in_log(void)
{
    static const uint64_t within[] = {0, 0, 1, 3, 4, 7, 8, 8, 9, 10, 10, 13, 14, 14, 15, 15, 16, 17, 18, 19, 20, 21, 22, 23, 24,
        25, 28, 40, WB_SLOT_BYTES - 1};
    const uint64_t used = slots_used(), slot = below(used < present.m ? used + 1 : used);
    if (chance(1, 10))
        return below(WB_LOG_HEAD_BYTES);
    return WB_LOG_HEAD_BYTES + slot * WB_SLOT_BYTES + (chance(1, 10) ? below(WB_SLOT_BYTES) : PICK(within));
}

/* A byte of a volume: of the head, name or length of an entry, at the end of the file, or anywhere. */
static uint64_t place_in_volume(void)
{
    const uint64_t object = below(present.n), end = DATA_AT + length_of(object) % (WB_BLOCK_BYTES * present.b);
    const uint64_t name = NAME_AT + object_at(object)[NAME_LENGTH_AT] % WB_NAME_BYTES, anywhere = below(ENTRY_BYTES);
    return object * ENTRY_BYTES + ONE_OF(KIND_AT, KIND_AT, NAME_LENGTH_AT, PARENT_AT, PARENT_AT, PARENT_AT + 1, NAME_AT,
                                         NAME_AT + 1, name, name - 1, LENGTH_AT - 1, LENGTH_AT, LENGTH_AT + 1, LENGTH_AT + 2,
                                         LENGTH_AT + 3, end, ENTRY_BYTES - 1, anywhere);
}

static void damage(void)
{
    const enum buffer buffer = (enum buffer)ONE_OF(SERVER, VIEW, LOG, LOG);
    const uint64_t length = present_length(buffer), at = buffer == LOG ? place_in_log() : place_in_volume();
    const uint8_t *const bytes = copy_of(buffer, length);
    const uint8_t old = bytes[at], two_before = bytes[at < 2 ? at : at - 2], six_before = bytes[at < 6 ? at : at - 6];
    const uint8_t random = (uint8_t)any();
    const uint8_t byte = (uint8_t)ONE_OF(0, 1, 2, 3, 46, 47, 61, 97, 98, 255, random, two_before, six_before, old + 1u, old - 1u,
                                         old ^ 128u, old ^ 32u);
    put(buffer, length, at, &byte, 1);
}

/* Whether the three buffers are well formed: a call then comes as far as to its program. */
static int is_sound(void)
{
    struct call call;
    struct lent lent[LOG + 1];
    int buffer;
    lend_present(&call, RENEW);
    for (buffer = SERVER; buffer <= LOG; buffer++)
        lent[buffer] = lend(&call, (enum buffer)buffer, SECOND);
    return second_renew(present.n, present.b, present.m, lent[SERVER].read, lent[SERVER].length, lent[VIEW].read,
                        lent[VIEW].length, lent[LOG].write, lent[LOG].length, WB_PROGRAMS).returned == WB_BAD_PROGRAM;
}

/* Gives an entry of the server volume or the view the name of another in its directory, in another spelling. All else stays as it
 * is; nothing is done where the form is broken, no directory has two entries, or the name has no letter. */
static void spell_twice(void)
{
    const enum buffer volume = chance(1, 2) ? SERVER : VIEW;
    const uint64_t first = 1 + below(present.n - 1), from = below(present.n);
    const uint8_t *const stored = entry_at(volume, first);
    uint8_t name[1 + WB_NAME_BYTES] = {0};
    uint64_t i;
    if (!is_sound() || stored[KIND_AT] == FREE)
        return;
    name[0] = stored[NAME_LENGTH_AT];
    memcpy(name + 1, stored + NAME_AT, name[0]);
    respell(name + 1, name[0]);
    for (i = from; i < from + present.n && twice == LOG && memcmp(name + 1, stored + NAME_AT, name[0]) != 0; i++) {
        const uint64_t second = i % present.n;
        const uint8_t *const other = entry_at(volume, second);
        if (second == 0 || second == first || other[KIND_AT] == FREE || memcmp(other + PARENT_AT, stored + PARENT_AT, 2) != 0)
            continue;
        put(volume, present_length(volume), second * ENTRY_BYTES + NAME_LENGTH_AT, name, 1);
        put(volume, present_length(volume), second * ENTRY_BYTES + NAME_AT, name + 1, WB_NAME_BYTES);
        twice = volume;
    }
}

/* The next sequence number comes near its end; the log stays well formed. */
static void near_the_end(void)
{
    uint8_t next[4];
    put_number(next, ONE_OF(WIDE - 1, WIDE - 2, WIDE - 2, WIDE - 3, WIDE - 3, WIDE - 4), 4);
    put(LOG, present_length(LOG), NEXT_AT, next, sizeof next);
}

/* Now and then changes the buffers, after some calls undoes it, or leaves it so. */
void disturb(void)
{
    const uint64_t sort = below(1200), which = below(MOMENTS);
    if (undo_in > 0) {
        if (--undo_in > 0)
            return;
        twice = LOG;
        if (chance(7, 8))
            restore(&before, ALL_THREE);
        return;
    }
    if (sort >= 50)
        return;
    keep(&before);
    undo_in = sort < 24 || sort >= 42 ? 1 + below(5) : 10 + below(30);
    if (sort < 24)
        do
            damage();
        while (chance(1, 8));
    else if (sort < 26)
        near_the_end();
    else if (sort < 32)
        restore(&sound[which], ONE_OF(BIT(SERVER), BIT(VIEW), BIT(LOG), BIT(LOG), BIT(SERVER) | BIT(VIEW), ALL_THREE));
    else if (sort < 42)
        make_log();
    else
        spell_twice();
}

/* Keeps a moment now and then when the form is good; goes back to one when it has been broken for long. */
void note_answer(const struct call *call, uint64_t returned)
{
    const int usual = call->length[SERVER] == present_length(SERVER) && call->length[VIEW] == present_length(VIEW)
        && call->length[LOG] == present_length(LOG) && call->number[B] == present.b;
    if (!usual || call->entry <= MOUNT || call->entry == RECORD || returned == WB_WRONG_BUFFER)
        return;
    damaged_calls = returned == WB_DAMAGED ? damaged_calls + 1 : 0;
    if (returned == WB_ACCEPTED && chance(1, 100))
        keep(&sound[below(MOMENTS)]);
    if (damaged_calls > 12 && undo_in == 0)
        restore(&sound[below(MOMENTS)], ALL_THREE);
}

void begin_moments(void)
{
    int i;
    undo_in = damaged_calls = 0;
    twice = LOG;
    for (i = 0; i < MOMENTS; i++)
        keep(&sound[i]);
}
