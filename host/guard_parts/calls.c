/* Sensible calls: what the present view and log allow, and near it. */
#include <string.h>
#include "guard.h"

#define ANY_USED (BIT(FILE_KIND) | BIT(DIRECTORY))

void text(struct call *call, enum buffer buffer, const void *bytes, uint64_t length)
{
    call->length[buffer] = length;
    if (length > 0)
        put(buffer, length, 0, bytes, length);
}

/* Puts a name into a room of WB_NAME_BYTES and gives its length. */
uint64_t a_name(uint8_t *name)
{
    static const char *const names[] = {"a", "a", "a", "b", "b", "c", "Task", "task", "...", "\xff\x01.", "@", "[", "7", "Z\xc0",
        "nnnnnnnnnnnnnnnnnnnnnnnnnnnnnnnnnnnnnnnnnnnnnnnnnnnnnnnnnnnn"};
    const char *const chosen = PICK(names);
    uint64_t length = strlen(chosen);
    memcpy(name, chosen, length);
    if (present.n > 12 && length < 50)
        for (; length < 6; length++)
            name[length] = (uint8_t)('a' + below(8));
    if (chance(1, 4))
        respell(name, length);
    return length;
}

/* Mostly an object of one of these kinds, now and then any number up to n. */
static uint64_t mostly(uint32_t kinds)
{
    return chance(1, 14) ? below(present.n + 1) : object_of(kinds);
}

/* Mostly a program that is not marked. */
static uint64_t a_program(void)
{
    static const uint64_t programs[] = {0, 0, 1, 1, 2, 3, 31};
    uint64_t program = PICK(programs);
    int tries;
    for (tries = 0; tries < 6 && marked(program) && !chance(1, 8); tries++)
        program = PICK(programs);
    return program;
}

static void a_name_for(struct call *call, enum buffer buffer)
{
    uint8_t name[WB_NAME_BYTES];
    const uint64_t length = a_name(name);
    text(call, buffer, name, length);
}

/* Parent and name of an object of one of these kinds, if it has them. */
static void place_for(struct call *call, enum number parent, enum buffer name, uint32_t kinds)
{
    uint64_t object = object_of(kinds);
    if (object == 0)
        object = object_of(kinds);
    if (object == 0 || object >= present.n) {
        call->number[parent] = mostly(BIT(DIRECTORY));
        a_name_for(call, name);
        return;
    }
    call->number[parent] = parent_of(object);
    text(call, name, object_at(object) + NAME_AT, object_at(object)[NAME_LENGTH_AT]);
}

/* The text that the call is lent becomes another spelling of it, or a text that nearly is one. */
static void spell_anew(struct call *call, enum buffer buffer)
{
    uint8_t bytes[WB_PATH_BYTES + 80];
    const uint64_t length = call->length[buffer];
    memcpy(bytes, copy_of(buffer, length), length);
    if (chance(1, 3))
        shift(bytes, length);
    else
        respell(bytes, length);
    text(call, buffer, bytes, length);
}

/* A buffer to be written: its bytes are the same all over, so that a byte changed too much shows. */
static void room_for(struct call *call, uint64_t length)
{
    call->length[OWN] = length;
    fill(OWN, length, (uint8_t)(1 + below(255)));
}

/* The path to an object, and now and then more behind it. */
static void choose_lookup(struct call *call)
{
    static const char *const endings[] = {"", "", "", "", "", "", "", "", "/a", "/b", "/", "/.", "x", "/task/a"};
    const char *const ending = PICK(endings);
    uint8_t path[WB_PATH_BYTES + 80];
    uint64_t object = object_of(ANY_USED), at = WB_PATH_BYTES + 70;
    const uint64_t end = at + strlen(ending);
    memcpy(path + at, ending, strlen(ending));
    for (; object != 0 && object < present.n && at > 256; object = parent_of(object)) {
        const uint64_t length = object_at(object)[NAME_LENGTH_AT];
        at -= length + 1;
        path[at] = '/';
        memcpy(path + at + 1, object_at(object) + NAME_AT, length);
    }
    if (at == end)
        path[--at] = '/';
    text(call, OWN, path + at, end - at);
    if (chance(1, 3))
        spell_anew(call, OWN);
}

static void choose_list(struct call *call)
{
    uint64_t exact, some = below(100);
    call->number[OBJECT] = mostly(BIT(DIRECTORY));
    exact = listing_of(call->number[OBJECT]);
    room_for(call, ONE_OF(exact, exact, exact + 1, exact > 0 ? exact - 1 : 0, some, WB_LISTING_BYTES(present.n)));
}

static void choose_stat(struct call *call)
{
    call->number[OBJECT] = mostly(ANY_USED);
}

static void choose_read(struct call *call)
{
    const uint64_t object = call->number[OBJECT] = mostly(BIT(FILE_KIND));
    const uint64_t length = length_of(object) % (LONGEST_FILE + 1), inside = below(length + 2), some = below(24);
    const uint64_t offset = call->number[OFFSET] = ONE_OF(0, length, inside, inside, inside);
    const uint64_t rest = offset < length ? length - offset : 0;
    room_for(call, ONE_OF(some, some, some, rest, rest + 1, rest > 0 ? rest - 1 : 0));
}

/* Now and then by a name that is there in another spelling, or that nearly is. */
static void choose_create(struct call *call)
{
    call->number[PARENT] = mostly(BIT(DIRECTORY));
    call->number[OBJECT] = mostly(BIT(FREE));
    a_name_for(call, OWN);
    if (chance(1, 6)) {
        place_for(call, PARENT, OWN, ANY_USED);
        spell_anew(call, OWN);
    }
}

/* Mostly the place of an object of one of these kinds, often in another spelling. */
static void choose_place(struct call *call, uint32_t kinds)
{
    place_for(call, PARENT, OWN, kinds);
    if (chance(1, 3))
        spell_anew(call, OWN);
    if (chance(1, 12))
        a_name_for(call, OWN);
    if (chance(1, 12))
        call->number[PARENT] = mostly(ANY_USED);
}

/* Mostly an object of the kind that the call takes, else one of the other kind; now and then in a free object. */
static void choose_removal(struct call *call)
{
    const uint32_t right = call->entry == REMOVE_FILE ? BIT(FILE_KIND) : BIT(DIRECTORY);
    choose_place(call, chance(2, 3) ? right : ANY_USED & ~right);
    if (chance(1, 24))
        call->number[PARENT] = object_of(BIT(FREE));
}

/* The second name becomes the first, as it is given or as the object has it. */
static void name_again(struct call *call)
{
    const uint8_t *const name = copy_of(OWN, call->length[OWN]);
    const uint64_t object = sought(call->number[PARENT], name, call->length[OWN]);
    call->number[SECOND_PARENT] = call->number[PARENT];
    if (object < present.n && chance(1, 2))
        text(call, SECOND_NAME, object_at(object) + NAME_AT, object_at(object)[NAME_LENGTH_AT]);
    else
        text(call, SECOND_NAME, name, call->length[OWN]);
}

/* To another name, in the same directory or in any; to the place of another object; or to its own name. Each often in another
 * spelling. */
static void choose_rename(struct call *call)
{
    const uint32_t kinds = ONE_OF(BIT(FILE_KIND), BIT(FILE_KIND), BIT(DIRECTORY), ANY_USED);
    const uint64_t sort = below(8);
    choose_place(call, kinds);
    place_for(call, SECOND_PARENT, SECOND_NAME, sort < 2 ? kinds : ANY_USED);
    if (sort == 2 || sort == 3)
        call->number[SECOND_PARENT] = call->number[PARENT];
    if (sort == 3 || sort == 4 || sort == 5)
        a_name_for(call, SECOND_NAME);
    if (sort == 5)
        call->number[SECOND_PARENT] = mostly(BIT(DIRECTORY));
    if (sort == 6)
        name_again(call);
    if (chance(1, 3))
        spell_anew(call, SECOND_NAME);
}

/* Now and then a write that just meets an overwrite in the log, or just does not. */
static uint64_t beside(struct call *call, uint64_t count)
{
    const uint64_t used = slots_used();
    const uint8_t *const record = slot_at(used > 0 ? below(used) : 0) + RECORD_AT;
    const uint8_t *const fields = record + RECORD_FIELDS_AT; /* of an overwrite: object (2), offset (4), data (length 2, bytes) */
    const uint64_t begin = number_at(fields + 2, 4), end = begin + number_at(fields + 6, 2);
    if (record[RECORD_KIND_AT] != 5 || chance(1, 2))
        return call->number[OFFSET];
    call->number[OBJECT] = fields[0];
    return ONE_OF(end, end - 1, begin > count ? begin - count : 0, begin + 1 > count ? begin + 1 - count : 0);
}

/* So many bytes that the call writes, but at most one more than a block has. */
static void put_data(struct call *call, uint64_t count)
{
    enum { MOST = WB_BLOCK_BYTES + 1 };
    uint64_t data[(MOST + 7) / 8], i;
    for (i = 0; i < sizeof data / sizeof *data; i++)
        data[i] = any();
    text(call, OWN, data, count < MOST ? count : MOST);
}

/* A few bytes before the end of the file and a few behind it, or all of the block, or one byte more than the block has. */
static void choose_across(struct call *call, uint64_t length)
{
    const uint64_t begun = length % WB_BLOCK_BYTES, rest = WB_BLOCK_BYTES - begun, few = 1 + below(6), more = 1 + below(6);
    const uint64_t before = ONE_OF(few, few, few, few, begun, begun + 1), old = before < begun ? before : begun;
    const uint64_t behind = ONE_OF(more, more, more, more, rest, rest + 1);
    call->number[OFFSET] = length - (chance(1, 12) && before <= length ? before : old);
    put_data(call, length - call->number[OFFSET] + behind);
}

/* An overwrite or an append of a few bytes, now and then of many, or one that just does not fit; often a write across the end. */
static void choose_write(struct call *call)
{
    static const uint64_t counts[] = {0, 100, 300, 512, WB_BLOCK_BYTES - 4, WB_BLOCK_BYTES - 1, WB_BLOCK_BYTES, WB_BLOCK_BYTES + 1};
    const uint64_t length = length_of(call->number[OBJECT] = mostly(BIT(FILE_KIND))) % (LONGEST_FILE + 1);
    const uint64_t inside = below(length + 2), block = length / WB_BLOCK_BYTES * WB_BLOCK_BYTES, few = 1 + below(6);
    const uint64_t offset = call->number[OFFSET] = ONE_OF(length, length, inside, inside, inside, 0, block);
    const uint64_t room = offset < length ? length - offset : WB_BLOCK_BYTES - offset % WB_BLOCK_BYTES;
    if (length > 0 && chance(1, 3)) {
        choose_across(call, length);
        return;
    }
    put_data(call, chance(1, 10) ? PICK(counts) : chance(1, 12) || few < room ? few : room);
    call->number[OFFSET] = beside(call, call->length[OWN]);
}

static void choose_setlen(struct call *call)
{
    const uint64_t most = WB_BLOCK_BYTES * present.b, length = length_of(call->number[OBJECT] = mostly(BIT(FILE_KIND)));
    const uint64_t few = below(20), any_length = below(most + 2);
    call->number[LENGTH] = ONE_OF(few, few, few, length, any_length, most, most - 1, most + 1, most - 512, WB_BLOCK_BYTES);
}

static void choose_forder(struct call *call)
{
    uint8_t list[2 * WB_LIST_OBJECTS];
    const uint64_t count = ONE_OF(1, 1, 1, 2, 2, 2, 3, 8), from = mostly(ANY_USED);
    uint64_t i;
    for (i = 0; i < count; i++)
        put_number(list + 2 * i, i == 0 ? from : i == 1 ? mostly(ANY_USED) : (from + i) % present.n, 2);
    text(call, OWN, list, 2 * count);
}

static void choose_push(struct call *call)
{
    const uint64_t lost = slots_lost(), waiting = slots_used() - lost;
    const uint64_t slot = chance(1, 3) ? lost : lost + below(waiting);
    call->number[SEQUENCE] = waiting == 0 || chance(1, 12) ? below(20) : sequence_of(slot);
}

static void choose_fsync(struct call *call)
{
    call->number[OBJECT] = mostly(ANY_USED);
    call->number[SENDS] = ONE_OF(99, 99, 99, 99, WIDE, UINT64_MAX, 5, 4, 3, 2, 1, 0);
}

static void choose_take(struct call *call)
{
    const uint64_t lost = slots_lost(), least = WB_RECORD_BYTES;
    if (lost > 0 && !chance(1, 8))
        call->number[PROGRAM] = issuer_of(below(lost));
    room_for(call, ONE_OF(least, least, least, least, least, least + 1, 1100, least - 1, 30, 0));
}

/* A marked program, if there is one among a few. */
static void choose_renew(struct call *call)
{
    int tries;
    for (tries = 0; tries < 10 && !marked(call->number[PROGRAM]); tries++)
        call->number[PROGRAM] = ONE_OF(0, 1, 2, 3, 31);
}

/* Records one behind the other, of the log or made here, and the place of one of them. */
static void choose_record(struct call *call)
{
    static uint8_t row[5 * (WB_RECORD_BYTES + 8)];
    const uint64_t count = below(4), used = slots_used();
    uint64_t places[4] = {0}, i, end = 0, junk, changed;
    for (i = 0; i < count; i++) {
        struct wb_loss found;
        places[i] = end;
        if (used > 0 && chance(1, 2))
            memcpy(row + end, slot_at(below(used)) + RECORD_AT, WB_RECORD_BYTES);
        else
            make_record(row + end, ONE_OF(1, 1, 7, 65536, WB_LAST_SEQUENCE, WIDE - 1), WB_MOST_OBJECTS, LONGEST_FILE);
        found = second_record(end, row, end + WB_RECORD_BYTES);
        end = found.returned == WB_ACCEPTED ? found.next : end + 20;
    }
    junk = below(12);
    for (i = 0; i < junk; i++)
        row[end + i] = (uint8_t)any();
    changed = places[below(4)];
    changed += below(chance(3, 4) ? 20 : end + 1);
    if (chance(1, 4))
        row[changed] = (uint8_t)ONE_OF(0, 1, 2, 46, 47, 61, 255, junk, row[RECORD_FIELDS_AT], row[RECORD_FIELDS_AT + 2]);
    end += junk;
    text(call, OWN, row, chance(1, 6) ? below(end + 1) : end);
    call->number[AT] = chance(1, 8) ? below(end + 2) : places[below(4)];
}

static enum entry weighted(void)
{
    static const uint8_t weights[ENTRY_COUNT] = {[FORMAT] = 1, [MOUNT] = 2, [LOOKUP] = 60, [LIST] = 50, [STAT] = 40, [READ] = 60,
        [CREATE] = 110, [MKDIR] = 80, [REMOVE_FILE] = 50, [REMOVE_DIRECTORY] = 50, [RENAME] = 120, [WRITE] = 170, [SETLEN] = 55,
        [FORDER] = 50, [PUSH] = 120, [FSYNC] = 50, [CUT] = 12, [TAKE] = 30, [RENEW] = 35, [RECORD] = 50};
    uint64_t total = 0, rest, entry;
    for (entry = 0; entry < ENTRY_COUNT; entry++)
        total += weights[entry];
    rest = below(total);
    for (entry = 0; rest >= weights[entry]; entry++)
        rest -= weights[entry];
    return (enum entry)entry;
}

/* Whether there is something for the entry to work on. */
static int useful(enum entry entry)
{
    switch (entry) {
    case READ: case WRITE: case SETLEN: return has_object(BIT(FILE_KIND));
    case CREATE: case MKDIR: return has_object(BIT(FREE));
    case PUSH: return slots_used() > slots_lost();
    case TAKE: return slots_lost() > 0;
    case RENEW: return marks() != 0;
    default: return 1;
    }
}

/* By weight; but a full log is often made less full, losses are often taken, the last two sequence numbers often go to a write,
 * with a name twice in a directory all entries come, and what is of no use is seldom called. */
static enum entry choose_entry(void)
{
    const uint64_t used = slots_used(), lost = slots_lost(), next = next_sequence();
    enum entry entry = weighted();
    if ((next == WIDE - 3 || next == WIDE - 2) && has_object(BIT(FILE_KIND)) && chance(1, 3))
        return WRITE;
    if (name_twice() != LOG && chance(1, 2))
        return (enum entry)(MOUNT + below(RENEW - MOUNT + 1));
    if (lost > 0 && chance(1, used == present.m ? 3 : 12))
        return (enum entry)ONE_OF(TAKE, TAKE, TAKE, RENEW);
    if (used > lost && chance(1, used == present.m ? 3 : 12))
        return (enum entry)ONE_OF(PUSH, PUSH, PUSH, PUSH, PUSH, FSYNC);
    while (!useful(entry) && !chance(1, 12))
        entry = weighted();
    return entry;
}

void lend_present(struct call *call, enum entry entry)
{
    int buffer;
    memset(call, 0, sizeof *call);
    call->entry = entry;
    call->number[N] = present.n;
    call->number[B] = present.b;
    call->number[M] = present.m;
    for (buffer = SERVER; buffer <= LOG; buffer++)
        call->length[buffer] = present_length((enum buffer)buffer);
    for (buffer = SERVER; buffer < BUFFERS; buffer++)
        call->null[buffer] = chance(1, 2);
}

void choose(struct call *call)
{
    static void (*const choosers[ENTRY_COUNT])(struct call *) = {[LOOKUP] = choose_lookup, [LIST] = choose_list,
        [STAT] = choose_stat, [READ] = choose_read, [CREATE] = choose_create, [MKDIR] = choose_create,
        [REMOVE_FILE] = choose_removal, [REMOVE_DIRECTORY] = choose_removal, [RENAME] = choose_rename, [WRITE] = choose_write,
        [SETLEN] = choose_setlen, [FORDER] = choose_forder, [PUSH] = choose_push, [FSYNC] = choose_fsync, [TAKE] = choose_take,
        [RENEW] = choose_renew, [RECORD] = choose_record};
    lend_present(call, choose_entry());
    call->number[PROGRAM] = a_program();
    if (choosers[call->entry])
        choosers[call->entry](call);
}
