/* The boundary between C and the library: that arguments and results pass it whole, for every entry. Run it with ./boundary.
 * It stops with 1 at the first difference. What the calls decide is proved; here only the way in and out is tried. */
#include <stdio.h>
#include <stdlib.h>
#include <string.h>
#include "numbers.h"

#define N 4
#define B 1
#define M 4
#define VOLUME ((size_t)WB_VOLUME_BYTES(N, B))
#define LOG ((size_t)WB_LOG_BYTES(M))
#define ENTRY (VOLUME / N)
#define FIRST_SLOT WB_LOG_HEAD_BYTES
#define SECOND_SLOT (FIRST_SLOT + WB_SLOT_BYTES)
#define WIDE UINT64_C(4294967296)
#define GUARD 64
#define GUARDED(area) {(area) + GUARD, sizeof(area) - 2 * GUARD}

struct bytes {
    uint8_t *at;
    uint64_t length;
};

/* The areas, with bytes around each that have to stay. */
static uint8_t server_area[VOLUME + 2 * GUARD], view_area[VOLUME + 2 * GUARD], log_area[LOG + 2 * GUARD];
static uint8_t own_area[WB_RECORD_BYTES + 2 * GUARD];
static uint8_t *const areas[] = {server_area, view_area, log_area, own_area};
static const size_t sizes[] = {sizeof server_area, sizeof view_area, sizeof log_area, sizeof own_area};
static struct bytes s = GUARDED(server_area), v = GUARDED(view_area), l = GUARDED(log_area), own = GUARDED(own_area);
static const struct bytes null = {NULL, 0};
static unsigned checks;

static void equal(int line, const char *what, const char *field, uint64_t got, uint64_t wanted)
{
    checks++;
    if (got == wanted)
        return;
    printf("boundary.c:%d: %s%s is %llu and should be %llu\n",
           line, what, field, (unsigned long long)got, (unsigned long long)wanted);
    exit(1);
}

static void same(int line, const char *what, const uint8_t *got, const uint8_t *wanted, size_t length)
{
    size_t at = 0;
    while (at < length && got[at] == wanted[at])
        at++;
    checks++;
    if (at == length)
        return;
    printf("boundary.c:%d: %s: byte %lu is %d and should be %d\n", line, what, (unsigned long)at, got[at], wanted[at]);
    exit(1);
}

static void value(int line, const char *what, struct wb_value got, uint64_t returned, uint64_t wanted)
{
    equal(line, what, ".returned", got.returned, returned);
    equal(line, what, ".value", got.value, wanted);
}

static void status(int line, const char *what, struct wb_status got,
                   uint64_t returned, uint64_t kind, uint64_t length, uint64_t usage)
{
    equal(line, what, ".returned", got.returned, returned);
    equal(line, what, ".kind", got.kind, kind);
    equal(line, what, ".length", got.length, length);
    equal(line, what, ".usage", got.usage, usage);
}

#define IS(got, wanted) equal(__LINE__, #got, "", got, wanted)
#define CODE(call, wanted) equal(__LINE__, #call, ".returned", (call).returned, wanted)
#define VALUE(call, ...) value(__LINE__, #call, call, __VA_ARGS__)
#define STATUS(call, ...) status(__LINE__, #call, call, __VA_ARGS__)
#define SAME(got, ...) same(__LINE__, #got, got, __VA_ARGS__)
#define BYTES(got, ...) SAME(got, ((const uint8_t[]){__VA_ARGS__}), sizeof((const uint8_t[]){__VA_ARGS__}))
/* All 19 fields of a loss record, 8 bytes each. */
#define RECORD(call, ...) \
    do { \
        const struct wb_loss got_ = call; \
        const uint64_t wanted_[19] = {__VA_ARGS__}; \
        IS(sizeof got_, sizeof wanted_); \
        same(__LINE__, #call, (const uint8_t *)&got_, (const uint8_t *)wanted_, sizeof wanted_); \
    } while (0)

#define LENT N, B, M, s.at, s.length, v.at, v.length, l.at, l.length
#define TEXT(text) (const uint8_t *)(text), sizeof(text) - 1
#define STRING(text) (const uint8_t *)(text), strlen(text)
#define OWN own.at, own.length

/* Every entry that is lent all three buffers, with arguments told by a struct. */
static const char *const names[] = {"wb_mount", "wb_lookup", "wb_list", "wb_stat", "wb_read", "wb_create", "wb_mkdir",
    "wb_remove_file", "wb_remove_directory", "wb_rename", "wb_write", "wb_setlen", "wb_forder", "wb_push", "wb_fsync", "wb_cut",
    "wb_take", "wb_renew"};
enum { MOUNT, LOOKUP, LIST, STAT, READ, CREATE, MKDIR,
    REMOVE_FILE, REMOVE_DIRECTORY, RENAME, WRITE, SETLEN, FORDER, PUSH, FSYNC, CUT, TAKE, RENEW, ENTRIES };

struct given {
    uint64_t n, b, m, program, directory, file, parent, second_parent, fresh, offset, length, sequence;
    const char *name; /* of what is removed or renamed */
};
/* With the buffers as main() has made them, every entry takes these, but for take, which has nothing to take, and remove directory,
 * since "task" is a file. */
static const struct given usual = {N, B, M, 0, 0, 1, 0, 0, 3, 0, 2, 1, "task"};

static uint64_t only(struct wb_value r)
{
    IS(r.returned != 0 && r.value != 0, 0);
    return r.returned;
}

static uint64_t called(int entry, struct given g)
{
#define GIVEN g.n, g.b, g.m, s.at, s.length, v.at, v.length, l.at, l.length
    struct wb_status t;
    switch (entry) {
    case MOUNT: return wb_mount(GIVEN).returned;
    case LOOKUP: return only(wb_lookup(GIVEN, g.program, TEXT("/task")));
    case LIST: return only(wb_list(GIVEN, g.program, g.directory, OWN));
    case STAT:
        t = wb_stat(GIVEN, g.program, g.file);
        IS(t.returned != 0 && (t.kind != 0 || t.length != 0 || t.usage != 0), 0);
        return t.returned;
    case READ: return only(wb_read(GIVEN, g.program, g.file, g.offset, OWN));
    case CREATE: return only(wb_create(GIVEN, g.program, g.parent, TEXT("new"), g.fresh));
    case MKDIR: return only(wb_mkdir(GIVEN, g.program, g.parent, TEXT("new"), g.fresh));
    case REMOVE_FILE: return only(wb_remove_file(GIVEN, g.program, g.parent, STRING(g.name)));
    case REMOVE_DIRECTORY: return only(wb_remove_directory(GIVEN, g.program, g.parent, STRING(g.name)));
    case RENAME: return only(wb_rename(GIVEN, g.program, g.parent, STRING(g.name), g.second_parent, TEXT("new")));
    case WRITE: return only(wb_write(GIVEN, g.program, g.file, g.offset, TEXT("xy")));
    case SETLEN: return only(wb_setlen(GIVEN, g.program, g.file, g.length));
    case FORDER: return only(wb_forder(GIVEN, g.program, TEXT("\1\0\0\0")));
    case PUSH: return wb_push(GIVEN, g.sequence).returned;
    case FSYNC: return only(wb_fsync(GIVEN, g.program, g.file, WIDE));
    case CUT: return wb_cut(GIVEN).returned;
    case TAKE: return only(wb_take(GIVEN, g.program, OWN));
    case RENEW: return wb_renew(GIVEN, g.program).returned;
    default: return UINT64_MAX;
    }
}

/* The call is refused with the number, and no byte is changed. */
static void refused(int line, int entry, struct given g, uint64_t number)
{
    static uint8_t before[sizeof server_area + sizeof view_area + sizeof log_area + sizeof own_area];
    size_t i, at;
    for (i = at = 0; i < 4; at += sizes[i++])
        memcpy(before + at, areas[i], sizes[i]);
    equal(line, names[entry], "().returned", called(entry, g), number);
    for (i = at = 0; i < 4; at += sizes[i++])
        same(line, names[entry], areas[i], before + at, sizes[i]);
}
#define REFUSED(entry, field, wanted, number) \
    do { \
        struct given g_ = usual; \
        g_.field = wanted; \
        refused(__LINE__, entry, g_, number); \
    } while (0)

/* Refusals of every entry: null pointers for the three buffers, and n, b, m or a program beyond 32 bits. */
static void refusals(void)
{
    struct bytes *const lent[] = {&s, &v, &l};
    int entry, i;
    for (entry = 0; entry < ENTRIES; entry++) {
        for (i = 0; i < 3; i++) {
            const struct bytes whole = *lent[i];
            *lent[i] = null;
            refused(__LINE__, entry, usual, WB_WRONG_BUFFER);
            *lent[i] = whole;
        }
        REFUSED(entry, n, N + WIDE, WB_WRONG_BUFFER);
        REFUSED(entry, b, B + WIDE, WB_WRONG_BUFFER);
        REFUSED(entry, m, M + WIDE, WB_WRONG_BUFFER);
        if (entry != MOUNT && entry != PUSH && entry != CUT)
            REFUSED(entry, program, WIDE, WB_BAD_PROGRAM);
    }
    CODE(wb_format(N, B, M, NULL, 0), WB_WRONG_BUFFER);
    CODE(wb_format(N + WIDE, B, M, s.at, s.length), WB_WRONG_BUFFER);
}

/* Numbers beyond 32, 16 or 8 bits whose lower bits would do. */
static void wide_numbers(void)
{
    REFUSED(LIST, directory, 65536, WB_BAD_NUMBER);
    REFUSED(STAT, file, 65537, WB_BAD_NUMBER);
    REFUSED(READ, file, 65537, WB_BAD_NUMBER);
    REFUSED(WRITE, file, 65537, WB_BAD_NUMBER);
    REFUSED(SETLEN, file, 65537, WB_BAD_NUMBER);
    REFUSED(FSYNC, file, 65537, WB_BAD_NUMBER);
    REFUSED(FSYNC, file, WIDE + 1, WB_BAD_NUMBER);
    REFUSED(CREATE, fresh, 65536 + 3, WB_BAD_NUMBER);
    REFUSED(CREATE, parent, 65536, WB_BAD_NUMBER);
    REFUSED(MKDIR, fresh, 256 + 3, WB_BAD_NUMBER);
    REFUSED(MKDIR, parent, WIDE, WB_BAD_NUMBER);
    REFUSED(REMOVE_FILE, parent, 65536, WB_BAD_NUMBER);
    REFUSED(REMOVE_FILE, parent, WIDE, WB_BAD_NUMBER);
    REFUSED(REMOVE_DIRECTORY, parent, 65536, WB_BAD_NUMBER);
    REFUSED(REMOVE_DIRECTORY, parent, WIDE, WB_BAD_NUMBER);
    REFUSED(RENAME, parent, 65536, WB_BAD_NUMBER);
    REFUSED(RENAME, second_parent, 65536, WB_BAD_NUMBER);
    REFUSED(READ, offset, WIDE, WB_BAD_RANGE);
    REFUSED(WRITE, offset, WIDE, WB_BAD_RANGE);
    REFUSED(WRITE, offset, UINT64_MAX, WB_BAD_RANGE);
    REFUSED(SETLEN, length, WIDE + 2, WB_BAD_RANGE);
    REFUSED(PUSH, sequence, WIDE + 1, WB_NONE);
}

/* A null pointer for the call's own buffer, path, name, data or list. */
static void null_pointers(void)
{
    const struct bytes kept = own;
    refused(__LINE__, TAKE, usual, WB_NONE);
    own = null;
    refused(__LINE__, LIST, usual, WB_SHORT_BUFFER);
    refused(__LINE__, TAKE, usual, WB_NONE);
    own = kept;
    VALUE(wb_lookup(LENT, 0, NULL, 0), WB_BAD_NAME, 0);
    VALUE(wb_create(LENT, 0, 0, NULL, 0, 3), WB_BAD_NAME, 0);
    VALUE(wb_mkdir(LENT, 0, 0, NULL, 0, 3), WB_BAD_NAME, 0);
    VALUE(wb_remove_file(LENT, 0, 0, NULL, 0), WB_BAD_NAME, 0);
    VALUE(wb_remove_directory(LENT, 0, 0, NULL, 0), WB_BAD_NAME, 0);
    VALUE(wb_rename(LENT, 0, 0, NULL, 0, 0, TEXT("new")), WB_BAD_NAME, 0);
    VALUE(wb_rename(LENT, 0, 0, TEXT("task"), 0, NULL, 0), WB_BAD_NAME, 0);
    VALUE(wb_write(LENT, 0, 1, 3, NULL, 0), WB_BAD_RANGE, 0);
    VALUE(wb_forder(LENT, 0, NULL, 0), WB_BAD_NUMBER, 0);
    VALUE(wb_read(LENT, 0, 1, 0, NULL, 0), WB_ACCEPTED, 0);
    RECORD(wb_record(0, NULL, 0), WB_BAD_RECORD);
}

/* Records, with every field of the answer. */
static void records(void)
{
    static const uint8_t forder[] = {9, 0, 1, 7, 0, 0, 0, 3, 8, 2, 5, 0, 6, 0, 9};
    static const uint8_t rename[] = {63, 0, 254, 255, 255, 255, 31, 4, 255, 0, 1, 0, 2, 0, 3, 0, 2, 'a', 'b', 1, 'c'};
    RECORD(wb_record(1, forder, sizeof forder), 0, 14, 7, 3, 8, 256, 0, 0, 0, 0, 0, 0, 0, 0, 0, 0, 0, 10, 4);
    RECORD(wb_record(0, rename, sizeof rename), 0, 21, WB_LAST_SEQUENCE, 31, 4, 63, 255, 1, 2, 3, 17, 2, 20, 1, 0, 0, 0, 0, 0);
    CODE(wb_record(WIDE + 1, forder, sizeof forder), WB_BAD_RECORD);
    CODE(wb_record(UINT64_MAX, forder, sizeof forder), WB_BAD_RECORD);
}

/* A session from operation 3 on: 1 made file 1, "task", and 2 wrote 3 bytes to it; both wait. */
static void session(void)
{
    uint8_t *const made = s.at + ENTRY; /* entry 1 of the server volume */
    STATUS(wb_stat(LENT, 0, 1), WB_ACCEPTED, 1, 3, 0);
    STATUS(wb_stat(LENT, 0, 0), WB_ACCEPTED, 2, 0, 0);
    VALUE(wb_lookup(LENT, 0, TEXT("/task")), WB_ACCEPTED, 1);
    memset(own.at, 170, own.length);
    VALUE(wb_list(LENT, 0, 0, own.at, 8), WB_ACCEPTED, 8);
    BYTES(own.at, 1, 0, 1, 4, 't', 'a', 's', 'k', 170);
    VALUE(wb_read(LENT, 0, 1, 1, OWN), WB_ACCEPTED, 2);
    BYTES(own.at, 'i', '\n', 1, 4, 't');
    VALUE(wb_mkdir(LENT, 0, 0, TEXT("d"), 2), WB_ACCEPTED, 3);
    VALUE(wb_list(LENT, 0, 2, NULL, 0), WB_ACCEPTED, 0);
    CODE(wb_push(LENT, 2), WB_NOT_FIRST);
    BYTES(made, 0, 0, 0, 0, 0);
    CODE(wb_push(LENT, 1), WB_ACCEPTED);
    BYTES(made, 1, 4, 0, 0, 't', 'a', 's', 'k', 0);
    CODE(wb_push(LENT, 2), WB_ACCEPTED);
    BYTES(made + LENGTH_AT, 3, 0, 0, 0, 'h', 'i', '\n', 0);
    VALUE(wb_rename(LENT, 0, 0, TEXT("task"), 2, TEXT("t")), WB_ACCEPTED, 4);
    VALUE(wb_forder(LENT, 0, TEXT("\1\0\2\0")), WB_ACCEPTED, 5);
    VALUE(wb_setlen(LENT, 1, 1, 1000), WB_ACCEPTED, 6);
    STATUS(wb_stat(LENT, 1, 1), WB_ACCEPTED, 1, 1000, 1);
    VALUE(wb_remove_file(LENT, 0, 2, TEXT("t")), WB_LOG_FULL, 0);
    VALUE(wb_fsync(LENT, 1, 2, WIDE), WB_ACCEPTED, 3);
    BYTES(made, 1, 1, 2, 0, 't', 0, 0, 0, 0);
    BYTES(l.at, 7, 0, 0, 0, 0, 0, 0, 0, 1, 0, 0, 0, 2, 0, 0, 0, 65, 0, 6, 0, 0, 0, 1, 7, 1, 0, 232, 3, 0, 0, 0);
    CODE(wb_cut(LENT), WB_ACCEPTED);
    BYTES(l.at, 7, 0, 0, 0, 2, 0, 0, 0, 2, 0, 0, 0, 0, 0, 0, 0, 65, 0, 6, 0, 0, 0, 1, 7, 1, 0, 232, 3, 0, 0, 0);
    SAME(v.at, s.at, VOLUME);
    STATUS(wb_stat(LENT, 1, 1), WB_MARKED, 0, 0, 0);
    CODE(wb_renew(LENT, 1), WB_LOSSES_LEFT);
    VALUE(wb_take(LENT, 1, NULL, 0), WB_SHORT_BUFFER, 0);
    VALUE(wb_take(LENT, 1, own.at, own.length - 1), WB_SHORT_BUFFER, 0);
    VALUE(wb_take(LENT, 1, OWN), WB_ACCEPTED, 14);
    BYTES(own.at, 65, 0, 6, 0, 0, 0, 1, 7, 1, 0, 232, 3, 0, 0, 170);
    RECORD(wb_record(0, own.at, 14), 0, 14, 6, 1, 7, 65, 1, 0, 0, 0, 0, 0, 0, 0, 1000, 0, 0, 0, 0);
    VALUE(wb_take(LENT, 1, OWN), WB_NONE, 0);
    CODE(wb_renew(LENT, 1), WB_ACCEPTED);
    STATUS(wb_stat(LENT, 1, 1), WB_ACCEPTED, 1, 3, 0);
    VALUE(wb_create(LENT, 0, 2, TEXT("u"), 3), WB_ACCEPTED, 7);
    VALUE(wb_write(LENT, 0, 3, 0, TEXT("xyz")), WB_ACCEPTED, 8);
    VALUE(wb_remove_file(LENT, 0, 2, TEXT("t")), WB_ACCEPTED, 9);
    VALUE(wb_fsync(LENT, 1, 3, 1), WB_LINK_LOST, 1);
    BYTES(l.at, 10, 0, 0, 0, 3, 0, 0, 0, 2);
    VALUE(wb_take(LENT, 0, OWN), WB_ACCEPTED, 19);
    RECORD(wb_record(0, OWN), 0, 19, 8, 0, 6, 193, 3, 0, 0, 0, 0, 0, 0, 0, 0, 16, 3, 0, 0);
    VALUE(wb_take(LENT, 0, OWN), WB_ACCEPTED, 14);
    RECORD(wb_record(0, OWN), 0, 14, 9, 0, 3, 19, 1, 2, 0, 0, 13, 1, 0, 0, 0, 0, 0, 0, 0);
    VALUE(wb_take(LENT, 0, OWN), WB_NONE, 0);
    CODE(wb_renew(LENT, 0), WB_ACCEPTED);
    CODE(wb_renew(LENT, 1), WB_ACCEPTED);
    SAME(v.at, s.at, VOLUME);
    BYTES(l.at, 10, 0, 0, 0, 0, 0, 0, 0, 0);
}

/* The log's next sequence number becomes one of the last. */
static void set_next(uint8_t low_byte)
{
    memset(l.at, 255, 4);
    l.at[0] = low_byte;
}

/* Writes across the end of file 1, which has 3 bytes: two operations, of which the first is answered. The log is empty and its
 * next sequence number 10. */
static void across_end(void)
{
    uint8_t *const in_view = v.at + ENTRY + LENGTH_AT, *const in_server = s.at + ENTRY + LENGTH_AT; /* length and data of entry 1 */
    uint8_t *const second = l.at + SECOND_SLOT;
    VALUE(wb_write(LENT, 0, 1, 2, own.at, WB_BLOCK_BYTES - 1), WB_BAD_RANGE, 0);
    VALUE(wb_write(LENT, 0, 1, 2, TEXT("abc")), WB_ACCEPTED, 10);
    BYTES(l.at, 12, 0, 0, 0, 0, 0, 0, 0, 1, 0, 0, 0, 1, 0, 0, 0, 193, 0, 10, 0, 0, 0, 0, 5, 1, 0, 2, 0, 0, 0, 1, 0, 'a', 0);
    BYTES(second, 1, 0, 0, 0, 1, 0, 0, 0, 193, 0, 11, 0, 0, 0, 0, 6, 1, 0, 3, 0, 0, 0, 2, 0, 'b', 'c', 0);
    BYTES(in_view, 5, 0, 0, 0, 'h', 'i', 'a', 'b', 'c', 0);
    BYTES(in_server, 3, 0, 0, 0, 'h', 'i', '\n', 0);
    CODE(wb_push(LENT, 11), WB_NOT_FIRST);
    CODE(wb_push(LENT, 10), WB_ACCEPTED);
    BYTES(in_server, 3, 0, 0, 0, 'h', 'i', 'a', 0);
    CODE(wb_cut(LENT), WB_ACCEPTED);
    SAME(v.at, s.at, VOLUME);
    memset(own.at, 170, own.length);
    VALUE(wb_take(LENT, 0, OWN), WB_ACCEPTED, 18);
    BYTES(own.at, 193, 0, 11, 0, 0, 0, 0, 6, 1, 0, 3, 0, 0, 0, 2, 0, 'b', 'c', 170);
    RECORD(wb_record(0, OWN), 0, 18, 11, 0, 6, 193, 1, 0, 0, 0, 0, 0, 0, 0, 3, 16, 2, 0, 0);
    VALUE(wb_take(LENT, 0, OWN), WB_NONE, 0);
    CODE(wb_renew(LENT, 0), WB_ACCEPTED);
    VALUE(wb_forder(LENT, 1, TEXT("\0\0")), WB_ACCEPTED, 12);
    VALUE(wb_forder(LENT, 1, TEXT("\0\0")), WB_ACCEPTED, 13);
    VALUE(wb_forder(LENT, 1, TEXT("\0\0")), WB_ACCEPTED, 14);
    REFUSED(WRITE, offset, 2, WB_LOG_FULL);
    VALUE(wb_write(LENT, 0, 1, 1, TEXT("xy")), WB_ACCEPTED, 15);
    REFUSED(WRITE, offset, 2, WB_LOG_FULL);
    VALUE(wb_fsync(LENT, 0, 1, WIDE), WB_ACCEPTED, 1);
    VALUE(wb_fsync(LENT, 1, 0, WIDE), WB_ACCEPTED, 3);
    set_next(254);
    REFUSED(WRITE, offset, 2, WB_SPENT);
    VALUE(wb_write(LENT, 0, 1, 1, TEXT("zz")), WB_ACCEPTED, WB_LAST_SEQUENCE);
    REFUSED(WRITE, offset, 2, WB_SPENT);
    CODE(wb_push(LENT, WB_LAST_SEQUENCE), WB_ACCEPTED);
    set_next(253);
    VALUE(wb_write(LENT, 31, 1, 0, TEXT("abcde")), WB_ACCEPTED, WB_LAST_SEQUENCE - 1);
    BYTES(l.at, 255, 255, 255, 255, 0, 0, 0, 0, 1, 0, 0, 0, 0, 0, 0, 128, 193, 0, 253, 255, 255, 255, 31, 5);
    BYTES(second, 1, 0, 0, 0, 0, 0, 0, 128, 193, 0, 254, 255, 255, 255, 31, 6, 1, 0, 3, 0, 0, 0, 2, 0, 'd', 'e', 0);
    VALUE(wb_fsync(LENT, 31, 1, 2), WB_ACCEPTED, 2);
    BYTES(in_server, 5, 0, 0, 0, 'a', 'b', 'c', 'd', 'e', 0);
}

#define NAME(name) (name), WB_NAME_BYTES

/* Two spellings of the longest name, which differ in its last byte. */
static uint8_t small[WB_NAME_BYTES], capital[WB_NAME_BYTES];

/* On a new volume, operation 1 makes file 1 by one of them, and operation 2, a rename, gives it the other. */
static void spellings(void)
{
    uint8_t *const in_server = s.at + ENTRY + NAME_AT, *const second = l.at + SECOND_SLOT; /* name of entry 1 */
    uint8_t path[1 + WB_NAME_BYTES] = {'/'};
    memset(small, 'n', sizeof small);
    memcpy(capital, small, sizeof capital);
    capital[WB_NAME_BYTES - 1] = 'N';
    memcpy(path + 1, capital, sizeof capital);
    CODE(wb_format(N, B, M, s.at, s.length), WB_ACCEPTED);
    CODE(wb_mount(LENT), WB_ACCEPTED);
    VALUE(wb_create(LENT, 0, 0, NAME(small), 1), WB_ACCEPTED, 1);
    VALUE(wb_create(LENT, 0, 0, NAME(capital), 2), WB_TAKEN, 0);
    VALUE(wb_mkdir(LENT, 0, 0, NAME(capital), 2), WB_TAKEN, 0);
    VALUE(wb_lookup(LENT, 0, path, sizeof path), WB_ACCEPTED, 1);
    VALUE(wb_list(LENT, 0, 0, OWN), WB_ACCEPTED, 64);
    SAME(own.at + 4, NAME(small));
    VALUE(wb_rename(LENT, 0, 0, NAME(capital), 0, NAME(capital)), WB_ACCEPTED, 2);
    BYTES(second, 1, 0, 0, 0, 1, 0, 0, 0, 55, 0, 2, 0, 0, 0, 0, 4, 1, 0, 0, 0, 0, 0, 60, 'n');
    SAME(second + RECORD_AT + 15, NAME(capital));
    SAME(second + RECORD_AT + 76, NAME(capital));
    VALUE(wb_list(LENT, 0, 0, OWN), WB_ACCEPTED, 64);
    SAME(own.at + 4, NAME(capital));
    CODE(wb_push(LENT, 1), WB_ACCEPTED);
    SAME(in_server, NAME(small));
    CODE(wb_push(LENT, 2), WB_ACCEPTED);
    SAME(in_server, NAME(capital));
}

/* Operation 3 renames the file to the stored spelling, which changes nothing; 4, a rename, and 5, a remove, are lost. Losses have
 * the names as typed. */
static void lost_spellings(void)
{
    uint8_t *const in_view = v.at + ENTRY; /* entry 1 */
    VALUE(wb_rename(LENT, 0, 0, NAME(small), 0, NAME(capital)), WB_ACCEPTED, 3);
    SAME(v.at, s.at, VOLUME);
    VALUE(wb_rename(LENT, 0, 0, NAME(small), 0, NAME(small)), WB_ACCEPTED, 4);
    SAME(in_view + NAME_AT, NAME(small));
    VALUE(wb_remove_file(LENT, 0, 0, NAME(capital)), WB_ACCEPTED, 5);
    BYTES(in_view, 0, 0, 0, 0, 0);
    VALUE(wb_fsync(LENT, 0, 0, 1), WB_LINK_LOST, 1);
    SAME(in_view + NAME_AT, NAME(capital));
    VALUE(wb_take(LENT, 0, OWN), WB_ACCEPTED, 136);
    RECORD(wb_record(0, OWN), 0, 136, 4, 0, 4, 55, 1, 0, 0, 0, 15, 60, 76, 60, 0, 0, 0, 0, 0);
    SAME(own.at + 15, NAME(small));
    SAME(own.at + 76, NAME(small));
    VALUE(wb_take(LENT, 0, OWN), WB_ACCEPTED, 73);
    SAME(own.at + 13, NAME(capital));
    CODE(wb_renew(LENT, 0), WB_ACCEPTED);
    VALUE(wb_remove_file(LENT, 0, 0, NAME(small)), WB_ACCEPTED, 6);
    CODE(wb_push(LENT, 6), WB_ACCEPTED);
    BYTES(s.at + ENTRY, 0, 0, 0, 0, 0);
}

/* Bytes that differ as the two cases of a letter do and are no letters, or not both: their names are different. */
static void different_names(void)
{
    static const uint8_t pairs[][2] = {{'@', '`'}, {'[', '{'}, {'0', 'P'}, {'0', 16}, {'9', 'Y'}, {'9', 25}, {'_', 127}, {192, 224},
        {128 + 'a', 128 + 'A'}};
    uint64_t sequence = 7;
    size_t i;
    for (i = 0; i < sizeof pairs / sizeof *pairs; i++) {
        const uint8_t paths[2][2] = {{'/', pairs[i][0]}, {'/', pairs[i][1]}};
        VALUE(wb_create(LENT, 0, 0, &pairs[i][0], 1, 1), WB_ACCEPTED, sequence++);
        VALUE(wb_create(LENT, 0, 0, &pairs[i][1], 1, 2), WB_ACCEPTED, sequence++);
        VALUE(wb_lookup(LENT, 0, paths[0], 2), WB_ACCEPTED, 1);
        VALUE(wb_lookup(LENT, 0, paths[1], 2), WB_ACCEPTED, 2);
        VALUE(wb_remove_file(LENT, 0, 0, &pairs[i][1], 1), WB_ACCEPTED, sequence++);
        VALUE(wb_lookup(LENT, 0, paths[1], 2), WB_NO_OBJECT, 0);
        VALUE(wb_remove_file(LENT, 0, 0, &pairs[i][1], 1), WB_NO_OBJECT, 0);
        VALUE(wb_remove_file(LENT, 0, 0, &pairs[i][0], 1), WB_ACCEPTED, sequence++);
        VALUE(wb_fsync(LENT, 0, 0, 4), WB_ACCEPTED, 4);
    }
}

/* Puts an empty file or directory with a name of two bytes into a volume. */
static void put_entry(struct bytes volume, size_t object, uint8_t kind, uint8_t parent, const char *name)
{
    uint8_t *const at = volume.at + object * ENTRY;
    memset(at, 0, ENTRY);
    at[KIND_AT] = kind;
    at[NAME_LENGTH_AT] = 2;
    at[PARENT_AT] = parent;
    memcpy(at + NAME_AT, name, 2);
}

/* Two spellings of a name in one directory of a volume: every entry is refused. In two directories, or with bytes that are no
 * letters, they are not. */
static void name_twice(struct bytes volume)
{
    int entry;
    put_entry(volume, 1, 2, 0, "aZ");
    put_entry(volume, 2, 1, 0, "Az");
    for (entry = volume.at == s.at ? MOUNT : LOOKUP; entry < ENTRIES; entry++)
        refused(__LINE__, entry, usual, WB_DAMAGED);
    put_entry(volume, 2, 1, 1, "Az");
    VALUE(wb_lookup(LENT, 0, TEXT("/")), WB_ACCEPTED, 0);
    put_entry(volume, 3, 2, 1, "aZ");
    for (entry = volume.at == s.at ? MOUNT : LOOKUP; entry < ENTRIES; entry++)
        refused(__LINE__, entry, usual, WB_DAMAGED);
    put_entry(volume, 2, 1, 1, "[z");
    put_entry(volume, 3, 1, 1, "{z");
    VALUE(wb_lookup(LENT, 0, TEXT("/")), WB_ACCEPTED, 0);
}

/* The view takes what the server volume has, whatever it holds itself. */
static void names_twice(void)
{
    name_twice(v);
    put_entry(v, 3, 1, 1, "[Z");
    CODE(wb_renew(LENT, 0), WB_DAMAGED);
    CODE(wb_mount(LENT), WB_ACCEPTED);
    SAME(v.at, s.at, VOLUME);
    name_twice(s);
    CODE(wb_mount(LENT), WB_ACCEPTED);
    VALUE(wb_lookup(LENT, 0, TEXT("/Az/{Z")), WB_ACCEPTED, 3);
    VALUE(wb_lookup(LENT, 0, TEXT("/Az/[Z")), WB_ACCEPTED, 2);
}

/* Each byte as the last of a name, on a new volume: 0 and the slash may stand in no name that a call, a record or a volume has; every
 * other is stored, and found, as it was given. */
static void name_bytes(void)
{
    uint8_t removed[] = {19, 0, 1, 0, 0, 0, 0, 3, 1, 0, 0, 0, 2, 'n', 0}; /* the record of operation 1, which removes file 1 */
    uint64_t sequence = 1;
    int byte;
    CODE(wb_format(N, B, M, s.at, s.length), WB_ACCEPTED);
    CODE(wb_mount(LENT), WB_ACCEPTED);
    for (byte = 0; byte < 256; byte++) {
        const uint8_t path[] = {'/', 'n', (uint8_t)byte}, *const name = path + 1;
        const int permitted = byte != 0 && byte != '/';
        removed[14] = name[1];
        CODE(wb_record(0, removed, sizeof removed), permitted ? WB_ACCEPTED : WB_BAD_RECORD);
        put_entry(v, 1, 1, 0, (const char *)name);
        CODE(wb_renew(LENT, 0), permitted ? WB_ACCEPTED : WB_DAMAGED);
        memset(v.at + ENTRY, 0, ENTRY);
        if (!permitted) {
            VALUE(wb_create(LENT, 0, 0, name, 2, 1), WB_BAD_NAME, 0);
            VALUE(wb_remove_file(LENT, 0, 0, name, 2), WB_BAD_NAME, 0);
            VALUE(wb_remove_directory(LENT, 0, 0, name, 2), WB_BAD_NAME, 0);
            VALUE(wb_lookup(LENT, 0, path, 3), byte == 0 ? WB_BAD_NAME : WB_NO_OBJECT, 0);
            continue;
        }
        VALUE(wb_create(LENT, 0, 0, name, 2, 1), WB_ACCEPTED, sequence++);
        SAME(v.at + ENTRY + NAME_AT, name, 2);
        VALUE(wb_lookup(LENT, 0, path, 3), WB_ACCEPTED, 1);
        VALUE(wb_remove_file(LENT, 0, 0, name, 2), WB_ACCEPTED, sequence++);
        VALUE(wb_fsync(LENT, 0, 0, 2), WB_ACCEPTED, 2);
    }
}

/* Removals that are refused before a slot is sought, in the volume of removals(): each call finds an object of the other kind, with
 * children or without, by the stored name and in another spelling; or a directory with children; or no object at all. */
static void refused_removals(int line)
{
    static const struct {
        int entry;
        uint64_t parent;
        const char *name;
        uint64_t number;
    } cases[] = {{REMOVE_DIRECTORY, 0, "task", WB_WRONG_KIND}, {REMOVE_DIRECTORY, 0, "tasK", WB_WRONG_KIND},
        {REMOVE_FILE, 2, "in", WB_WRONG_KIND}, {REMOVE_FILE, 2, "In", WB_WRONG_KIND}, {REMOVE_FILE, 0, "box", WB_WRONG_KIND},
        {REMOVE_FILE, 0, "BOX", WB_WRONG_KIND}, {REMOVE_DIRECTORY, 0, "box", WB_NOT_EMPTY},
        {REMOVE_DIRECTORY, 0, "bOx", WB_NOT_EMPTY}, {REMOVE_FILE, 0, "in", WB_NO_OBJECT},
        {REMOVE_DIRECTORY, 2, "task", WB_NO_OBJECT}, {REMOVE_FILE, 1, "in", WB_WRONG_KIND},
        {REMOVE_DIRECTORY, 1, "task", WB_WRONG_KIND}};
    size_t i;
    for (i = 0; i < sizeof cases / sizeof *cases; i++) {
        struct given g = usual;
        g.parent = cases[i].parent;
        g.name = cases[i].name;
        refused(line, cases[i].entry, g, cases[i].number);
    }
}

/* Remove directory of directory 3 is refused with the number, and so is remove file of file 1. */
static void refused_right(int line, uint64_t number)
{
    struct given g = usual;
    refused(line, REMOVE_FILE, g, number);
    g.parent = 2;
    g.name = "in";
    refused(line, REMOVE_DIRECTORY, g, number);
}

/* Both are accepted, and lost; the records are those of kind 3. Nothing waits before. */
static void lost_removals(void)
{
    static const uint8_t records[2][17] = {{19, 0, 1, 0, 0, 0, 0, 3, 1, 0, 0, 0, 4, 'T', 'a', 's', 'k'},
        {19, 0, 2, 0, 0, 0, 0, 3, 3, 0, 2, 0, 2, 'i', 'N', 170, 170}};
    uint8_t *const first = l.at + FIRST_SLOT + RECORD_AT, *const second = l.at + SECOND_SLOT + RECORD_AT; /* two records */
    VALUE(wb_remove_file(LENT, 0, 0, TEXT("Task")), WB_ACCEPTED, 1);
    BYTES(v.at + ENTRY, 0, 0, 0, 0, 0);
    VALUE(wb_remove_directory(LENT, 0, 2, TEXT("iN")), WB_ACCEPTED, 2);
    BYTES(v.at + 3 * ENTRY, 0, 0, 0, 0, 0);
    SAME(first, records[0], 17);
    SAME(second, records[1], 15);
    CODE(wb_cut(LENT), WB_ACCEPTED);
    SAME(v.at, s.at, VOLUME);
    REFUSED(REMOVE_DIRECTORY, name, "task", WB_MARKED);
    REFUSED(REMOVE_FILE, name, "box", WB_MARKED);
    memset(own.at, 170, own.length);
    VALUE(wb_take(LENT, 0, OWN), WB_ACCEPTED, 17);
    SAME(own.at, records[0], 17);
    RECORD(wb_record(0, OWN), 0, 17, 1, 0, 3, 19, 1, 0, 0, 0, 13, 4, 0, 0, 0, 0, 0, 0, 0);
    memset(own.at, 170, own.length);
    VALUE(wb_take(LENT, 0, OWN), WB_ACCEPTED, 15);
    SAME(own.at, records[1], 17);
    RECORD(wb_record(0, OWN), 0, 15, 2, 0, 3, 19, 3, 2, 0, 0, 13, 2, 0, 0, 0, 0, 0, 0, 0);
    CODE(wb_renew(LENT, 0), WB_ACCEPTED);
}

/* The two removals, remove file and remove directory, on a new volume with file 1, "task", directory 2, "box", and in it directory
 * 3, "in". Program 1 makes them, and program 0 depends on nothing, so that a dependence noted by a refused call would show. */
static void removals(void)
{
    CODE(wb_format(N, B, M, s.at, s.length), WB_ACCEPTED);
    CODE(wb_mount(LENT), WB_ACCEPTED);
    VALUE(wb_create(LENT, 1, 0, TEXT("task"), 1), WB_ACCEPTED, 1);
    VALUE(wb_mkdir(LENT, 1, 0, TEXT("box"), 2), WB_ACCEPTED, 2);
    REFUSED(REMOVE_FILE, parent, 3, WB_NO_OBJECT);
    REFUSED(REMOVE_DIRECTORY, parent, 3, WB_NO_OBJECT);
    VALUE(wb_mkdir(LENT, 1, 2, TEXT("in"), 3), WB_ACCEPTED, 3);
    refused_removals(__LINE__);
    VALUE(wb_forder(LENT, 1, TEXT("\0\0\1\0\2\0\3\0")), WB_ACCEPTED, 4);
    refused_removals(__LINE__);
    refused_right(__LINE__, WB_LOG_FULL);
    VALUE(wb_fsync(LENT, 1, 0, 4), WB_ACCEPTED, 4);
    set_next(255);
    refused_removals(__LINE__);
    refused_right(__LINE__, WB_SPENT);
    CODE(wb_mount(LENT), WB_ACCEPTED);
    lost_removals();
    VALUE(wb_remove_directory(LENT, 0, 2, TEXT("in")), WB_ACCEPTED, 3);
    VALUE(wb_remove_directory(LENT, 0, 0, TEXT("Box")), WB_ACCEPTED, 4);
    VALUE(wb_remove_file(LENT, 0, 0, TEXT("task")), WB_ACCEPTED, 5);
    VALUE(wb_fsync(LENT, 0, 0, 3), WB_ACCEPTED, 3);
    BYTES(s.at, 2, 0, 0, 0, 0);
    SAME(s.at + ENTRY, (const uint8_t[3 * ENTRY]){0}, 3 * ENTRY);
}

int main(void)
{
    uint8_t guard[GUARD], root[VOLUME] = {2};
    int i;
    memset(guard, 85, sizeof guard);
    for (i = 0; i < 4; i++)
        memset(areas[i], 85, sizes[i]);
    CODE(wb_format(N, B, M, s.at, s.length), WB_ACCEPTED);
    SAME(s.at, root, VOLUME);
    CODE(wb_mount(LENT), WB_ACCEPTED);
    SAME(v.at, root, VOLUME);
    BYTES(l.at, 1, 0, 0, 0, 0, 0, 0, 0, 0);
    VALUE(wb_create(LENT, 0, 0, TEXT("task"), 1), WB_ACCEPTED, 1);
    VALUE(wb_write(LENT, 0, 1, 0, TEXT("hi\n")), WB_ACCEPTED, 2);
    SAME(s.at, root, VOLUME);
    refusals();
    wide_numbers();
    null_pointers();
    records();
    session();
    across_end();
    spellings();
    lost_spellings();
    different_names();
    names_twice();
    name_bytes();
    removals();
    for (i = 0; i < 4; i++) {
        SAME(areas[i], guard, GUARD);
        SAME(areas[i] + sizes[i] - GUARD, guard, GUARD);
    }
    IS(strcmp(wb_text(WB_BAD_RECORD), "bad record") == 0, 1);
    IS(strcmp(wb_text(WIDE), wb_text(21)) == 0, 1);
    printf("%u checks passed\n", checks);
    return 0;
}
