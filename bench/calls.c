/* The time of every call at full size (256 objects, 64 blocks a file, 1,024 slots), with 0, 512 and 1,024 operations waiting: the
 * library, the second program, and the floor, which is a plain | over the lent bytes once. Run it with calls.sh, which says more. */
#include <stdio.h>
#include <stdlib.h>
#include <string.h>
#include <time.h>
#include "second_calls.h"

#define N WB_MOST_OBJECTS
#define B WB_MOST_BLOCKS
#define M WB_MOST_SLOTS
#define VOLUME ((size_t)WB_VOLUME_BYTES(N, B))
#define LOG ((size_t)WB_LOG_BYTES(M))
#define LENT N, B, M, server, VOLUME, view, VOLUME, slots, LOG
#define TEXT(text) (const uint8_t *)(text), sizeof(text) - 1
#define EITHER(entry, ...) (by_second ? second_##entry(__VA_ARGS__).returned : wb_##entry(__VA_ARGS__).returned)

enum { DIRECTORIES = 15, FILES = 112, FIRST_FILE = DIRECTORIES + 1, LAST_FILE = DIRECTORIES + FILES, QUIET = LAST_FILE, SHORTER = LAST_FILE - 3 };

static uint8_t server[VOLUME], view[VOLUME], slots[LOG], own[B * WB_BLOCK_BYTES];
static uint8_t saved_server[VOLUME], saved_view[VOLUME], saved_slots[LOG], saved_own[sizeof own];
static uint8_t left_server[VOLUME], left_view[VOLUME], left_slots[LOG], left_own[sizeof own];
static int by_second; /* which program the calls below go to */
static uint64_t last; /* the sequence number of the last waiting operation, which nothing precedes */

static void save(void)
{
    memcpy(saved_server, server, VOLUME);
    memcpy(saved_view, view, VOLUME);
    memcpy(saved_slots, slots, LOG);
    memcpy(saved_own, own, sizeof own);
}

static void restore(void)
{
    memcpy(server, saved_server, VOLUME);
    memcpy(view, saved_view, VOLUME);
    memcpy(slots, saved_slots, LOG);
    memcpy(own, saved_own, sizeof own);
}

/* ---- The calls that are timed; file QUIET, in directory 15, has no waiting operation but the last ---- */

static uint64_t format(void) { return EITHER(format, N, B, M, server, VOLUME); }
static uint64_t mount(void) { return EITHER(mount, N, B, M, server, VOLUME, view, VOLUME, slots, LOG); }
static uint64_t lookup(void) { return EITHER(lookup, LENT, 1, TEXT("/d15/f127")); }
static uint64_t list(void) { return EITHER(list, LENT, 1, 15, own, sizeof own); }
static uint64_t stat_of(void) { return EITHER(stat, LENT, 1, QUIET); }
static uint64_t read_of(void) { return EITHER(read, LENT, 1, QUIET, 0, own, sizeof own); }
static uint64_t create(void) { return EITHER(create, LENT, 1, 15, TEXT("a new file"), N - 1); }
static uint64_t make(void) { return EITHER(mkdir, LENT, 1, 15, TEXT("a new directory"), N - 1); }
static uint64_t remove_file(void) { return EITHER(remove_file, LENT, 1, 15, TEXT("f126")); }
static uint64_t remove_directory(void) { return EITHER(remove_directory, LENT, 1, 15, TEXT("empty")); }
static uint64_t rename_of(void) { return EITHER(rename, LENT, 1, 15, TEXT("f126"), 15, TEXT("f125")); }
static uint64_t overwrite(void) { return EITHER(write, LENT, 1, QUIET, WB_BLOCK_BYTES, own, WB_BLOCK_BYTES); }
static uint64_t append(void) { return EITHER(write, LENT, 1, QUIET, 2 * WB_BLOCK_BYTES, own, WB_BLOCK_BYTES); }
static uint64_t write_across(void) { return EITHER(write, LENT, 1, SHORTER, WB_BLOCK_BYTES, own, WB_BLOCK_BYTES); }
static uint64_t setlen(void) { return EITHER(setlen, LENT, 1, QUIET, 0); }
static uint64_t forder(void) { return EITHER(forder, LENT, 1, TEXT("\1\0\2\0\3\0\4\0\5\0\6\0\7\0\10\0")); }
static uint64_t push(void) { return EITHER(push, LENT, last); }
static uint64_t push_behind(void) { return EITHER(push, LENT, last - 1); }
static uint64_t sync_few(void) { return EITHER(fsync, LENT, 1, QUIET, M); }
static uint64_t sync_many(void) { return EITHER(fsync, LENT, 1, 0, M); }
static uint64_t cut(void) { return EITHER(cut, LENT); }
static uint64_t take(void) { return EITHER(take, LENT, 1, own, sizeof own); }
static uint64_t renew(void) { return EITHER(renew, LENT, 2); }

/* ---- The volume and the waiting operations ---- */

static void expect(uint64_t got, uint64_t wanted, const char *what)
{
    if (got != wanted) {
        printf("%s is answered with %lu (%s) and not with %lu\n", what, (unsigned long)got, wb_text(got), (unsigned long)wanted);
        exit(1);
    }
}

static void sent(struct wb_value issued, const char *what)
{
    expect(issued.returned, WB_ACCEPTED, what);
    expect(wb_push(LENT, issued.value).returned, WB_ACCEPTED, "push");
}

static uint64_t parent_of(uint64_t file) { return file >= LAST_FILE - 7 ? 15 : 1 + file % 14; }

/* Directories 1 to 15 in the root, and 112 files of 2,048 bytes in them, one of 1,536, all on the server; eight of the files in
 * directory 15. */
static void make_volume(void)
{
    char name[16];
    uint64_t i;
    memset(own, 'w', sizeof own);
    expect(format(), WB_ACCEPTED, "format");
    expect(mount(), WB_ACCEPTED, "mount");
    for (i = 1; i <= LAST_FILE; i++) {
        uint64_t length = (uint64_t)sprintf(name, "%c%d", i < FIRST_FILE ? 'd' : 'f', (int)i);
        if (i < FIRST_FILE) {
            sent(wb_mkdir(LENT, 1, 0, (uint8_t *)name, length, i), "mkdir");
            continue;
        }
        sent(wb_create(LENT, 1, parent_of(i), (uint8_t *)name, length, i), "create");
        sent(wb_write(LENT, 1, i, 0, own, WB_BLOCK_BYTES), "write");
        sent(wb_write(LENT, 1, i, WB_BLOCK_BYTES, own, i == SHORTER ? WB_BLOCK_BYTES / 2 : WB_BLOCK_BYTES), "write");
    }
    expect(mount(), WB_ACCEPTED, "mount");
}

static uint64_t chance = 1; /* the state of the random numbers */

static uint64_t random_below(uint64_t bound)
{
    chance ^= chance << 13;
    chance ^= chance >> 7;
    chance ^= chance << 17;
    return (chance >> 11) % bound;
}

/* One attempt at an operation outside directory 15; it may be refused. */
static struct wb_value attempt(uint64_t program)
{
    char name[16], other[16];
    const uint8_t *named = (uint8_t *)name, *unnamed = (uint8_t *)other;
    uint64_t file = FIRST_FILE + random_below(FILES - 8), unused = LAST_FILE + 1 + random_below(N - 2 - LAST_FILE);
    uint64_t length = (uint64_t)sprintf(name, "f%d", (int)file), other_length = (uint64_t)sprintf(other, "f%d", (int)unused);
    uint64_t at = random_below(WB_BLOCK_BYTES), parent = parent_of(file);
    uint8_t objects[4] = {(uint8_t)file, 0, (uint8_t)parent, 0};
    switch (random_below(12)) {
    case 0: return wb_create(LENT, program, parent, unnamed, other_length, unused);
    case 1: return wb_mkdir(LENT, program, parent, unnamed, other_length, unused);
    case 2: return wb_remove_file(LENT, program, parent_of(unused), unnamed, other_length);
    case 3: return wb_rename(LENT, program, parent, named, length, parent, unnamed, other_length);
    case 4: return wb_rename(LENT, program, parent, unnamed, other_length, parent, named, length);
    case 5: return wb_write(LENT, program, file, wb_stat(LENT, program, file).length, own, 1 + at);
    case 6: return wb_setlen(LENT, program, file, 2 * WB_BLOCK_BYTES + at);
    case 7: return wb_forder(LENT, program, objects, sizeof objects);
    default: return wb_write(LENT, program, file, at, own, 1 + random_below(WB_BLOCK_BYTES - at));
    }
}

/* So many operations wait, of programs 1 and 3 to 31; the last but one is a forder of the root and directories 1 to 7, the last an
 * overwrite of the quiet file. */
static void make_waiting(uint64_t count)
{
    uint64_t waiting = 0;
    make_volume();
    while (waiting + 2 < count)
        waiting += attempt(waiting % 2 ? 1 : 3 + waiting % 29).returned == WB_ACCEPTED;
    if (count > 1)
        expect(wb_forder(LENT, 1, TEXT("\0\0\1\0\2\0\3\0\4\0\5\0\6\0\7\0")).returned, WB_ACCEPTED, "forder");
    if (count > 0) {
        struct wb_value written = wb_write(LENT, 1, QUIET, 0, own, WB_BLOCK_BYTES);
        expect(written.returned, WB_ACCEPTED, "write");
        last = written.value;
    }
    save();
}

/* The same operations, lost. */
static void make_lost(uint64_t count)
{
    make_waiting(count);
    expect(cut(), WB_ACCEPTED, "cut");
    save();
}

/* ---- Times ---- */

static double now(void)
{
    struct timespec time;
    clock_gettime(CLOCK_MONOTONIC, &time);
    return (double)time.tv_sec * 1e6 + (double)time.tv_nsec / 1e3;
}

static volatile uint8_t kept;

static uint8_t all_bytes(const uint8_t *bytes, size_t length)
{
    uint8_t any = 0;
    size_t i;
    for (i = 0; i < length; i++)
        any |= bytes[i];
    return any;
}

static double floor_time(int server_alone)
{
    double start = now();
    kept = all_bytes(server, VOLUME);
    if (!server_alone)
        kept |= all_bytes(view, VOLUME) | all_bytes(slots, LOG);
    return now() - start;
}

struct timed {
    const char *name;
    uint64_t (*call)(void);
    int judged; /* the goals are for every call but fsync of many and cut */
    int server_alone;
};

static double call_time(const struct timed *timed, int second, uint64_t wanted)
{
    double start, end;
    uint64_t answered;
    restore();
    by_second = second;
    start = now();
    answered = timed->call();
    end = now();
    by_second = 0;
    expect(answered, wanted, timed->name);
    return end - start;
}

/* What both leave is the same, to the byte. */
static uint64_t compare(const struct timed *timed)
{
    uint64_t answered;
    restore();
    answered = timed->call();
    memcpy(left_server, server, VOLUME);
    memcpy(left_view, view, VOLUME);
    memcpy(left_slots, slots, LOG);
    memcpy(left_own, own, sizeof own);
    call_time(timed, 1, answered);
    if (memcmp(left_server, server, VOLUME) || memcmp(left_view, view, VOLUME) || memcmp(left_slots, slots, LOG)
        || memcmp(left_own, own, sizeof own)) {
        printf("%s leaves other bytes than the second program\n", timed->name);
        exit(1);
    }
    return answered;
}

static double lower(double first, double second) { return first < second ? first : second; }
static int turns = 40;
static double highest[2], least_gain = 1e9; /* of the calls with a goal; highest with an empty log, and with others */

static void measure(const struct timed *timed, const char *state, double goal)
{
    double base = 1e12, proved = 1e12, other = 1e12;
    uint64_t answered = compare(timed);
    int turn;
    for (turn = 0; turn < turns; turn++) {
        proved = lower(proved, call_time(timed, 0, answered));
        restore();
        base = lower(base, floor_time(timed->server_alone));
        if (turn % 8 == 0)
            other = lower(other, call_time(timed, 1, answered));
    }
    printf("| %s | %s | %.0f | %.0f | %.0f | %.2f | %.1f | %s |\n", timed->name, state, base, proved, other, proved / base,
           other / proved,
           !timed->judged ? "" : proved <= goal * base && other >= 3 * proved ? "holds" : "MISSED");
    fflush(stdout);
    if (timed->judged) {
        highest[goal > 1.5] = -lower(-highest[goal > 1.5], -proved / base);
        least_gain = lower(least_gain, other / proved);
    }
}

static void measure_all(const struct timed *timed, size_t count, const char *state, double goal)
{
    size_t i;
    for (i = 0; i < count; i++)
        measure(&timed[i], state, goal);
}

#define COUNT(table) (sizeof table / sizeof table[0])

static const struct timed questions[] = {
    {"lookup", lookup, 1, 0}, {"list", list, 1, 0}, {"stat", stat_of, 1, 0}, {"read, 2,048 bytes", read_of, 1, 0}};
static const struct timed changes[] = {
    {"create", create, 1, 0}, {"mkdir", make, 1, 0}, {"remove file", remove_file, 1, 0},
    {"rename that displaces", rename_of, 1, 0}, {"write, overwrite", overwrite, 1, 0}, {"write, append", append, 1, 0},
    {"setlen", setlen, 1, 0}, {"forder of 8", forder, 1, 0}};
static const struct timed directory_removal = {"remove directory", remove_directory, 1, 0};
static const struct timed across = {"write, across the end", write_across, 1, 0};
static const struct timed sends[] = {
    {"push", push, 1, 0}, {"push behind another", push_behind, 1, 0}, {"fsync of one", sync_few, 1, 0},
    {"fsync of many", sync_many, 0, 0}, {"cut", cut, 0, 0}};
static const struct timed losses[] = {{"take", take, 1, 0}, {"renew", renew, 1, 0}};
static const struct timed beginnings[] = {{"format", format, 1, 1}, {"mount", mount, 1, 0}};

/* The removal of an empty directory, which stands in directory 15 for it alone: it is made and sent before, and gone after. */
static void measure_directory_removal(const char *state, double goal)
{
    restore();
    sent(wb_mkdir(LENT, 1, 15, TEXT("empty"), N - 1), "mkdir");
    save();
    measure(&directory_removal, state, goal);
    restore();
    sent(wb_remove_directory(LENT, 1, 15, TEXT("empty")), "remove directory");
    save();
}

/* All calls with so many waiting, or lost; a change is the last of them, a write across the end the last two. What waits then draws no
 * random numbers from what is measured after it. */
static void measure_with(uint64_t waiting, const char *state, double goal)
{
    uint64_t kept_chance;
    make_waiting(waiting);
    if (waiting == 0)
        measure_all(beginnings, COUNT(beginnings), state, goal);
    measure_all(questions, COUNT(questions), state, goal);
    if (waiting == M)
        make_waiting(M - 1);
    measure_all(changes, COUNT(changes), state, goal);
    measure_directory_removal(state, goal);
    kept_chance = chance;
    if (waiting == M)
        make_waiting(M - 2);
    measure(&across, state, goal);
    chance = kept_chance;
    make_waiting(waiting ? waiting : 1);
    measure_all(sends, COUNT(sends), state, goal);
    make_lost(waiting);
    measure_all(losses, COUNT(losses), state, goal);
}

/* What mount and cut do besides reading: a volume copied. And how many the fsync of many sends, with all slots used. */
static void say_more(void)
{
    double copy = 1e12;
    int turn;
    make_waiting(M);
    for (turn = 0; turn < turns; turn++) {
        double start = now();
        memcpy(left_view, server, VOLUME);
        copy = lower(copy, now() - start);
    }
    printf("\na volume copied by memcpy: %.0f; the fsync of many sends %lu of 1,024\n", copy,
           (unsigned long)wb_fsync(LENT, 1, 0, M).value);
}

int main(int count, char **arguments)
{
    if (count > 1)
        turns = atoi(arguments[1]);
    if (turns < 1) {
        fprintf(stderr, "usage: bench/calls.sh [TURNS]\n");
        return 2;
    }
    printf("microseconds, best of %d; 256 objects, 64 blocks, 1,024 slots: %lu bytes lent\n\n", turns,
           (unsigned long)(2 * VOLUME + LOG));
    printf("| call | waiting | floor | library | second | library / floor | second / library | goals |\n|---|---|---|---|---|---|---|---|\n");
    measure_with(0, "0", 1.5);
    measure_with(512, "512", 2);
    measure_with(M, "1,024", 2);
    say_more();
    printf("\nhighest library / floor of the calls with a goal: %.2f with an empty log (goal 1.5), %.2f with others (goal 2); "
           "lowest second / library: %.1f (goal 3)\n", highest[0], highest[1], least_gain);
    return 0;
}
