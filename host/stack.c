/* How much stack each entry takes, measured at full size (256 objects, 64 blocks, 1,024 slots) with a full log whose last operation
 * nothing precedes, so that the precedence test goes through all of it. Each call runs on a painted stack of its own. Run it with ./stack. */
#define _GNU_SOURCE
#include <pthread.h>
#include <stdio.h>
#include <stdlib.h>
#include <string.h>
#include "writebehind.h"

#define N WB_MOST_OBJECTS
#define B WB_MOST_BLOCKS
#define M WB_MOST_SLOTS
#define STACK (1 << 20)
#define PAINT 0xa5

static uint8_t server[WB_VOLUME_BYTES(N, B)], view[WB_VOLUME_BYTES(N, B)], slots[WB_LOG_BYTES(M)], own[B * WB_BLOCK_BYTES];
static uint8_t saved_server[sizeof server], saved_view[sizeof view], saved_slots[sizeof slots];
static uint64_t first, last;
#define LENT N, B, M, server, sizeof server, view, sizeof view, slots, sizeof slots

static uint64_t nothing(void) { return 0; }
static uint64_t format(void) { return wb_format(N, B, M, server, sizeof server).returned; }
static uint64_t mount(void) { return wb_mount(LENT).returned; }
static uint64_t lookup(void) { return wb_lookup(LENT, 0, (const uint8_t *)"/f200", 5).returned; }
static uint64_t list(void) { return wb_list(LENT, 0, 0, own, sizeof own).returned; }
static uint64_t stat_of(void) { return wb_stat(LENT, 0, 1).returned; }
static uint64_t read_of(void) { return wb_read(LENT, 0, 1, 0, own, sizeof own).returned; }
static uint64_t create(void) { return wb_create(LENT, 0, 0, (const uint8_t *)"new", 3, 250).returned; }
static uint64_t make(void) { return wb_mkdir(LENT, 0, 0, (const uint8_t *)"new", 3, 250).returned; }
static uint64_t remove_file(void) { return wb_remove_file(LENT, 0, 0, (const uint8_t *)"f200", 4).returned; }
static uint64_t remove_directory(void) { return wb_remove_directory(LENT, 0, 0, (const uint8_t *)"d201", 4).returned; }
static uint64_t rename_of(void) { return wb_rename(LENT, 0, 0, (const uint8_t *)"f200", 4, 0, (const uint8_t *)"f1", 2).returned; }
static uint64_t write_of(void) { return wb_write(LENT, 0, 1, 0, own, WB_BLOCK_BYTES).returned; }
static uint64_t write_across(void) { return wb_write(LENT, 0, 2, 0, own, WB_BLOCK_BYTES).returned; }
static uint64_t setlen(void) { return wb_setlen(LENT, 0, 1, 0).returned; }
static uint64_t forder(void) { return wb_forder(LENT, 0, (const uint8_t *)"\1\0\2\0", 4).returned; }
static uint64_t push(void) { return wb_push(LENT, last).returned; }
static uint64_t push_behind(void) { return wb_push(LENT, last - 1).returned; }
static uint64_t fsync_of(void) { return wb_fsync(LENT, 0, 1, M).returned; }
static uint64_t fsync_lost(void) { return wb_fsync(LENT, 0, 1, 1).returned; }
static uint64_t cut(void) { return wb_cut(LENT).returned; }
static uint64_t take(void) { return wb_take(LENT, 0, own, sizeof own).returned; }
static uint64_t renew(void) { return wb_renew(LENT, 0).returned; }
static uint64_t record(void) { return wb_record(0, own, sizeof own).returned; }

static void expect(uint64_t got, uint64_t wanted, const char *what)
{
    if (got != wanted) {
        printf("%s is answered with %s and not with %s\n", what, wb_text(got), wb_text(wanted));
        exit(1);
    }
}

static uint64_t (*chosen)(void);
static uint64_t answered;
static void *on_thread(void *none) { answered = chosen(); return none; }

/* The bytes of stack that a call and the thread below it take. */
static size_t taken(uint64_t (*call)(void))
{
    static uint8_t *stack;
    pthread_attr_t attributes;
    pthread_t thread;
    size_t left = 0;
    if (!stack && posix_memalign((void **)&stack, 4096, STACK))
        exit(2);
    memset(stack, PAINT, STACK);
    chosen = call;
    if (pthread_attr_init(&attributes) || pthread_attr_setstack(&attributes, stack, STACK)
        || pthread_create(&thread, &attributes, on_thread, NULL) || pthread_join(thread, NULL))
        exit(2);
    while (left < STACK && stack[left] == PAINT)
        left++;
    return STACK - left;
}

/* Files 1 to 200 in the root, on the server with a block each, but file 2 is shorter, and an empty directory, 201; then a log full
 * of overwrites, the last one of file 200 alone. */
static void prepare(void)
{
    char name[8];
    int i;
    expect(format(), 0, "format");
    expect(mount(), 0, "mount");
    for (i = 1; i <= 200; i++) {
        int length = sprintf(name, "f%d", i);
        expect(wb_push(LENT, wb_create(LENT, 0, 0, (const uint8_t *)name, (uint64_t)length, (uint64_t)i).value).returned, 0, "push");
        expect(wb_push(LENT, wb_write(LENT, 0, (uint64_t)i, 0, own, WB_BLOCK_BYTES).value).returned, 0, "push");
    }
    expect(wb_push(LENT, wb_setlen(LENT, 0, 2, 1000).value).returned, 0, "push");
    expect(wb_push(LENT, wb_mkdir(LENT, 0, 0, (const uint8_t *)"d201", 4, 201).value).returned, 0, "push");
    for (i = 0; i < M - 1; i++) {
        struct wb_value written = wb_write(LENT, 0, 1 + (uint64_t)i % 199, 0, own, 4);
        expect(written.returned, 0, "write");
        if (i == 0)
            first = written.value;
    }
    last = wb_write(LENT, 0, 200, 0, own, 4).value;
    memcpy(saved_server, server, sizeof server);
    memcpy(saved_view, view, sizeof view);
    memcpy(saved_slots, slots, sizeof slots);
}

static size_t most;
static void measure(const char *what, uint64_t (*call)(void), uint64_t wanted, size_t base)
{
    size_t bytes = taken(call) - base;
    expect(answered, wanted, what);
    printf("%-28s %7lu bytes (%s)\n", what, (unsigned long)bytes, wb_text(wanted));
    if (most < bytes)
        most = bytes;
}

static void restore(void)
{
    memcpy(server, saved_server, sizeof server);
    memcpy(view, saved_view, sizeof view);
    memcpy(slots, saved_slots, sizeof slots);
}

/* Room for one more operation. */
static void one_free(void)
{
    restore();
    expect(wb_push(LENT, first).returned, 0, "push");
}

/* Room for two more. */
static void two_free(void)
{
    one_free();
    expect(wb_push(LENT, first + 1).returned, 0, "push");
}

static void measure_changes(size_t base)
{
    one_free();
    measure("create", create, 0, base);
    one_free();
    measure("mkdir", make, 0, base);
    one_free();
    measure("remove file", remove_file, 0, base);
    one_free();
    measure("remove directory", remove_directory, 0, base);
    one_free();
    measure("rename", rename_of, 0, base);
    one_free();
    measure("write", write_of, 0, base);
    two_free();
    measure("write across the end", write_across, 0, base);
    one_free();
    measure("setlen", setlen, 0, base);
    one_free();
    measure("forder", forder, 0, base);
}

int main(void)
{
    size_t base;
    prepare();
    taken(nothing);
    base = taken(nothing);
    measure("lookup", lookup, 0, base);
    measure("list", list, 0, base);
    measure("stat", stat_of, 0, base);
    measure("read", read_of, 0, base);
    measure("push", push, 0, base);
    restore();
    measure("push behind another", push_behind, WB_NOT_FIRST, base);
    measure_changes(base);
    restore();
    measure("fsync", fsync_of, 0, base);
    restore();
    measure("fsync, link lost", fsync_lost, WB_LINK_LOST, base);
    restore();
    measure("cut", cut, 0, base);
    measure("renew with losses", renew, WB_LOSSES_LEFT, base);
    measure("take", take, 0, base);
    measure("record", record, 0, base);
    measure("mount", mount, 0, base);
    measure("format", format, 0, base);
    printf("the most: %lu bytes; the header says %lu\n", (unsigned long)most, (unsigned long)WB_STACK_BYTES);
    return most <= WB_STACK_BYTES ? 0 : 1;
}
