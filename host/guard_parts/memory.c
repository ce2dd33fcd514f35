/* The areas that buffers are lent from, and what is said when a call touches anything else. */
#define _GNU_SOURCE
#include <signal.h>
#include <stdio.h>
#include <stdlib.h>
#include <string.h>
#include <sys/mman.h>
#include <unistd.h>
#include "guard.h"

#define UNREADABLE (UINT64_C(1) << 24) /* the bytes on either side of an area */
#define LONG (UINT64_C(1) << 21)       /* of a longer buffer only the first and the last bytes are compared */
#define END (UINT64_C(1) << 17)

static struct area {
    uint8_t *write, *read, *copy;
} areas[BUFFERS];
enum placement placement;

static void fail(const char *what)
{
    perror(what);
    exit(2);
}

/* Maps a file of ROOM bytes between unreadable pages. */
static uint8_t *mapped(int file, int protection)
{
    uint8_t *const at = mmap(NULL, ROOM + 2 * UNREADABLE, PROT_NONE, MAP_PRIVATE | MAP_ANONYMOUS | MAP_NORESERVE, -1, 0);
    if (at == MAP_FAILED || mmap(at + UNREADABLE, ROOM, protection, MAP_SHARED | MAP_FIXED, file, 0) == MAP_FAILED)
        fail("mmap");
    return at + UNREADABLE;
}

/* A file of zeros in memory, of which only the pages that are touched take room. */
static int memory(void)
{
    const int file = memfd_create("guard", 0);
    if (file < 0 || ftruncate(file, (off_t)ROOM))
        fail("memfd_create");
    return file;
}

void open_areas(void)
{
    struct area *area;
    for (area = areas; area < areas + BUFFERS; area++) {
        const int lent = memory(), copied = memory();
        area->write = mapped(lent, PROT_READ | PROT_WRITE);
        area->read = mapped(lent, PROT_READ);
        area->copy = mapped(copied, PROT_READ | PROT_WRITE);
        close(lent);
        close(copied);
    }
}

/* Where a buffer of that length begins in its area. */
static uint64_t place(uint64_t length)
{
    return placement == ENDS ? ROOM - length : 0;
}

struct lent lend(const struct call *call, enum buffer buffer, enum side side)
{
    const struct area *const area = &areas[buffer];
    const uint64_t length = call->length[buffer], at = place(length);
    struct lent lent = {area->read + at, area->write + at, length};
    if (side == SECOND)
        lent.read = lent.write = area->copy + at;
    if (length == 0 && call->null[buffer])
        lent.read = lent.write = NULL;
    return lent;
}

const uint8_t *copy_of(enum buffer buffer, uint64_t length)
{
    return areas[buffer].copy + place(length);
}

void put(enum buffer buffer, uint64_t length, uint64_t at, const void *bytes, uint64_t count)
{
    memcpy(areas[buffer].write + place(length) + at, bytes, count);
    memcpy(areas[buffer].copy + place(length) + at, bytes, count);
}

void fill(enum buffer buffer, uint64_t length, uint8_t byte)
{
    const uint64_t count = length < LONGEST_TEXT ? length : LONGEST_TEXT;
    memset(areas[buffer].write + place(length), byte, count);
    memset(areas[buffer].copy + place(length), byte, count);
}

int differs(enum buffer buffer, uint64_t length, uint64_t *at, uint8_t bytes[2])
{
    const uint8_t *const lent = areas[buffer].write + place(length), *const copy = areas[buffer].copy + place(length);
    const uint64_t first = length > LONG ? END : length, last = length > LONG ? length - END : length;
    if (memcmp(lent, copy, first) == 0 && memcmp(lent + last, copy + last, length - last) == 0)
        return 0;
    *at = memcmp(lent, copy, first) == 0 ? last : 0;
    while (lent[*at] == copy[*at])
        ++*at;
    bytes[PROVED] = lent[*at];
    bytes[SECOND] = copy[*at];
    return 1;
}

/* ---- Signals. In a handler only write() may be used ---- */
static void say(const char *text)
{
    if (write(STDOUT_FILENO, text, strlen(text)) < 0)
        _exit(1);
}

static void say_number(uint64_t number)
{
    char digits[21], *at = digits + sizeof digits;
    *--at = 0;
    do
        *--at = (char)('0' + number % 10);
    while ((number /= 10) != 0);
    say(at);
}

/* Says where an address lies in an area, if it does, or in the unreadable pages around it. */
static int say_place(enum buffer buffer, const uint8_t *address, int reading)
{
    const uint8_t *const base = reading ? areas[buffer].read : areas[buffer].write;
    const uint64_t length = progress.call.length[buffer];
    const int64_t at = (int64_t)(address - base) - (int64_t)place(length);
    if (address < base - UNREADABLE || address >= base + ROOM + UNREADABLE)
        return 0;
    say(": byte ");
    say(at < 0 ? "-" : "");
    say_number(at < 0 ? 0 - (uint64_t)at : (uint64_t)at);
    say(" of the ");
    say(buffer_names[buffer]);
    say(", which was lent ");
    say(reading ? "for reading only, with " : "with ");
    say_number(length);
    say(" bytes\n");
    return 1;
}

static void caught(int number, siginfo_t *information, void *context)
{
    static const char *const sides[] = {"the library", "the second program", "guard itself"};
    const uint8_t *const address = information->si_addr;
    int i, said = 0;
    (void)context;
    say("seed ");
    say_number(progress.seed);
    say(", call ");
    say_number(progress.made);
    say(" of ");
    say_number(progress.calls);
    say(placement == ENDS ? " (buffers end at an unreadable page), wb_" : " (buffers begin after an unreadable page), wb_");
    say(shapes[progress.call.entry].name);
    say(": ");
    say(sides[progress.turn]);
    say(number == SIGSEGV || number == SIGBUS ? " touched what it may not" : " ended by signal ");
    if (number != SIGSEGV && number != SIGBUS)
        say_number((uint64_t)number);
    for (i = 0; i < 2 * BUFFERS && !said; i++)
        said = say_place((enum buffer)(i / 2), address, i % 2);
    say(said ? "" : ", outside all buffers\n");
    _exit(1);
}

void catch_signals(void)
{
    static const int numbers[] = {SIGSEGV, SIGBUS, SIGILL, SIGFPE, SIGABRT};
    struct sigaction action;
    size_t i;
    memset(&action, 0, sizeof action);
    action.sa_sigaction = caught;
    action.sa_flags = SA_SIGINFO;
    for (i = 0; i < sizeof numbers / sizeof *numbers; i++)
        if (sigaction(numbers[i], &action, NULL))
            fail("sigaction");
}
