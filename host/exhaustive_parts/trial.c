#include "trial.h"
#include <stdarg.h>
#include <stdlib.h>
#include <string.h>
#include "numbers.h"

struct trial now;
struct counts counts;

uint64_t counted(uint64_t n)
{
    counts.calls++;
    return n;
}

/* ---- Reckoning ---- */

struct volume volume_of(const uint8_t bytes[VOLUME])
{
    struct volume volume = {N, B, (uint8_t *)bytes};
    return volume;
}

struct stage *stage(void) { return &now.stages[now.issued]; }
int in(unsigned set, uint64_t i) { return set >> i & 1; }
unsigned all(void) { return (1u << now.issued) - 1; }

/* The operations in issue order, as order.h takes them. */
static const struct operation *const *listed(void)
{
    static const struct operation *list[MOST];
    uint64_t i;
    for (i = 0; i < MOST; i++)
        list[i] = &now.operations[i];
    return list;
}

/* Notes which rule of order the pair falls under. */
static void count_pair(const struct operation *earlier, const struct operation *later)
{
    if (!touches(earlier, later))
        counts.apart++;
    else if (earlier->kind != OVERWRITE || later->kind != OVERWRITE)
        counts.touching++;
    else if (directly_precedes(earlier, later))
        counts.common++;
    else
        counts.loose++;
}

void reckon_order(void)
{
    uint64_t i, j;
    memset(now.preceding, 0, sizeof now.preceding);
    for (i = 0; i < now.issued; i++)
        for (j = 0; j < i; j++) {
            now.preceding[i] |= (unsigned)directly_precedes(&now.operations[j], &now.operations[i]) << j;
            count_pair(&now.operations[j], &now.operations[i]);
        }
}

int closed(unsigned set)
{
    uint64_t i;
    for (i = 0; i < now.issued; i++)
        if (in(set, i) && now.preceding[i] & ~set)
            return 0;
    return 1;
}

unsigned needed(uint64_t object)
{
    uint8_t chosen[MOST];
    unsigned set = 0;
    uint64_t i;
    for (i = 0; i < now.issued; i++)
        chosen[i] = (uint8_t)has_operand(&now.operations[i], object);
    with_predecessors(listed(), now.issued, chosen);
    for (i = 0; i < now.issued; i++)
        set |= (unsigned)chosen[i] << i;
    return set;
}

void depend(uint32_t dependents[MOST], uint64_t program, const uint64_t *objects, uint64_t count)
{
    uint8_t reached[WB_MOST_OBJECTS] = {0}, chosen[MOST];
    uint64_t i;
    for (i = 0; i < count; i++)
        reached[objects[i]] = 1;
    reaching(listed(), now.issued, reached, chosen);
    for (i = 0; i < now.issued; i++)
        dependents[i] |= (uint32_t)chosen[i] << program;
}

uint32_t dependents_of(unsigned set, const uint32_t dependents[MOST])
{
    uint32_t programs = 0;
    uint64_t i;
    for (i = 0; i < now.issued; i++)
        programs |= in(set, i) ? dependents[i] : 0;
    return programs;
}

int first_call(void) { return now.issued == 1 + (uint64_t)in(now.rests, 1); }

void outcome(unsigned set, uint8_t bytes[VOLUME])
{
    struct volume volume = volume_of(bytes);
    uint64_t i;
    memcpy(bytes, now.stages[0].view, VOLUME);
    for (i = 0; i < now.issued; i++)
        if (in(set, i) && !replay(&volume, &now.operations[i]))
            fail("operation %d was sent and does not apply in the replay", (int)i + 1);
}

/* ---- Comparing ---- */

static void print_trial(void)
{
    uint64_t i;
    printf("\nstarting volume: %s\nprograms: %s\n", now.start->text, now.assignment->text);
    for (i = 0; i < now.issued + now.asked; i++) {
        printf(i < now.issued ? "operation " : i == now.issued ? "then the call of operation " : "and of operation ");
        print_operation(stdout, &now.operations[i]);
        printf("\n");
    }
    printf("pushes:");
    for (i = 0; i < now.pushes; i++)
        printf(" %d", (int)now.pushed[i]);
    printf("%s\n", now.pushes ? "" : " none");
    if (now.fsyncs)
        printf("then fsync of object %d with %d sends\n", (int)now.object, (int)now.sends);
}

void fail(const char *text, ...)
{
    va_list arguments;
    va_start(arguments, text);
    vprintf(text, arguments);
    va_end(arguments);
    print_trial();
    exit(1);
}

void equal(const char *what, uint64_t got, uint64_t wanted)
{
    if (got != wanted)
        fail("%s: %lu, and should be %lu", what, (unsigned long)got, (unsigned long)wanted);
}

void answered(const char *what, uint64_t got, uint64_t wanted)
{
    if (got != wanted)
        fail("%s: answered with %lu (%s), and should be with %lu (%s)",
             what, (unsigned long)got, wb_text(got), (unsigned long)wanted, wb_text(wanted));
}

void same(const char *what, const uint8_t *got, const uint8_t *wanted, size_t length)
{
    size_t at = 0;
    if (memcmp(got, wanted, length) == 0)
        return;
    while (got[at] == wanted[at])
        at++;
    fail("%s: byte %lu is %d, and should be %d", what, (unsigned long)at, got[at], wanted[at]);
}

void unchanged(const char *what, const struct buffers *got, const struct buffers *wanted)
{
    if (memcmp(got, wanted, sizeof *got) == 0)
        return;
    printf("%s changes a buffer: ", what);
    same("the server volume", got->server, wanted->server, VOLUME);
    same("the view", got->view, wanted->view, VOLUME);
    same("the log", got->log, wanted->log, LOG);
}

static void check_slot(const uint8_t *slot, uint64_t state, uint64_t dependents, uint64_t sequence)
{
    equal("the state of a slot", number_at(slot + STATE_AT, DEPENDENTS_AT - STATE_AT), state); /* the zero bytes behind it too */
    equal("the sequence number of a slot", number_at(slot + RECORD_AT + RECORD_SEQUENCE_AT, 4), sequence);
    equal("the dependents of a slot", number_at(slot + DEPENDENTS_AT, 4), dependents);
}

/* The used slots are those of the set, in issue order; without dependents they are lost, with them they wait. */
static void check_log(const uint8_t *log, uint32_t marks, unsigned set, const uint32_t *dependents)
{
    static const uint8_t zeros[LOG];
    const uint8_t *slot = log + WB_LOG_HEAD_BYTES;
    uint64_t i;
    equal("the next sequence number", number_at(log + NEXT_AT, 4), now.issued + 1);
    equal("the marks", number_at(log + MARKS_AT, 4), marks);
    for (i = 0; i < now.issued; i++)
        if (in(set, i)) {
            check_slot(slot, dependents ? STATE_WAITING : STATE_LOST, dependents ? dependents[i] : 0, i + 1);
            slot += WB_SLOT_BYTES;
        }
    same("the log after its last used slot", slot, zeros, (size_t)(log + LOG - slot));
}

void check_waiting(const struct buffers *lent, unsigned sent, const uint32_t dependents[MOST])
{
    uint8_t replayed[VOLUME];
    outcome(sent, replayed);
    same("the server volume", lent->server, replayed, VOLUME);
    same("the view", lent->view, stage()->view, VOLUME);
    check_log(lent->log, 0, all() & ~sent, dependents);
}

void check_lost(const struct buffers *lent, const uint8_t volume[VOLUME], unsigned losses, uint32_t marks)
{
    same("the server volume after the cut", lent->server, volume, VOLUME);
    same("the view after the cut", lent->view, volume, VOLUME);
    check_log(lent->log, marks, losses, NULL);
}
