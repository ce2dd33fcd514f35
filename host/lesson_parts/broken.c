#include "broken.h"
#include "compare.h"
#include <string.h>

#define TRIED_OBJECTS 64

struct burst break_by_cut(struct host *host)
{
    struct burst burst = burst_of(host);
    uint64_t left = host->waiting_count - host->waiting_count / 3;
    printf("\nBroken link 1, after operation %lu: the link is cut.\n", (unsigned long)host->issued_count);
    while (host->waiting_count > left)
        carry_one(host);
    do_cut(host);
    return burst;
}

/* Of the objects of the waiting operations, the latest first, one that needs the most sends; 0 sends if nothing waits. */
static const struct operation *neediest(const struct host *host, uint64_t *most)
{
    const struct operation *found = NULL;
    uint8_t chosen[WB_MOST_SLOTS];
    uint64_t i, needed;
    *most = 0;
    for (i = host->waiting_count; i-- > 0 && host->waiting_count - i <= TRIED_OBJECTS;) {
        if (kind_at(&host->own, host->waiting[i]->object) == FREE)
            continue;
        needed = choose_needed(host, host->waiting[i]->object, chosen);
        if (needed > *most) {
            *most = needed;
            found = host->waiting[i];
        }
    }
    return found;
}

int break_by_fsync(struct host *host, struct burst *burst)
{
    uint64_t needed;
    const struct operation *operation = neediest(host, &needed);
    if (needed < 2)
        return 0;
    *burst = burst_of(host);
    printf("\nBroken link 2, after operation %lu: %s asks for fsync of object %d.", (unsigned long)host->issued_count,
           who(operation->program), (int)operation->object);
    printf(" It needs %lu sends, the link carries %lu more.\n", (unsigned long)needed, (unsigned long)(needed / 2));
    printf("  %s.\n", wb_text(do_fsync(host, operation->program, operation->object, needed / 2)));
    return 1;
}

static uint64_t losses_of(const struct host *host, uint64_t program)
{
    uint64_t i, count = 0;
    for (i = 0; i < host->lost_count; i++)
        count += host->lost[i]->program == program;
    return count;
}

/* Prints the programs for which the set has a bit, with what each lost where that is asked. */
static void print_programs(const struct host *host, const char *before, uint64_t set, int with_losses)
{
    uint64_t program, printed = 0;
    printf("%s", before);
    for (program = 0; program < WB_PROGRAMS; program++) {
        if (!(set >> program & 1))
            continue;
        printf("%s %s", printed++ ? "," : "", first_name(program));
        if (with_losses)
            printf(" %lu", (unsigned long)losses_of(host, program));
    }
    printf("%s\n", printed ? "" : " nobody");
}

/* What became of the writes across the end whose append waited; nothing is printed where there was none. */
static void print_across(const struct host *host, const struct burst *burst)
{
    uint64_t i, count = 0, whole = 0, halves = 0;
    for (i = 0; i < burst->count; i++) {
        const struct issued *issued = issued_as(host, burst->sequences[i]);
        if (!issued->rest)
            continue;
        count++;
        whole += issued->state == SENT;
        halves += issued->state != SENT && issued_as(host, burst->sequences[i] - 1)->state == SENT;
    }
    if (count > 0)
        printf("  %lu write%s across the end of a file: %lu sent whole, %lu with the overwrite alone, %lu lost whole.\n",
               (unsigned long)count, plural(count), (unsigned long)whole, (unsigned long)halves,
               (unsigned long)(count - whole - halves));
}

/* What became of the renames that change only the case and waited; nothing is printed where there was none. */
static void print_spellings(const struct host *host, const struct burst *burst)
{
    uint64_t i, count = 0, sent = 0;
    for (i = 0; i < burst->count; i++) {
        const struct issued *issued = issued_as(host, burst->sequences[i]);
        count += (uint64_t)case_alone(issued);
        sent += case_alone(issued) && issued->state == SENT;
    }
    if (count > 0)
        printf("  %lu rename%s that change%s only the case: %lu sent, %lu lost.\n", (unsigned long)count, plural(count),
               count == 1 ? "s" : "", (unsigned long)sent, (unsigned long)(count - sent));
}

static void print_lost(const struct host *host, const struct burst *burst, uint64_t class_set)
{
    uint64_t i, losers = 0;
    for (i = 0; i < host->lost_count; i++)
        losers |= UINT64_C(1) << host->lost[i]->program;
    printf("  %lu operation%s waited: %lu still sent, %lu lost.\n", (unsigned long)burst->count, plural(burst->count),
           (unsigned long)(burst->count - host->lost_count), (unsigned long)host->lost_count);
    print_across(host, burst);
    print_spellings(host, burst);
    print_programs(host, "  lost, by program:", losers, 1);
    print_programs(host, "  marked:          ", host->marked, 0);
    print_programs(host, "  not marked:      ", class_set & ~host->marked, 0);
}

/* Asks for a stat of the root for each program; the answer has to be as the host reckons it. Nothing waits, so that asking
 * brings no dependence. */
static void ask_marks(struct host *host)
{
    uint64_t program;
    for (program = 0; program < WB_PROGRAMS; program++)
        do_stat(host, program, 0);
}

/* Of an append that is the rest of a write it is said where the overwrite was sent: only the append is to be done again. */
static void print_loss(const struct host *host, const struct operation *loss)
{
    const struct issued *issued = issued_as(host, loss->sequence);
    const struct name *called = &issued->called;
    printf("    ");
    print_operation(stdout, loss);
    if (loss->kind > RENAME && loss->kind != FORDER) {
        printf(" (\"");
        print_name(stdout, called->bytes, called->length);
        printf("\")");
    }
    if (issued->rest && issued_as(host, loss->sequence - 1)->state == SENT)
        printf("; the overwrite before it, %lu, was sent", (unsigned long)(loss->sequence - 1));
    printf("\n");
}

/* A marked program takes its losses until there are none, and renews. Where it has losses, renewing first is refused. */
static void take_losses(struct host *host, uint64_t program, int quiet)
{
    unsigned long count = (unsigned long)losses_of(host, program);
    struct operation loss;
    if (count == 0)
        printf("  %s is marked and has no losses of its own: it depended on those of others.\n", who(program));
    else
        printf("  %s fetches %lu loss%s%s\n", who(program), count, count == 1 ? "" : "es", quiet ? "." : ":");
    if (count > 0)
        do_renew(host, program);
    while (do_take(host, program, &loss) == WB_ACCEPTED)
        if (!quiet)
            print_loss(host, &loss);
    do_renew(host, program);
}

void recover(struct host *host, struct class *class, const struct burst *burst, int quiet)
{
    uint64_t program, marked = host->marked, class_set = (UINT64_C(1) << class->count) - 1;
    print_lost(host, burst, class_set);
    ask_marks(host);
    for (program = 0; program < WB_PROGRAMS; program++)
        if (marked >> program & 1)
            take_losses(host, program, quiet);
    ask_marks(host);
    compare_server(host);
    memcpy(host->own.bytes, host->replayed.bytes, host->volume_length);
    compare_view(host);
    start_again(class, marked);
    printf("  Nobody is marked any more. Server volume and view equal the replay of the %lu operation%s sent. Work goes on.\n",
           (unsigned long)host->sent_count, plural(host->sent_count));
}
