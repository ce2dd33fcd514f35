#include "summary.h"

#define MILLION 1e6

static void print_refusals(const struct host *host, enum entry entry)
{
    uint64_t returned, count;
    for (returned = 1; returned <= WB_BAD_RECORD; returned++) {
        count = host->measure.entries[entry].returned[returned];
        if (count > 0)
            printf("  %d: %lu", (int)returned, (unsigned long)count);
    }
    printf("\n");
}

static void print_entries(const struct host *host)
{
    int entry;
    printf("  entry                 calls   mean, ms  refused (returned number: how often)\n");
    for (entry = 0; entry < ENTRIES; entry++) {
        if (host->measure.entries[entry].calls == 0)
            continue;
        printf("  %-19s %7lu  %9.3f", entry_text(entry), (unsigned long)host->measure.entries[entry].calls,
               (double)host->measure.entries[entry].time / MILLION / (double)host->measure.entries[entry].calls);
        print_refusals(host, entry);
    }
}

/* The texts of the numbers with which calls were refused. */
static void print_meanings(const struct host *host)
{
    uint64_t returned, count;
    int entry;
    printf("  returned\n");
    for (returned = 1; returned <= WB_BAD_RECORD; returned++) {
        count = 0;
        for (entry = 0; entry < ENTRIES; entry++)
            count += host->measure.entries[entry].returned[returned];
        if (count > 0)
            printf("  %8d  %s\n", (int)returned, wb_text(returned));
    }
}

static void print_times(const struct measure *measure)
{
    double whole = (double)(time_now() - measure->started) / MILLION, library = (double)library_time(measure) / MILLION;
    double floors = (double)measure->floor_time / MILLION, floor = floors / (double)measure->floors;
    printf("  time in the library %.1f s, in the host's own work %.1f s, measuring the floor %.1f s\n", library / 1000,
           (whole - library - floors) / 1000, floors / 1000);
    printf("  the floor, a plain | over server volume, view and log: mean %.3f ms, best %.3f ms of %lu\n", floor,
           (double)measure->least_floor / MILLION, (unsigned long)measure->floors);
    printf("  the library took %.2f times the floor a call (%lu calls, mean %.3f ms)\n",
           library / (double)measure->calls / floor, (unsigned long)measure->calls, library / (double)measure->calls);
}

/* How many operations there were of each kind. */
static void print_kinds(const struct host *host)
{
    uint64_t i, kind, counts[FORDER + 1] = {0}, displacing = 0;
    for (i = 0; i < host->issued_count; i++) {
        counts[host->issued[i]->operation.kind]++;
        displacing += host->issued[i]->operation.displaced != 0;
    }
    printf("  by kind:");
    for (kind = CREATE_FILE; kind <= FORDER; kind++)
        printf("%s %s %lu", kind > CREATE_FILE ? "," : "", kind_text(kind), (unsigned long)counts[kind]);
    printf("; renames that displaced an object: %lu\n", (unsigned long)displacing);
}

/* How many writes went across the end of a file, and of how many a broken link kept the overwrite and lost the append. */
static void print_across(const struct host *host)
{
    uint64_t sequence, count = 0, halves = 0;
    for (sequence = 2; sequence <= host->issued_count; sequence++) {
        if (!issued_as(host, sequence)->rest)
            continue;
        count++;
        halves += issued_as(host, sequence - 1)->state == SENT && issued_as(host, sequence)->state == FETCHED;
    }
    printf("  writes across the end of a file, an overwrite and an append each: %lu; sent with the overwrite alone: %lu\n",
           (unsigned long)count, (unsigned long)halves);
}

/* How many calls found an object by another spelling, or were refused over one, and how many renames changed only the case. */
static void print_spellings(const struct host *host)
{
    uint64_t i, removes = 0, renames = 0, count = 0, lost = 0;
    for (i = 0; i < host->issued_count; i++) {
        const struct issued *issued = host->issued[i];
        removes += found_otherwise(issued) && issued->operation.kind == REMOVE;
        renames += found_otherwise(issued) && issued->operation.kind == RENAME;
        count += (uint64_t)case_alone(issued);
        lost += case_alone(issued) && issued->state == FETCHED;
    }
    printf("  calls that found an object by another spelling: %lu (lookup %lu, remove %lu, rename %lu)\n",
           (unsigned long)(host->looked_otherwise + removes + renames), (unsigned long)host->looked_otherwise,
           (unsigned long)removes, (unsigned long)renames);
    printf("  objects not made, since their name was there in another spelling: %lu\n", (unsigned long)host->taken_otherwise);
    printf("  renames that changed only the case: %lu, of which %lu were lost\n", (unsigned long)count, (unsigned long)lost);
}

/* How many objects were given to the wrong one of the two removals. */
static void print_removals(const struct host *host)
{
    printf("  removes refused over the wrong call: %lu (files %lu, empty directories %lu, directories with children %lu)\n",
           (unsigned long)(host->wrong_files + host->wrong_empty + host->wrong_filled), (unsigned long)host->wrong_files,
           (unsigned long)host->wrong_empty, (unsigned long)host->wrong_filled);
}

static uint64_t questions(const struct measure *measure)
{
    return measure->entries[ENTRY_LOOKUP].calls + measure->entries[ENTRY_LIST].calls + measure->entries[ENTRY_STAT].calls
        + measure->entries[ENTRY_READ].calls;
}

void print_summary(const struct host *host, const struct class *class)
{
    const struct measure *measure = &host->measure;
    printf("\nSummary\n");
    printf("  issued: %lu by a class of %d; at most %lu waited at a time\n", (unsigned long)host->issued_count, (int)class->count,
           (unsigned long)host->most_waiting);
    print_kinds(host);
    print_across(host);
    print_spellings(host);
    print_removals(host);
    printf("  sent: %lu, of which %lu by push and %lu by fsync; %lu went before one that was issued earlier\n",
           (unsigned long)host->sent_count, (unsigned long)host->pushed, (unsigned long)(host->sent_count - host->pushed),
           (unsigned long)host->overtaking);
    printf("  lost: %lu, each fetched as a loss record\n", (unsigned long)host->fetched_count);
    printf("  calls: %lu, of which %lu questions; every answer was as the host expected\n", (unsigned long)measure->calls,
           (unsigned long)questions(measure));
    print_entries(host);
    print_meanings(host);
    print_times(measure);
}
