#include "measure.h"
#include <string.h>
#include <time.h>

#define CALLS_A_FLOOR 250

const char *entry_text(enum entry entry)
{
    static const char *const texts[ENTRIES] = {"wb_format", "wb_mount", "wb_lookup", "wb_list", "wb_stat", "wb_read", "wb_create",
        "wb_mkdir", "wb_remove_file", "wb_remove_directory", "wb_rename", "wb_write", "wb_setlen", "wb_forder", "wb_push",
        "wb_fsync", "wb_cut", "wb_take", "wb_renew"};
    return texts[entry];
}

uint64_t time_now(void)
{
    struct timespec now;
    clock_gettime(CLOCK_MONOTONIC, &now);
    return UINT64_C(1000000000) * (uint64_t)now.tv_sec + (uint64_t)now.tv_nsec;
}

void begin_call(struct measure *measure) { measure->begun = time_now(); }

void end_call(struct measure *measure, enum entry entry, uint64_t returned)
{
    measure->entries[entry].time += time_now() - measure->begun;
    measure->entries[entry].calls++;
    measure->entries[entry].returned[returned <= WB_BAD_RECORD ? returned : WB_BAD_RECORD]++;
    measure->calls++;
}

/* 32 bytes a turn, each 8 of them on their own, so that the processor need not wait for the last |. */
static uint64_t plain_or(const uint8_t *bytes, uint64_t length)
{
    uint64_t kept[4] = {0, 0, 0, 0}, read[4], at;
    for (at = 0; at + sizeof read <= length; at += sizeof read) {
        memcpy(read, bytes + at, sizeof read);
        kept[0] |= read[0];
        kept[1] |= read[1];
        kept[2] |= read[2];
        kept[3] |= read[3];
    }
    for (; at < length; at++)
        kept[0] |= bytes[at];
    return kept[0] | kept[1] | kept[2] | kept[3];
}

void measure_floor(struct measure *measure, const uint8_t *const bytes[3], const uint64_t lengths[3])
{
    uint64_t begun, taken;
    int i;
    if (measure->calls < CALLS_A_FLOOR * measure->floors)
        return;
    begun = time_now();
    for (i = 0; i < 3; i++)
        measure->kept |= plain_or(bytes[i], lengths[i]);
    taken = time_now() - begun;
    measure->floor_time += taken;
    if (measure->floors++ == 0 || taken < measure->least_floor)
        measure->least_floor = taken;
}

uint64_t library_time(const struct measure *measure)
{
    uint64_t time = 0;
    int entry;
    for (entry = 0; entry < ENTRIES; entry++)
        time += measure->entries[entry].time;
    return time;
}
