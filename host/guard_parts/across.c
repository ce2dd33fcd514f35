/* What is answered to writes across the end of a file, by the slots that are free and the sequence numbers that are left. */
#include <stdio.h>
#include "guard.h"

/* The answers that have to come, each with the slots and the numbers then. */
static struct answered {
    uint64_t returned;
    const char *when;
    uint64_t least_free, most_free, least_left, most_left;
    uint64_t seen;
} answers[] = {
    {WB_ACCEPTED, "with over two slots free", 3, WB_MOST_SLOTS, 2, WIDE, 0},
    {WB_ACCEPTED, "with two", 2, 2, 2, WIDE, 0},
    {WB_LOG_FULL, "with one", 1, 1, 0, WIDE, 0},
    {WB_LOG_FULL, "with none", 0, 0, 0, WIDE, 0},
    {WB_ACCEPTED, "with two numbers left", 2, WB_MOST_SLOTS, 2, 2, 0},
    {WB_SPENT, "with one", 2, WB_MOST_SLOTS, 1, 1, 0},
    {WB_SPENT, "with none", 2, WB_MOST_SLOTS, 0, 0, 0},
};
enum { ANSWERS = sizeof answers / sizeof *answers };

struct across across_of(const struct call *call)
{
    const uint64_t object = call->number[OBJECT], offset = call->number[OFFSET], count = call->length[OWN];
    struct across across = {0, 0, 0};
    if (call->entry != WRITE || !is_usual(call) || object >= present.n || object_at(object)[KIND_AT] != FILE_KIND)
        return across;
    across.is = offset < length_of(object) && count <= WB_BLOCK_BYTES - offset % WB_BLOCK_BYTES
        && length_of(object) < offset + count;
    across.free = present.m - slots_used();
    across.left = WB_LAST_SEQUENCE + 1 - next_sequence();
    return across;
}

void count_across(struct across across, uint64_t returned)
{
    struct answered *answer;
    for (answer = answers; answer < answers + ANSWERS; answer++)
        answer->seen += across.is && answer->returned == returned && answer->least_free <= across.free
            && across.free <= answer->most_free && answer->least_left <= across.left && across.left <= answer->most_left;
}

unsigned say_across(void)
{
    const struct answered *answer;
    unsigned missing = 0;
    printf("wb_write across the end of a file");
    for (answer = answers; answer < answers + ANSWERS; answer++) {
        printf("  %u %s: %s", (unsigned)answer->returned, answer->when, commas(answer->seen));
        missing += answer->seen == 0;
    }
    printf("\n");
    return missing;
}
