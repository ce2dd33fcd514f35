#include "link.h"

#define TURNS_HELD 100
#define MOST_CALM 200

static uint64_t between(uint64_t least, uint64_t number, uint64_t most)
{
    return number < least ? least : number > most ? most : number;
}

void begin_link(struct link *link, uint64_t operations)
{
    link->most = between(1, operations / 5 + 4, WB_MOST_SLOTS);
    link->calm = between(8, operations / 60, MOST_CALM);
    link->aim = link->most / 4;
    link->held = 0;
}

/* Goes from one that is chosen at random, earlier ones more often, back to one that nothing holds. */
void carry_one(struct host *host)
{
    uint64_t place = below(&host->chance, 1 + below(&host->chance, host->waiting_count)), before = host->n;
    int hasty = one_in(&host->chance, 20);
    unsigned long sequence;
    while (!hasty && before != place) {
        before = place;
        place = holder(host, place);
    }
    sequence = (unsigned long)host->waiting[place]->sequence;
    if (do_push(host, place) == WB_NOT_FIRST && first_time(host, NOT_FIRST))
        printf("The link tries operation %lu before operation %lu, which directly precedes it: %s.\n", sequence,
               (unsigned long)host->waiting[holder(host, place)]->sequence, wb_text(WB_NOT_FIRST));
}

static void next_aim(struct host *host, struct link *link)
{
    static const uint64_t parts[] = {1, 8, 32, 80, 128, 128}; /* of 128 */
    link->aim = link->most * parts[below(&host->chance, sizeof parts / sizeof parts[0])] / 128;
    link->held = 0;
}

void carry(struct host *host, struct link *link, int soon)
{
    uint64_t i, sends = 3, aim = soon ? link->calm : link->aim;
    if (host->waiting_count <= aim)
        sends = one_in(&host->chance, soon ? 8 : 4) ? 1 : 0;
    for (i = 0; i < sends && host->waiting_count > 0; i++)
        carry_one(host);
    link->held += host->waiting_count + 4 >= aim && host->waiting_count <= aim + 4;
    if (link->held > TURNS_HELD)
        next_aim(host, link);
}

void carry_all(struct host *host)
{
    while (host->waiting_count > 0)
        carry_one(host);
}

struct burst burst_of(const struct host *host)
{
    struct burst burst;
    for (burst.count = 0; burst.count < host->waiting_count; burst.count++)
        burst.sequences[burst.count] = host->waiting[burst.count]->sequence;
    return burst;
}
