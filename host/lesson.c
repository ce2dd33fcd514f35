/* A lesson on a write-behind volume: a class of programs saves its work, a link carries it to the server and breaks twice. What
 * the library answers is compared all the time with what the host reckons on its own; see --help. */
#include "broken.h"
#include "compare.h"
#include "graph.h"
#include "progress.h"
#include "summary.h"

#define BREAKS 2

struct lesson {
    struct options options;
    struct host host;
    struct class class;
    struct link link;
    FILE *graph;
    uint64_t broken;             /* how often the link broke */
    struct burst bursts[BREAKS]; /* what waited then */
};

static void see_to_floor(struct host *host)
{
    const uint8_t *bytes[3];
    uint64_t lengths[3];
    bytes[0] = host->server.bytes;
    bytes[1] = host->view.bytes;
    bytes[2] = host->log;
    lengths[0] = lengths[1] = host->volume_length;
    lengths[2] = host->log_length;
    measure_floor(&host->measure, bytes, lengths);
}

/* The link breaks first after a third of the operations, then after two thirds. */
static uint64_t due(const struct lesson *lesson, uint64_t which)
{
    uint64_t part = lesson->options.operations * which / (BREAKS + 1);
    return part < which ? which : part;
}

static int soon_broken(const struct lesson *lesson)
{
    return lesson->broken < BREAKS
        && lesson->host.issued_count + lesson->options.operations / 12 + 8 >= due(lesson, lesson->broken + 1);
}

/* Breaks the link if it is due and can break so. */
static void see_to_link(struct lesson *lesson)
{
    struct burst *burst = &lesson->bursts[lesson->broken];
    if (lesson->broken == BREAKS || lesson->host.issued_count < due(lesson, lesson->broken + 1))
        return;
    clear_progress();
    compare_view(&lesson->host);
    if (lesson->broken == 0)
        *burst = break_by_cut(&lesson->host);
    else if (!break_by_fsync(&lesson->host, burst))
        return;
    recover(&lesson->host, &lesson->class, burst, lesson->options.quiet);
    lesson->broken++;
}

/* The log is full: the link must carry something before a pupil can go on. */
static void make_room(struct host *host)
{
    uint64_t sent = host->sent_count;
    if (first_time(host, LOG_FULL))
        printf("After operation %lu a pupil is refused: %s. The link must carry something first.\n",
               (unsigned long)host->issued_count, wb_text(WB_LOG_FULL));
    while (host->sent_count < sent + 4)
        carry_one(host);
}

static void begin(struct lesson *lesson, int count, char **words)
{
    uint64_t operations;
    lesson->options = read_options(count, words);
    operations = lesson->options.operations;
    lesson->graph = open_graph(lesson->options.graph);
    open_host(&lesson->host, &lesson->options);
    gather(&lesson->class, operations);
    begin_link(&lesson->link, operations);
    printf("A class of %d, seed %llu: %lu operation%s on %d objects, %d blocks a file and %d slots.\n", (int)lesson->class.count,
           (unsigned long long)lesson->options.seed, (unsigned long)operations, plural(operations), (int)lesson->host.n,
           (int)lesson->host.b, (int)lesson->host.m);
    if (lesson->options.server)
        printf("The server volume is %s, %s.\n", lesson->options.server, lesson->host.went_on ? "as it was left" : "a new one");
    come_in(&lesson->host, &lesson->class, operations);
    printf("The pupils come in and look for their folders, %lu in all. Missing and made: %lu. An fsync of the root sends them.\n",
           (unsigned long)lesson->class.looked, (unsigned long)lesson->class.made);
    do_fsync(&lesson->host, 0, 0, lesson->host.m);
}

static void work(struct lesson *lesson)
{
    struct host *host = &lesson->host;
    see_to_link(lesson);
    while (host->issued_count < lesson->options.operations) {
        if (take_turn(host, &lesson->class) == WB_LOG_FULL)
            make_room(host);
        see_to_link(lesson);
        carry(host, &lesson->link, soon_broken(lesson));
        see_to_floor(host);
        tell_progress(host, lesson->options.operations);
    }
}

static void end(struct lesson *lesson)
{
    struct host *host = &lesson->host;
    clear_progress();
    if (lesson->broken < BREAKS)
        printf("\nBroken link 2 could not happen: there were too few operations, and no object ever needed two sends.\n");
    printf("\nAfter operation %lu: the link carries all that waits, %lu operation%s.\n", (unsigned long)host->issued_count,
           (unsigned long)host->waiting_count, plural(host->waiting_count));
    carry_all(host);
    compare_server(host);
    compare_view(host);
    printf("The server volume equals the replay of the %lu operation%s sent: %lu bytes compared.\n",
           (unsigned long)host->sent_count, plural(host->sent_count), (unsigned long)host->volume_length);
    printf("The view equals the host's own: as many bytes.\n");
    if (lesson->graph)
        draw_graph(lesson->graph, lesson->options.graph, host, lesson->bursts, lesson->broken);
    see_to_floor(host);
    print_summary(host, &lesson->class);
    close_host(host);
}

int main(int count, char **words)
{
    static struct lesson lesson;
    setvbuf(stdout, NULL, _IOLBF, BUFSIZ);
    begin(&lesson, count, words);
    work(&lesson);
    end(&lesson);
    return 0;
}
