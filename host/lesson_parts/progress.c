#include "progress.h"
#include <unistd.h>

#define PAUSE_ON_TERMINAL UINT64_C(200000000)
#define PAUSE UINT64_C(5000000000)

static int stands; /* a line stands on the terminal */

void tell_progress(const struct host *host, uint64_t operations)
{
    static uint64_t last;
    int terminal = isatty(STDERR_FILENO);
    uint64_t now = time_now();
    if (now - (last ? last : host->measure.started) < (terminal ? PAUSE_ON_TERMINAL : PAUSE))
        return;
    last = now;
    clear_progress();
    fprintf(stderr, "%lu of %lu operations issued, %lu sent, %lu lost, %lu wait%s", (unsigned long)host->issued_count,
            (unsigned long)operations, (unsigned long)host->sent_count, (unsigned long)host->fetched_count,
            (unsigned long)host->waiting_count, terminal ? "" : "\n");
    stands = terminal;
}

void clear_progress(void)
{
    if (stands)
        fprintf(stderr, "\r\033[K");
    stands = 0;
}
