#include "host.h"
#include "progress.h"
#include "spelling.h"
#include <errno.h>
#include <fcntl.h>
#include <stdarg.h>
#include <stdlib.h>
#include <string.h>
#include <sys/mman.h>
#include <sys/stat.h>
#include <unistd.h>

void fault(const char *format, ...)
{
    va_list values;
    va_start(values, format);
    fflush(stdout);
    fprintf(stderr, "\nlesson: not as expected: ");
    vfprintf(stderr, format, values);
    fprintf(stderr, "\n");
    va_end(values);
    exit(1);
}

static void *room(void *before, uint64_t bytes)
{
    void *got = realloc(before, bytes);
    if (!got)
        refuse("there is no memory for %llu bytes", (unsigned long long)bytes);
    return got;
}

static struct volume fresh_volume(const struct host *host)
{
    struct volume volume = {host->n, host->b, NULL};
    volume.bytes = room(NULL, host->volume_length);
    return volume;
}

/* Maps the file, which is made if it is not there; tells whether it was. */
static int map_server(struct host *host, const char *file)
{
    struct stat status;
    void *mapped;
    int was_there, opened = open(file, O_RDWR | O_CREAT, 0666);
    if (opened < 0 || fstat(opened, &status) != 0)
        refuse("cannot open %s: %s", file, strerror(errno));
    was_there = status.st_size != 0;
    if (was_there && (uint64_t)status.st_size != host->volume_length)
        refuse("%s has %lld bytes and is no server volume of this lesson, which has %llu", file, (long long)status.st_size,
               (unsigned long long)host->volume_length);
    if (!was_there && ftruncate(opened, (off_t)host->volume_length) != 0)
        refuse("cannot make %s as long as a server volume: %s", file, strerror(errno));
    mapped = mmap(NULL, host->volume_length, PROT_READ | PROT_WRITE, MAP_SHARED, opened, 0);
    close(opened);
    if (mapped == MAP_FAILED)
        refuse("cannot map %s: %s", file, strerror(errno));
    host->server.n = host->n;
    host->server.b = host->b;
    host->server.bytes = mapped;
    return was_there;
}

static void format_server(struct host *host)
{
    struct wb_code answer;
    CALL(host, ENTRY_FORMAT, answer, wb_format(host->n, host->b, host->m, host->server.bytes, host->volume_length));
    if (answer.returned != WB_ACCEPTED)
        fault("wb_format returned %d, %s", (int)answer.returned, wb_text(answer.returned));
}

static void mount_server(struct host *host)
{
    struct wb_code answer;
    CALL(host, ENTRY_MOUNT, answer, wb_mount(LENT(host)));
    if (answer.returned != WB_ACCEPTED)
        fault("%s cannot be mounted; wb_mount returned %d, %s", host->server_file ? host->server_file : "a new server volume",
              (int)answer.returned, wb_text(answer.returned));
    memcpy(host->mounted.bytes, host->server.bytes, host->volume_length);
    memcpy(host->own.bytes, host->server.bytes, host->volume_length);
}

void open_host(struct host *host, const struct options *options)
{
    memset(host, 0, sizeof *host);
    host->n = WB_MOST_OBJECTS;
    host->b = WB_MOST_BLOCKS;
    host->m = WB_MOST_SLOTS;
    host->volume_length = WB_VOLUME_BYTES(host->n, host->b);
    host->log_length = WB_LOG_BYTES(host->m);
    host->chance.state = options->seed;
    host->typing.state = ~options->seed;
    host->removal.state = options->seed ^ UINT64_C(1) << 63;
    host->server_file = options->server;
    host->measure.started = time_now();
    host->view = fresh_volume(host);
    host->own = fresh_volume(host);
    host->mounted = fresh_volume(host);
    host->replayed = fresh_volume(host);
    host->log = room(NULL, host->log_length);
    if (options->server)
        host->went_on = map_server(host, options->server);
    else
        host->server = fresh_volume(host);
    if (!host->went_on)
        format_server(host);
    mount_server(host);
}

void close_host(struct host *host)
{
    uint64_t i;
    if (host->server_file && msync(host->server.bytes, host->volume_length, MS_SYNC) != 0)
        refuse("cannot keep the server volume in %s: %s", host->server_file, strerror(errno));
    if (host->server_file)
        munmap(host->server.bytes, host->volume_length);
    else
        free(host->server.bytes);
    free(host->view.bytes);
    free(host->own.bytes);
    free(host->mounted.bytes);
    free(host->replayed.bytes);
    free(host->log);
    for (i = 0; i < host->issued_count; i++)
        free(host->issued[i]);
    free(host->issued);
}

struct issued *issued_as(const struct host *host, uint64_t sequence) { return host->issued[sequence - 1]; }

struct name name_of(const struct host *host, uint64_t object)
{
    struct name name = {0, {0}};
    const uint8_t *bytes = name_at(&host->own, object, &name.length);
    memcpy(name.bytes, bytes, name.length);
    return name;
}

int spelt_otherwise(const struct host *host, uint64_t object, const uint8_t *name, uint64_t length)
{
    uint64_t stored_length;
    const uint8_t *stored = name_at(&host->own, object, &stored_length);
    return !same_spelling(stored, stored_length, name, length);
}

int found_otherwise(const struct issued *issued)
{
    return by_other_spelling(&issued->operation, issued->called.bytes, issued->called.length);
}

int case_alone(const struct issued *issued)
{
    return changes_case_alone(&issued->operation, issued->called.bytes, issued->called.length);
}

void add_waiting(struct host *host, const struct operation *operation)
{
    struct issued *issued = room(NULL, sizeof *issued);
    if (host->issued_count == host->issued_room) {
        host->issued_room = 2 * host->issued_room + 1024;
        host->issued = room(host->issued, host->issued_room * sizeof host->issued[0]);
    }
    issued->operation = *operation;
    issued->state = WAITING;
    issued->rest = 0;
    issued->dependents = UINT64_C(1) << operation->program;
    issued->called = name_of(host, operation->kind == FORDER ? operation->list[0] : operation->object);
    host->issued[host->issued_count++] = issued;
    host->waiting[host->waiting_count++] = &issued->operation;
    if (host->waiting_count > host->most_waiting)
        host->most_waiting = host->waiting_count;
}

uint64_t free_slots(const struct host *host) { return host->m - host->waiting_count - host->lost_count; }

void now_sent(struct host *host, const uint8_t *chosen)
{
    uint64_t i, left = 0;
    for (i = 0; i < host->waiting_count; i++)
        if (chosen[i])
            issued_as(host, host->waiting[i]->sequence)->state = SENT;
        else
            host->waiting[left++] = host->waiting[i];
    host->sent_count += host->waiting_count - left;
    host->waiting_count = left;
}

void now_lost(struct host *host)
{
    uint64_t i;
    for (i = 0; i < host->waiting_count; i++) {
        issued_as(host, host->waiting[i]->sequence)->state = LOST;
        host->marked |= issued_as(host, host->waiting[i]->sequence)->dependents;
        host->lost[host->lost_count++] = host->waiting[i];
    }
    host->waiting_count = 0;
}

int first_time(struct host *host, enum event event)
{
    if (host->happened[event]++ > 0)
        return 0;
    clear_progress();
    return 1;
}

int is_marked(const struct host *host, uint64_t program) { return (host->marked >> program & 1) != 0; }

void note_dependence(struct host *host, uint64_t program, uint8_t objects[WB_MOST_OBJECTS])
{
    uint8_t chosen[WB_MOST_SLOTS];
    uint64_t i;
    reaching(host->waiting, host->waiting_count, objects, chosen);
    for (i = 0; i < host->waiting_count; i++)
        if (chosen[i])
            issued_as(host, host->waiting[i]->sequence)->dependents |= UINT64_C(1) << program;
}

uint64_t choose_needed(const struct host *host, uint64_t object, uint8_t chosen[WB_MOST_SLOTS])
{
    uint64_t i, count = 0;
    for (i = 0; i < host->waiting_count; i++)
        chosen[i] = (uint8_t)has_operand(host->waiting[i], object);
    with_predecessors(host->waiting, host->waiting_count, chosen);
    for (i = 0; i < host->waiting_count; i++)
        count += chosen[i];
    return count;
}
