#include "pupils.h"
#include <string.h>

#define OPERATIONS_A_PUPIL 10
#define TURNS_A_REST 100
#define TURNS_A_LOOK 60

void gather(struct class *class, uint64_t operations)
{
    uint64_t i;
    memset(class, 0, sizeof *class);
    class->count = operations / OPERATIONS_A_PUPIL;
    if (class->count > WB_PROGRAMS)
        class->count = WB_PROGRAMS;
    if (class->count == 0)
        class->count = 1;
    for (i = 0; i < class->count; i++) {
        class->pupils[i].program = i;
        class->pupils[i].at_work = i % 3 != 2;
    }
}

uint64_t own_number(const struct host *host, uint64_t program)
{
    uint64_t object;
    for (object = program ? program : WB_PROGRAMS; object < host->n; object += WB_PROGRAMS)
        if (kind_at(&host->own, object) == FREE)
            return object;
    return host->n;
}

/* Finds a directory of the root, or makes it; tells the returned number. */
static uint64_t find_or_make(struct host *host, struct class *class, uint64_t program, struct name name, uint64_t *object)
{
    struct path path = typed_path(host, path_in(host, 0, name));
    uint64_t returned = do_lookup(host, program, &path, object);
    class->looked++;
    if (returned == WB_ACCEPTED && kind_at(&host->own, *object) != DIRECTORY_ENTRY)
        refuse("the server volume is not one of this lesson: \"%.*s\" is a file", (int)name.length, (const char *)name.bytes);
    if (returned == WB_ACCEPTED)
        return returned;
    *object = own_number(host, program);
    if (*object == host->n)
        refuse("the server volume is not one of this lesson: it has no object number left for program %d", (int)program);
    returned = do_create(host, program, MAKE_DIRECTORY, 0, name, *object);
    class->made += returned == WB_ACCEPTED;
    return returned;
}

/* A pupil finds its own folder and that of its group. */
static uint64_t settle(struct host *host, struct class *class, struct pupil *pupil, uint64_t operations)
{
    uint64_t returned = WB_ACCEPTED;
    if (host->issued_count < operations)
        returned = find_or_make(host, class, pupil->program, folder_name(pupil->program), &pupil->folder);
    if (host->issued_count < operations && returned == WB_ACCEPTED)
        returned = find_or_make(host, class, pupil->program, shared_name(pupil->program / GROUP_PUPILS), &pupil->shared);
    pupil->settled = returned == WB_ACCEPTED;
    return returned;
}

void come_in(struct host *host, struct class *class, uint64_t operations)
{
    uint64_t i;
    for (i = 0; i < class->count; i++)
        settle(host, class, &class->pupils[i], operations);
}

/* A pupil at random that is at work, or that is not. */
static struct pupil *one_of(struct host *host, struct class *class, int at_work)
{
    struct pupil *chosen = NULL;
    uint64_t i, count = 0;
    for (i = 0; i < class->count; i++)
        if (class->pupils[i].at_work == at_work && one_in(&host->chance, ++count))
            chosen = &class->pupils[i];
    return chosen;
}

/* One pupil has a rest, and one that had its rest is at work again. */
static void change_places(struct host *host, struct class *class)
{
    struct pupil *tired = one_of(host, class, 1), *rested = one_of(host, class, 0);
    if (!rested)
        return;
    tired->at_work = 0;
    rested->at_work = 1;
}

uint64_t take_turn(struct host *host, struct class *class)
{
    struct pupil *pupil;
    if (class->turns++ % TURNS_A_REST == TURNS_A_REST - 1)
        change_places(host, class);
    pupil = one_in(&host->chance, TURNS_A_LOOK) ? one_of(host, class, 0) : NULL;
    if (!pupil)
        pupil = one_of(host, class, 1);
    if (!pupil->settled)
        return settle(host, class, pupil, UINT64_MAX);
    return pupil->at_work ? act(host, pupil) : look_in(host, pupil);
}

void start_again(struct class *class, uint64_t marked)
{
    uint64_t i;
    for (i = 0; i < class->count; i++) {
        class->pupils[i].saving = NOT_SAVING;
        if (marked >> class->pupils[i].program & 1)
            class->pupils[i].settled = 0;
    }
}
