#include "actions.h"

/* The object's name is given to the call for objects of the other kind, which refuses it. */
static void remove_wrongly(struct host *host, uint64_t program, uint64_t object, struct name name)
{
    int is_file = kind_at(&host->own, object) == FILE_ENTRY;
    uint64_t returned = do_remove(host, program, is_file ? DIRECTORY_ENTRY : FILE_ENTRY, parent_at(&host->own, object), name);
    if (!first_time(host, WRONG_CALL))
        return;
    printf("%s tries to remove \"", who(program));
    print_name(stdout, name.bytes, name.length);
    printf("\", a %s, by the call for %s; %s.\n", is_file ? "file" : "directory", is_file ? "directories" : "files",
           wb_text(returned));
}

/* By the call for objects of its kind; now and then a pupil picks the other one first, with directories more often. */
static uint64_t remove_object(struct host *host, struct pupil *pupil, uint64_t object)
{
    const uint64_t kind = kind_at(&host->own, object);
    struct name name;
    if (object == 0)
        return WB_ACCEPTED;
    name = typed(host, name_of(host, object));
    if (one_in(&host->removal, kind == FILE_ENTRY ? 8 : 3))
        remove_wrongly(host, pupil->program, object, name);
    return do_remove(host, pupil->program, kind, parent_at(&host->own, object), name);
}

uint64_t remove_file(struct host *host, struct pupil *pupil)
{
    return remove_object(host, pupil, pick(host, pupil, own_waste));
}

uint64_t remove_subfolder(struct host *host, struct pupil *pupil)
{
    return remove_object(host, pupil, pick(host, pupil, own_subfolder));
}

uint64_t make_subfolder(struct host *host, struct pupil *pupil)
{
    uint64_t object = own_number(host, pupil->program), place = one_in(&host->chance, 4) ? pupil->shared : pupil->folder;
    if (object == host->n)
        return remove_subfolder(host, pupil);
    return do_create(host, pupil->program, MAKE_DIRECTORY, place, subfolder_name(&host->chance), object);
}

/* A file of its own goes into the group's folder, or from there into its own. */
uint64_t move_file(struct host *host, struct pupil *pupil)
{
    uint64_t object = pick(host, pupil, own_file), parent = parent_at(&host->own, object);
    struct name first, second;
    if (object == 0)
        return create_file(host, pupil);
    first = typed(host, name_of(host, object));
    second = typed(host, name_of(host, object));
    return do_rename(host, pupil->program, parent, first, parent == pupil->shared ? pupil->folder : pupil->shared, second);
}

/* Prints a line on the rename issued last, which changed only the case. */
static void say_case(const struct host *host)
{
    const struct issued *last = issued_as(host, host->issued_count);
    printf("%s renames \"", who(last->operation.program));
    print_name(stdout, last->called.bytes, last->called.length);
    printf("\" to \"");
    print_name(stdout, last->operation.second_name, last->operation.second_name_length);
    printf("\": only the case changes, and nothing is displaced.\n");
}

/* In its place, at times to the name that it has already, or to another spelling of it. */
static uint64_t rename_object(struct host *host, struct pupil *pupil, uint64_t object, struct name name)
{
    uint64_t returned, parent = parent_at(&host->own, object);
    struct name first, second;
    if (object == 0)
        return create_file(host, pupil);
    first = typed(host, name_of(host, object));
    second = one_in(&host->chance, 10) ? name_of(host, object) : name;
    second = careless(host, 4) ? respelt(host, name_of(host, object)) : typed(host, second);
    returned = do_rename(host, pupil->program, parent, first, parent, second);
    if (returned == WB_ACCEPTED && case_alone(issued_as(host, host->issued_count)) && first_time(host, CASE_ALONE))
        say_case(host);
    return returned;
}

uint64_t rename_file(struct host *host, struct pupil *pupil)
{
    return rename_object(host, pupil, pick(host, pupil, own_file), file_name(&host->chance));
}

uint64_t rename_subfolder(struct host *host, struct pupil *pupil)
{
    return rename_object(host, pupil, pick(host, pupil, own_subfolder), subfolder_name(&host->chance));
}
