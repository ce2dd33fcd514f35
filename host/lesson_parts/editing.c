#include "actions.h"

#define LONG_FILE (16 * WB_BLOCK_BYTES)

/* A pupil who does not look what is there asks for a file that is there, in another spelling, and is refused. */
static uint64_t create_again(struct host *host, struct pupil *pupil, uint64_t there, uint64_t object)
{
    struct name name = respelt(host, name_of(host, there));
    uint64_t returned = do_create(host, pupil->program, CREATE_FILE, parent_at(&host->own, there), name, object);
    if (first_time(host, TAKEN_OTHERWISE))
        say_name(pupil->program, name, "it is there in another spelling; ", wb_text(returned));
    return returned;
}

/* A pupil without a free number removes a file first. */
uint64_t create_file(struct host *host, struct pupil *pupil)
{
    uint64_t returned, object = own_number(host, pupil->program), there = careless(host, 10) ? pick(host, pupil, work_file) : 0;
    struct name name = typed(host, file_name(&host->chance));
    if (object == host->n)
        return remove_file(host, pupil);
    if (there != 0)
        return create_again(host, pupil, there, object);
    returned = do_create(host, pupil->program, CREATE_FILE, pick_place(host, pupil), name, object);
    if (returned == WB_ACCEPTED && name.length == WB_NAME_BYTES && first_time(host, FULL_NAME))
        say_name(pupil->program, name, "a name of 60 bytes passes", "");
    return returned;
}

/* Prints a line on the two operations issued last, which one write across the end of a file brought. */
static void say_across(const struct host *host)
{
    const struct issued *overwrite = issued_as(host, host->issued_count - 1), *rest = issued_as(host, host->issued_count);
    printf("%s saves %lu bytes across the end of \"", who(rest->operation.program),
           (unsigned long)(overwrite->operation.data_length + rest->operation.data_length));
    print_name(stdout, rest->called.bytes, rest->called.length);
    printf("\": operation %lu overwrites %lu, operation %lu appends %lu.\n", (unsigned long)overwrite->operation.sequence,
           (unsigned long)overwrite->operation.data_length, (unsigned long)rest->operation.sequence,
           (unsigned long)rest->operation.data_length);
}

/* Writes letters from the offset on, at most so many and all in one block. */
static uint64_t write_letters(struct host *host, struct pupil *pupil, uint64_t object, uint64_t offset, uint64_t most)
{
    uint8_t data[WB_BLOCK_BYTES];
    uint64_t i, length, returned, issued = host->issued_count, in_block = WB_BLOCK_BYTES - offset % WB_BLOCK_BYTES;
    length = 1 + below(&host->chance, most < in_block ? most : in_block);
    for (i = 0; i < length; i++)
        data[i] = (uint8_t)('a' + below(&host->chance, 26));
    returned = do_write(host, pupil->program, object, offset, data, length);
    if (host->issued_count == issued + 2 && first_time(host, ACROSS_END))
        say_across(host);
    if (returned == WB_LOG_FULL && free_slots(host) == 1 && first_time(host, ONE_SLOT))
        printf("%s saves across the end of a file, which takes two slots, and one is free: %s.\n", who(pupil->program),
               wb_text(returned));
    return returned;
}

uint64_t set_length(struct host *host, struct pupil *pupil)
{
    uint64_t object = pick(host, pupil, work_file);
    if (object == 0)
        return create_file(host, pupil);
    return do_setlen(host, pupil->program, object,
                     below(&host->chance, one_in(&host->chance, 4) ? host->b * WB_BLOCK_BYTES + 1 : 4096));
}

/* Where a write at the end of a file begins: at most so many bytes before it, in the same block. */
static uint64_t tail(struct host *host, uint64_t length, uint64_t most)
{
    uint64_t in_block = length % WB_BLOCK_BYTES, before = most < in_block ? most : in_block;
    return before == 0 ? length : length - 1 - below(&host->chance, before);
}

/* Editors have several habits: a save is at most so long, and it may begin before the end of the file and go across it. */
uint64_t append(struct host *host, struct pupil *pupil)
{
    static const struct {
        uint64_t most, before;
    } habits[] = {{WB_BLOCK_BYTES, 0}, {100, 0}, {10, 5}, {WB_BLOCK_BYTES, 0}, {100, 60}, {100, 0}};
    uint64_t object = pick(host, pupil, work_file), length, habit;
    if (object == 0)
        return create_file(host, pupil);
    length = length_at(&host->own, object);
    if (length > LONG_FILE)
        return do_setlen(host, pupil->program, object, below(&host->chance, WB_BLOCK_BYTES));
    habit = below(&host->chance, sizeof habits / sizeof habits[0]);
    return write_letters(host, pupil, object, tail(host, length, habits[habit].before), habits[habit].most);
}

uint64_t overwrite(struct host *host, struct pupil *pupil)
{
    uint64_t object = pick(host, pupil, work_file), length, offset;
    if (object == 0 || length_at(&host->own, object) == 0)
        return append(host, pupil);
    length = length_at(&host->own, object);
    offset = below(&host->chance, length);
    return write_letters(host, pupil, object, offset, length - offset < 64 ? length - offset : 64);
}

/* Begins to save a file: the new text goes into a new file first. */
uint64_t begin_save(struct host *host, struct pupil *pupil)
{
    uint64_t returned, object = own_number(host, pupil->program), old = pick(host, pupil, work_file);
    if (object == host->n || old == 0)
        return create_file(host, pupil);
    returned = do_create(host, pupil->program, CREATE_FILE, parent_at(&host->own, old), save_name(&host->chance), object);
    pupil->saving = returned == WB_ACCEPTED ? CREATED : NOT_SAVING;
    pupil->fresh = object;
    pupil->old = old;
    return returned;
}

/* The rename displaces the old file. */
static uint64_t take_place(struct host *host, struct pupil *pupil)
{
    struct name first = typed(host, name_of(host, pupil->fresh)), second = typed(host, name_of(host, pupil->old));
    uint64_t returned = do_rename(host, pupil->program, parent_at(&host->own, pupil->fresh), first,
                                  parent_at(&host->own, pupil->old), second);
    if (returned != WB_LOG_FULL)
        pupil->saving = NOT_SAVING;
    return returned;
}

/* The new file gets its text, at times a forder puts it before what comes later on the old one, and it takes the old one's
 * place. */
uint64_t go_on_saving(struct host *host, struct pupil *pupil)
{
    uint64_t returned, list[2];
    list[0] = pupil->fresh;
    list[1] = pupil->old;
    if (pupil->saving == CREATED)
        returned = write_letters(host, pupil, pupil->fresh, length_at(&host->own, pupil->fresh), WB_BLOCK_BYTES);
    else if (pupil->saving == WRITTEN && one_in(&host->chance, 2))
        returned = do_forder(host, pupil->program, list, 2);
    else
        return take_place(host, pupil);
    if (returned == WB_ACCEPTED)
        pupil->saving = pupil->saving == CREATED ? WRITTEN : ORDERED;
    return returned;
}

int is_saving(const struct host *host, struct pupil *pupil)
{
    if (!any_file(host, pupil, pupil->fresh) || !work_file(host, pupil, pupil->old))
        pupil->saving = NOT_SAVING;
    return pupil->saving != NOT_SAVING;
}
