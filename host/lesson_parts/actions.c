#include "actions.h"

/* Puts an order between what was done and what will be done on two to five files; without two files it makes one. */
static uint64_t order_files(struct host *host, struct pupil *pupil)
{
    uint64_t list[5], count = 0, i, j, most = 2 + below(&host->chance, 4);
    for (i = 0; i < most; i++) {
        list[count] = pick(host, pupil, work_file);
        for (j = 0; list[j] != list[count]; j++)
            ;
        count += j == count && list[count] != 0;
    }
    return count < 2 ? create_file(host, pupil) : do_forder(host, pupil->program, list, count);
}

/* With sends enough for all that wait. */
static uint64_t make_sure(struct host *host, struct pupil *pupil)
{
    uint64_t object = pick(host, pupil, own_file);
    return do_fsync(host, pupil->program, object ? object : pupil->folder, host->m);
}

static uint64_t try_long_name(struct host *host, struct pupil *pupil)
{
    uint64_t returned, object = own_number(host, pupil->program);
    struct name name = long_name(&host->chance);
    if (object == host->n)
        return remove_file(host, pupil);
    returned = do_create(host, pupil->program, CREATE_FILE, pupil->folder, name, object);
    if (first_time(host, LONG_NAME))
        say_name(pupil->program, name, "a name of 61 bytes is refused: ", wb_text(returned));
    return returned;
}

/* Prints a line on an object that was found by another spelling of its path. */
static void say_found(const struct host *host, uint64_t program, const struct path *path, uint64_t object)
{
    struct path stored = path_of(host, object);
    printf("%s looks for \"", who(program));
    print_name(stdout, path->bytes, path->length);
    printf("\" and finds \"");
    print_name(stdout, stored.bytes, stored.length);
    printf("\".\n");
}

/* Looks for a file, or for a name that may be absent, in its folder or wrongly in the file itself. */
static uint64_t look(struct host *host, struct pupil *pupil)
{
    uint64_t object = pick_to_see(host, pupil), found, returned, otherwise = host->looked_otherwise;
    struct path path = path_of(host, object);
    if (one_in(&host->chance, 6))
        path = path_in(host, object && one_in(&host->chance, 4) ? object : pupil->folder, file_name(&host->chance));
    path = typed_path(host, path);
    returned = do_lookup(host, pupil->program, &path, &found);
    if (host->looked_otherwise > otherwise && first_time(host, FOUND_OTHERWISE))
        say_found(host, pupil->program, &path, found);
    return returned;
}

static uint64_t list_folder(struct host *host, struct pupil *pupil)
{
    uint64_t subfolder = pick(host, pupil, one_in(&host->chance, 12) ? any_folder : own_subfolder);
    return do_list(host, pupil->program, subfolder && one_in(&host->chance, 3) ? subfolder : pick_place(host, pupil));
}

static uint64_t see_status(struct host *host, struct pupil *pupil)
{
    return do_stat(host, pupil->program, pick_to_see(host, pupil));
}

/* Begins now and then beyond the end, which is refused. */
static uint64_t read_file(struct host *host, struct pupil *pupil)
{
    uint64_t object = pick_to_see(host, pupil), offset = below(&host->chance, length_at(&host->own, object) + 1);
    if (object == 0)
        return see_status(host, pupil);
    if (one_in(&host->chance, 50))
        offset = length_at(&host->own, object) + 1;
    return do_read(host, pupil->program, object, offset, 1 + below(&host->chance, 2 * WB_BLOCK_BYTES));
}

uint64_t look_in(struct host *host, struct pupil *pupil)
{
    return one_in(&host->chance, 2) ? look(host, pupil) : read_file(host, pupil);
}

uint64_t act(struct host *host, struct pupil *pupil)
{
    static const struct {
        uint64_t weight;
        action *does;
    } actions[] = {{16, create_file}, {52, append}, {48, overwrite}, {8, set_length}, {14, begin_save}, {8, move_file},
        {8, rename_file}, {8, remove_file}, {5, make_subfolder}, {4, rename_subfolder}, {4, remove_subfolder}, {6, order_files},
        {1, make_sure}, {2, try_long_name}, {50, look}, {34, list_folder}, {52, see_status}, {68, read_file}};
    uint64_t i, weights = 0, left;
    if (is_saving(host, pupil) && !one_in(&host->chance, 4))
        return go_on_saving(host, pupil);
    for (i = 0; i < sizeof actions / sizeof actions[0]; i++)
        weights += actions[i].weight;
    left = below(&host->chance, weights);
    for (i = 0; left >= actions[i].weight; i++)
        left -= actions[i].weight;
    return actions[i].does(host, pupil);
}
