#include "picking.h"

int any_file(const struct host *host, const struct pupil *pupil, uint64_t object)
{
    return pupil && kind_at(&host->own, object) == FILE_ENTRY;
}

int own_file(const struct host *host, const struct pupil *pupil, uint64_t object)
{
    return object % WB_PROGRAMS == pupil->program && work_file(host, pupil, object);
}

int work_file(const struct host *host, const struct pupil *pupil, uint64_t object)
{
    return any_file(host, pupil, object) && !is_save_name(name_of(host, object))
        && (object % WB_PROGRAMS == pupil->program || parent_at(&host->own, object) == pupil->shared);
}

int own_waste(const struct host *host, const struct pupil *pupil, uint64_t object)
{
    return object % WB_PROGRAMS == pupil->program && any_file(host, pupil, object)
        && (pupil->saving == NOT_SAVING || object != pupil->fresh);
}

int own_subfolder(const struct host *host, const struct pupil *pupil, uint64_t object)
{
    return kind_at(&host->own, object) == DIRECTORY_ENTRY && object % WB_PROGRAMS == pupil->program
        && parent_at(&host->own, object) != 0;
}

int any_folder(const struct host *host, const struct pupil *pupil, uint64_t object)
{
    return pupil && kind_at(&host->own, object) == DIRECTORY_ENTRY;
}

uint64_t pick(struct host *host, const struct pupil *pupil, sort *is)
{
    uint64_t object, count = 0, chosen = 0;
    for (object = 1; object < host->n; object++)
        if (is(host, pupil, object) && one_in(&host->chance, ++count))
            chosen = object;
    return chosen;
}

uint64_t pick_to_see(struct host *host, const struct pupil *pupil)
{
    return pick(host, pupil, one_in(&host->chance, pupil->at_work ? 12 : 2) ? any_file : work_file);
}

uint64_t pick_place(struct host *host, const struct pupil *pupil)
{
    uint64_t subfolder = one_in(&host->chance, 5) ? pick(host, pupil, own_subfolder) : 0;
    return subfolder ? subfolder : one_in(&host->chance, 4) ? pupil->shared : pupil->folder;
}
