#include "spellings.h"
#include "spelling.h"

void count_spellings(const struct volume *view, const struct operation *operation)
{
    uint64_t length, displaced_length;
    const uint8_t *stored = name_at(view, operation->object, &length);
    const uint8_t *displaced = name_at(view, operation->displaced, &displaced_length);
    counts.by_other += (uint64_t)by_other_spelling(operation, stored, length);
    counts.case_alone += (uint64_t)changes_case_alone(operation, stored, length);
    counts.displacing_other += operation->displaced
        && !same_spelling(operation->second_name, operation->second_name_length, displaced, displaced_length);
}

int taken_otherwise(const struct volume *view, const struct operation *operation)
{
    uint64_t there, length;
    const uint8_t *stored;
    if (operation->kind != CREATE_FILE && operation->kind != MAKE_DIRECTORY)
        return 0;
    there = sought(view, operation->parent, operation->name, operation->name_length);
    if (there == view->n)
        return 0;
    stored = name_at(view, there, &length);
    return !same_spelling(operation->name, operation->name_length, stored, length);
}

/* The object of each name is the only one that the name leads to. */
static void check_names(const struct volume *server)
{
    uint64_t object, length;
    const uint8_t *name;
    for (object = 1; object < N; object++) {
        name = name_at(server, object, &length);
        if (kind_at(server, object) != FREE)
            equal("the object that a name leads to on the server", sought(server, parent_at(server, object), name, length), object);
    }
}

static int is_named(const struct operation *operation, uint64_t object)
{
    return operation->kind <= RENAME && (operation->object == object || operation->displaced == object);
}

/* Whether, of the operations that name the object of operation i, the earlier are sent and the later are not. */
static int just_earlier(unsigned sent, uint64_t i)
{
    uint64_t j;
    for (j = 0; j < now.issued; j++)
        if (j != i && is_named(&now.operations[j], now.operations[i].object) && in(sent, j) != (j < i))
            return 0;
    return 1;
}

/* The rename changed only the case of the stored name. */
static void check_rename(const struct volume *server, unsigned sent, uint64_t i, const uint8_t *stored, uint64_t stored_length)
{
    const struct operation *renames = &now.operations[i];
    uint64_t length;
    const uint8_t *name = name_at(server, renames->object, &length);
    int is_new = same_spelling(name, length, renames->second_name, renames->second_name_length);
    int is_old = same_spelling(name, length, stored, stored_length);
    if (just_earlier(sent, i) && !(in(sent, i) ? is_new : is_old))
        fail("rename %d changes only the case and was %s, and the server does not have the %s spelling", (int)i + 1,
             in(sent, i) ? "sent" : "lost", in(sent, i) ? "new" : "old");
    counts.new_spelling += (uint64_t)is_new;
    counts.old_spelling += (uint64_t)is_old;
    counts.no_spelling += !is_new && !is_old;
}

void check_spellings(const struct buffers *lent, unsigned sent)
{
    const struct volume server = volume_of(lent->server);
    uint64_t i;
    check_names(&server);
    for (i = 0; i < now.issued; i++) {
        const struct volume before = volume_of(now.stages[i].view);
        uint64_t length;
        const uint8_t *stored = name_at(&before, now.operations[i].object, &length);
        if (changes_case_alone(&now.operations[i], stored, length))
            check_rename(&server, sent, i, stored, length);
    }
}

/* Gives the second object the name of the first, which is as long, with each letter in the other case. */
static void put_twice(uint8_t bytes[VOLUME], uint64_t first, uint64_t second)
{
    const struct volume volume = volume_of(bytes);
    uint64_t length, i;
    const uint8_t *name = name_at(&volume, first, &length);
    uint8_t *other = bytes + (name_at(&volume, second, &length) - bytes);
    for (i = 0; i < length; i++)
        other[i] = other_case(name[i]);
}

static void try_two(const struct buffers *lent, uint64_t first, uint64_t second)
{
    struct buffers copy = *lent;
    put_twice(copy.server, first, second);
    answered("mount of two spellings of a name", wb_mount(LENT(&copy)).returned, WB_DAMAGED);
    answered("the root's status with them on the server", wb_stat(LENT(&copy), 0, 0).returned, WB_DAMAGED);
    copy = *lent;
    put_twice(copy.view, first, second);
    answered("the root's status with them in the view", wb_stat(LENT(&copy), 0, 0).returned, WB_DAMAGED);
    answered("mount with them in the view", wb_mount(LENT(&copy)).returned, WB_ACCEPTED);
    unchanged("mounting once more", &copy, lent);
    counts.twice++;
}

void try_twice(const struct buffers *lent)
{
    const struct volume volume = volume_of(lent->server);
    uint64_t first, second;
    for (first = 1; first < N; first++)
        for (second = 1; second < N; second++)
            if (first != second && kind_at(&volume, first) != FREE && kind_at(&volume, second) != FREE
                && parent_at(&volume, first) == parent_at(&volume, second))
                try_two(lent, first, second);
}

/* The path of an object, each letter in the other case. Tells its length. */
static uint64_t put_path(const struct volume *volume, uint64_t object, uint8_t *path)
{
    uint64_t length, i, parent = parent_at(volume, object), at = parent ? put_path(volume, parent, path) : 0;
    const uint8_t *name = name_at(volume, object, &length);
    path[at++] = '/';
    for (i = 0; i < length; i++)
        path[at++] = other_case(name[i]);
    return at;
}

void look_up_all(struct buffers *lent)
{
    const struct volume view = volume_of(lent->view);
    uint8_t path[N * (WB_NAME_BYTES + 1)];
    uint64_t object;
    for (object = 1; object < N; object++) {
        struct wb_value found;
        if (kind_at(&view, object) == FREE)
            continue;
        found = wb_lookup(LENT(lent), ASKER, path, put_path(&view, object, path));
        answered("a lookup by another spelling", found.returned, WB_ACCEPTED);
        equal("the object found by another spelling", found.value, object);
        counts.looked++;
    }
}
