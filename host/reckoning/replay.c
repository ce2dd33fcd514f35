#include "replay.h"
#include <string.h>
#include "numbers.h"
#include "spelling.h"

static uint8_t *entry(const struct volume *volume, uint64_t object)
{
    return volume->bytes + object * (DATA_AT + WB_BLOCK_BYTES * volume->b);
}

uint64_t kind_at(const struct volume *volume, uint64_t object) { return entry(volume, object)[KIND_AT]; }
uint64_t parent_at(const struct volume *volume, uint64_t object) { return number_at(entry(volume, object) + PARENT_AT, 2); }
uint64_t length_at(const struct volume *volume, uint64_t object) { return number_at(entry(volume, object) + LENGTH_AT, 4); }

const uint8_t *name_at(const struct volume *volume, uint64_t object, uint64_t *length)
{
    *length = entry(volume, object)[NAME_LENGTH_AT];
    return entry(volume, object) + NAME_AT;
}

const uint8_t *data_at(const struct volume *volume, uint64_t object) { return entry(volume, object) + DATA_AT; }

/* The root is nobody's child. */
static int is_child(const struct volume *volume, uint64_t object, uint64_t directory)
{
    return object != 0 && kind_at(volume, object) != FREE && parent_at(volume, object) == directory;
}

uint64_t sought(const struct volume *volume, uint64_t directory, const uint8_t *name, uint64_t length)
{
    uint64_t object, stored_length;
    const uint8_t *stored;
    for (object = 1; object < volume->n; object++) {
        stored = name_at(volume, object, &stored_length);
        if (is_child(volume, object, directory) && same_name(stored, stored_length, name, length))
            break;
    }
    return object;
}

int has_children(const struct volume *volume, uint64_t directory)
{
    uint64_t object;
    for (object = 1; object < volume->n; object++)
        if (is_child(volume, object, directory))
            return 1;
    return 0;
}

static int is_directory(const struct volume *volume, uint64_t object) { return kind_at(volume, object) == DIRECTORY_ENTRY; }
static int is_file(const struct volume *volume, uint64_t object) { return kind_at(volume, object) == FILE_ENTRY; }

static uint64_t first_sought(const struct volume *volume, const struct operation *operation)
{
    return sought(volume, operation->parent, operation->name, operation->name_length);
}

/* Both parents are directories, the first name leads to the object, a directory keeps its parent; the second name is absent or the
 * object's own in whatever spelling, or leads to the displaced object, of the same kind and without children. */
static int rename_applies(const struct volume *volume, const struct operation *operation)
{
    uint64_t there, object = operation->object, displaced = operation->displaced;
    if (!is_directory(volume, operation->parent) || !is_directory(volume, operation->second_parent)
        || first_sought(volume, operation) != object
        || (is_directory(volume, object) && operation->parent != operation->second_parent))
        return 0;
    there = sought(volume, operation->second_parent, operation->second_name, operation->second_name_length);
    if (!displaced)
        return there == volume->n || there == object;
    return there == displaced && kind_at(volume, displaced) == kind_at(volume, object) && !has_children(volume, displaced);
}

int applies(const struct volume *volume, const struct operation *operation)
{
    uint64_t object = operation->object, end = operation->offset + operation->data_length;
    switch (operation->kind) {
    case CREATE_FILE:
    case MAKE_DIRECTORY:
        return is_directory(volume, operation->parent) && first_sought(volume, operation) == volume->n
            && kind_at(volume, object) == FREE;
    case REMOVE:
        return is_directory(volume, operation->parent) && first_sought(volume, operation) == object
            && !has_children(volume, object);
    case RENAME:
        return rename_applies(volume, operation);
    case OVERWRITE:
        return is_file(volume, object) && end <= length_at(volume, object);
    case APPEND:
        return is_file(volume, object) && operation->offset == length_at(volume, object);
    case SET_LENGTH:
        return is_file(volume, object);
    default:
        return operation->kind == FORDER;
    }
}

static void clear(struct volume *volume, uint64_t object)
{
    memset(entry(volume, object), 0, DATA_AT + WB_BLOCK_BYTES * volume->b);
}

static void put_name(uint8_t *at, uint64_t parent, const uint8_t *name, uint64_t length)
{
    at[NAME_LENGTH_AT] = (uint8_t)length;
    put_number(at + PARENT_AT, parent, 2);
    memset(at + NAME_AT, 0, WB_NAME_BYTES);
    memcpy(at + NAME_AT, name, length);
}

static void put_length(uint8_t *at, uint64_t before, uint64_t length)
{
    if (length < before)
        memset(at + DATA_AT + length, 0, before - length);
    put_number(at + LENGTH_AT, length, 4);
}

/* What an operation that applies leaves. */
static void apply(struct volume *volume, const struct operation *operation)
{
    uint64_t object = operation->object;
    uint8_t *at = entry(volume, object);
    switch (operation->kind) {
    case CREATE_FILE:
    case MAKE_DIRECTORY:
        at[KIND_AT] = operation->kind == CREATE_FILE ? FILE_ENTRY : DIRECTORY_ENTRY;
        put_name(at, operation->parent, operation->name, operation->name_length);
        break;
    case REMOVE:
        clear(volume, object);
        break;
    case RENAME:
        if (operation->displaced)
            clear(volume, operation->displaced);
        put_name(at, operation->second_parent, operation->second_name, operation->second_name_length);
        break;
    case APPEND:
        put_length(at, operation->offset, operation->offset + operation->data_length);
        /* fall through */
    case OVERWRITE:
        memcpy(at + DATA_AT + operation->offset, operation->data, operation->data_length);
        break;
    case SET_LENGTH:
        put_length(at, length_at(volume, object), operation->offset);
        break;
    default:
        break;
    }
}

int replay(struct volume *volume, const struct operation *operation)
{
    int does = applies(volume, operation);
    if (does)
        apply(volume, operation);
    return does;
}

static int across_end(const struct volume *view, const struct operation *asked)
{
    return asked->kind == OVERWRITE && asked->offset < length_at(view, asked->object)
        && length_at(view, asked->object) < asked->offset + asked->data_length;
}

uint64_t divide(const struct volume *view, const struct operation *asked, struct operation parts[2])
{
    uint64_t old;
    parts[0] = *asked;
    if (!across_end(view, asked))
        return 1;
    old = length_at(view, asked->object) - asked->offset;
    parts[0].data_length = old;
    parts[1] = *asked;
    parts[1].sequence++;
    parts[1].kind = APPEND;
    parts[1].offset += old;
    parts[1].data_length -= old;
    memcpy(parts[1].data, asked->data + old, parts[1].data_length);
    return 2;
}
