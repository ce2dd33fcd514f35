#include "alphabet.h"
#include <string.h>
#include "spelling.h"

/* Two renames of each object. Those to "aN" and "Do" change only the case where objects 1 and 3 have their first names; the others
 * go onto a name that another may have, perhaps in another spelling. Object 2 is removed, and in one rename found, by another
 * spelling. Overwrites of object 1 with and without a common byte. Writes across the end; others go across it too, where a file is
 * just short enough. */
const struct letter alphabet[] = {
    {.kind = CREATE_FILE, .object = 1, .parent = 0, .name = "an"},
    {.kind = CREATE_FILE, .object = 2, .parent = 0, .name = "by"},
    {.kind = CREATE_FILE, .object = 2, .parent = 3, .name = "an"},
    {.kind = CREATE_FILE, .object = 3, .parent = 0, .name = "do"},
    {.kind = MAKE_DIRECTORY, .object = 2, .parent = 0, .name = "by"},
    {.kind = MAKE_DIRECTORY, .object = 3, .parent = 0, .name = "do"},
    {.kind = RENAME, .object = 1, .parent = 0, .name = "aN"},
    {.kind = RENAME, .object = 1, .parent = 0, .name = "BY"},
    {.kind = RENAME, .object = 2, .parent = 3, .name = "an"},
    {.kind = RENAME, .object = 2, .parent = 0, .name = "an", .other = 1},
    {.kind = RENAME, .object = 3, .parent = 0, .name = "Do"},
    {.kind = RENAME, .object = 3, .parent = 0, .name = "by"},
    {.kind = OVERWRITE, .object = 1, .offset = 0, .length = 4},
    {.kind = OVERWRITE, .object = 1, .offset = 4, .length = 4},
    {.kind = OVERWRITE, .object = 1, .offset = 3, .length = 2},
    {.kind = OVERWRITE, .object = 2, .offset = 0, .length = 4},
    {.kind = OVERWRITE, .object = 3, .offset = 0, .length = 4},
    {.kind = APPEND, .object = 1, .length = 2},
    {.kind = APPEND, .object = 2, .length = 2},
    {.kind = APPEND, .object = 3, .length = 2},
    {.kind = APPEND, .object = 1, .length = 4, .before = 2},
    {.kind = APPEND, .object = 2, .length = 3, .before = 1},
    {.kind = SET_LENGTH, .object = 1, .offset = 6},
    {.kind = REMOVE, .object = 1},
    {.kind = REMOVE, .object = 2, .other = 1},
    {.kind = REMOVE, .object = 3},
    {.kind = FORDER, .list_length = 2, .list = {1, 2}},
    {.kind = FORDER, .list_length = 3, .list = {1, 2, 3}},
};
const uint64_t letter_count = sizeof alphabet / sizeof alphabet[0];

#define FILE_OF_8(number, directory, text) \
    {.kind = CREATE_FILE, .object = number, .parent = directory, .name = text}, {.kind = APPEND, .object = number, .length = 8}
#define DIRECTORY(number, text) {.kind = MAKE_DIRECTORY, .object = number, .parent = 0, .name = text}

const struct start starts[] = {
    {.text = "empty"},
    {.text = "files 1 and 2", .count = 4, .letters = {FILE_OF_8(1, 0, "an"), FILE_OF_8(2, 0, "by")}},
    {.text = "directory 3 with file 1 in it, and file 2", .count = 5,
     .letters = {DIRECTORY(3, "do"), FILE_OF_8(1, 3, "an"), FILE_OF_8(2, 0, "by")}},
    {.text = "files 1, 2 and 3", .count = 6, .letters = {FILE_OF_8(1, 0, "an"), FILE_OF_8(2, 0, "by"), FILE_OF_8(3, 0, "do")}},
    {.text = "file 1 and directories 2 and 3", .count = 4,
     .letters = {FILE_OF_8(1, 0, "an"), DIRECTORY(2, "by"), DIRECTORY(3, "do")}},
};
const uint64_t start_count = sizeof starts / sizeof starts[0];

static uint64_t put_text(uint8_t *name, const char *text)
{
    memcpy(name, text, strlen(text));
    return strlen(text);
}

/* Where the object is and what it is called, perhaps in another spelling; if it is free, a name that nothing has. */
static void put_present_name(const struct letter *letter, const struct volume *view, struct operation *operation)
{
    const uint8_t *name = name_at(view, operation->object, &operation->name_length);
    uint64_t i;
    operation->parent = parent_at(view, operation->object);
    for (i = 0; i < operation->name_length; i++)
        operation->name[i] = letter->other ? other_case(name[i]) : name[i];
    if (kind_at(view, operation->object) == FREE)
        operation->name_length = put_text(operation->name, "gone");
}

static void put_second_name(const struct letter *letter, const struct volume *view, struct operation *operation)
{
    uint64_t there;
    operation->second_parent = letter->parent;
    operation->second_name_length = put_text(operation->second_name, letter->name);
    there = sought(view, letter->parent, operation->second_name, operation->second_name_length);
    if (there != view->n && there != letter->object)
        operation->displaced = there;
}

/* A write that begins at the length is an append; none begins before the file. */
static void put_data(const struct letter *letter, const struct volume *view, uint64_t sequence, struct operation *operation)
{
    uint64_t i, end = length_at(view, letter->object), tail = end > letter->before ? end - letter->before : 0;
    operation->offset = letter->kind == APPEND ? tail : letter->offset;
    operation->kind = operation->offset == end ? APPEND : OVERWRITE;
    operation->data_length = letter->length;
    for (i = 0; i < letter->length; i++)
        operation->data[i] = (uint8_t)(32 * sequence + 8 * letter->object + i);
}

void spell(const struct letter *letter, const struct volume *view, uint64_t sequence, struct operation *operation)
{
    memset(operation, 0, sizeof *operation);
    operation->sequence = sequence;
    operation->kind = letter->kind;
    operation->object = letter->object;
    switch (letter->kind) {
    case CREATE_FILE:
    case MAKE_DIRECTORY:
        operation->parent = letter->parent;
        operation->name_length = put_text(operation->name, letter->name);
        break;
    case RENAME:
        put_second_name(letter, view, operation);
        /* fall through */
    case REMOVE:
        put_present_name(letter, view, operation);
        break;
    case OVERWRITE:
    case APPEND:
        put_data(letter, view, sequence, operation);
        break;
    case SET_LENGTH:
        operation->offset = letter->offset;
        break;
    case FORDER:
        operation->list_length = letter->list_length;
        memcpy(operation->list, letter->list, sizeof letter->list);
    }
}

int acceptable(const struct volume *view, const struct operation *operation)
{
    uint64_t i;
    for (i = 0; i < operation->list_length; i++)
        if (kind_at(view, operation->list[i]) == FREE)
            return 0;
    return applies(view, operation);
}
