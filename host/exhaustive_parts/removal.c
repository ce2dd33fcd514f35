#include "removal.h"

struct wb_value call_removal(struct buffers *lent, const struct operation *given, uint64_t kind)
{
    if (kind == DIRECTORY_ENTRY)
        return wb_remove_directory(LENT(lent), given->program, given->parent, given->name, given->name_length);
    return wb_remove_file(LENT(lent), given->program, given->parent, given->name, given->name_length);
}

/* The remove by the call for this kind is refused with the number and changes nothing. */
static void refuse(struct buffers *lent, const struct operation *asked, uint64_t kind, uint64_t number, const char *what)
{
    const struct wb_value got = call_removal(lent, asked, kind);
    answered(what, got.returned, number);
    equal("the value of a refused remove", got.value, 0);
    unchanged(what, lent, &stage()->lent);
}

/* An object of the kind, or nothing, was given to the call for the other kind, and with no slot free to that for its own. */
static void count_removal(uint64_t kind, int filled, int full)
{
    counts.wrong_files += kind == FILE_ENTRY;
    counts.wrong_empty += kind == DIRECTORY_ENTRY && !filled;
    counts.wrong_filled += kind == DIRECTORY_ENTRY && filled;
    counts.wrong_full += kind != FREE && full;
    counts.not_empty += filled && full;
}

static void try_removal(struct buffers *lent, const struct letter *letter)
{
    const struct volume view = volume_of(stage()->view);
    struct operation *const asked = &now.operations[now.issued];
    const uint64_t kind = kind_at(&view, letter->object), other = kind == DIRECTORY_ENTRY ? FILE_ENTRY : DIRECTORY_ENTRY;
    const int filled = has_children(&view, letter->object), full = now.issued == SLOTS;
    spell(letter, &view, now.issued + 1, asked);
    asked->program = ASKER;
    now.asked = 1;
    refuse(lent, asked, other, kind == FREE ? WB_NO_OBJECT : WB_WRONG_KIND, "a remove by the call for the other kind");
    if (full)
        refuse(lent, asked, kind, kind == FREE ? WB_NO_OBJECT : filled ? WB_NOT_EMPTY : WB_LOG_FULL, "a remove with no slot free");
    now.asked = 0;
    count_removal(kind, filled, full);
}

void try_removals(void)
{
    struct buffers copy = stage()->lent;
    uint64_t letter;
    for (letter = 0; letter < letter_count; letter++)
        if (alphabet[letter].kind == REMOVE)
            try_removal(&copy, &alphabet[letter]);
}

void check_refused_removal(struct wb_value got, const struct operation *given)
{
    const struct volume view = volume_of(stage()->view);
    const int filled = kind_at(&view, given->object) != FREE;
    answered("a remove by the call for the object's kind", got.returned, filled ? WB_NOT_EMPTY : WB_NO_OBJECT);
    counts.not_empty += (uint64_t)filled;
}
