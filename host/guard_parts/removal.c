/* What is answered to the two removals, remove file and remove directory, by what stands where they are to remove and by the room
 * in the log. */
#include <stdio.h>
#include "guard.h"

/* The places in words, and the answers that the two calls have to give there with room in the log. */
static const struct {
    const char *what;
    uint64_t of_file, of_directory;
} places[PLACES] = {
    [A_FILE] = {"a file", WB_ACCEPTED, WB_WRONG_KIND},
    [AN_EMPTY_DIRECTORY] = {"an empty directory", WB_WRONG_KIND, WB_ACCEPTED},
    [A_FILLED_DIRECTORY] = {"a directory with children", WB_WRONG_KIND, WB_NOT_EMPTY},
    [NO_NAME] = {"an absent name", WB_NO_OBJECT, WB_NO_OBJECT},
    [IN_A_FILE] = {"a name in a file", WB_WRONG_KIND, WB_WRONG_KIND},
    [IN_NOTHING] = {"a name in a free object", WB_NO_OBJECT, WB_NO_OBJECT},
};
static uint64_t seen[REMOVE_DIRECTORY + 1][ROOMS][PLACES];

int is_removal(enum entry entry)
{
    return entry == REMOVE_FILE || entry == REMOVE_DIRECTORY;
}

/* Without room a call that is otherwise accepted is refused; all other refusals come before that one. */
static uint64_t answer_to(enum entry entry, int place, int room)
{
    const uint64_t answer = entry == REMOVE_FILE ? places[place].of_file : places[place].of_directory;
    if (answer != WB_ACCEPTED || room == ROOM_LEFT)
        return answer;
    return room == NO_SLOT ? WB_LOG_FULL : WB_SPENT;
}

static int kind_of_place(uint64_t object)
{
    if (object == present.n)
        return NO_NAME;
    if (object_at(object)[KIND_AT] == FILE_KIND)
        return A_FILE;
    return listing_of(object) == 0 ? AN_EMPTY_DIRECTORY : A_FILLED_DIRECTORY;
}

struct removal removal_of(const struct call *call)
{
    const uint64_t parent = call->number[PARENT], length = call->length[OWN];
    struct removal removal = {NO_REMOVAL, ROOM_LEFT};
    if (!is_removal(call->entry) || !is_usual(call) || parent >= present.n || length == 0 || length > WB_NAME_BYTES)
        return removal;
    removal.room = slots_used() == present.m ? NO_SLOT : next_sequence() > WB_LAST_SEQUENCE ? NO_NUMBER : ROOM_LEFT;
    if (object_at(parent)[KIND_AT] != DIRECTORY)
        removal.place = object_at(parent)[KIND_AT] == FREE ? IN_NOTHING : IN_A_FILE;
    else
        removal.place = kind_of_place(sought(parent, copy_of(OWN, length), length));
    return removal;
}

void count_removal(struct removal removal, const struct call *call, uint64_t returned)
{
    if (removal.place != NO_REMOVAL && returned == answer_to(call->entry, removal.place, removal.room))
        seen[call->entry][removal.room][removal.place]++;
}

static unsigned say_room(enum entry entry, int room)
{
    static const char *const rooms[ROOMS] = {"with room in the log", "with no slot free", "with no number left"};
    unsigned missing = 0;
    int place;
    printf("wb_%s %s", shapes[entry].name, rooms[room]);
    for (place = A_FILE; place < PLACES; place++) {
        printf("  %s %u: %s", places[place].what, (unsigned)answer_to(entry, place, room), commas(seen[entry][room][place]));
        missing += seen[entry][room][place] == 0;
    }
    printf("\n");
    return missing;
}

unsigned say_removal(void)
{
    unsigned missing = 0;
    int room;
    for (room = ROOM_LEFT; room < ROOMS; room++)
        missing += say_room(REMOVE_FILE, room) + say_room(REMOVE_DIRECTORY, room);
    return missing;
}
