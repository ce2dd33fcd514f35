/* The changes, and forder. */
#include "calls.h"
#include <string.h>
#include "numbers.h"

static struct operation fresh(const struct host *host, uint64_t program, enum kind kind)
{
    struct operation operation;
    memset(&operation, 0, sizeof operation);
    operation.sequence = host->issued_count + 1;
    operation.program = program;
    operation.kind = kind;
    return operation;
}

/* A name that is too long is left out: no operation has one. */
static void put_name(uint8_t *bytes, uint64_t *length, struct name name)
{
    *length = name.length <= WB_NAME_BYTES ? name.length : 0;
    memcpy(bytes, name.bytes, *length);
}

/* Why an operation that does not apply to the host's own view should be refused, where its parents are directories. */
static uint64_t refusal(const struct volume *own, const struct operation *operation)
{
    switch (operation->kind) {
    case CREATE_FILE:
    case MAKE_DIRECTORY:
        return WB_TAKEN;
    case REMOVE:
        return WB_NOT_EMPTY;
    case RENAME:
        return (kind_at(own, operation->object) == DIRECTORY_ENTRY && operation->parent != operation->second_parent)
            || (operation->displaced && kind_at(own, operation->object) != kind_at(own, operation->displaced))
            ? WB_WRONG_KIND : WB_NOT_EMPTY;
    default:
        return WB_BAD_RANGE;
    }
}

/* What a call should return that asks for this operation, its longest name being so long. */
static uint64_t expected(const struct host *host, const struct operation *operation, uint64_t longest)
{
    if (is_marked(host, operation->program))
        return WB_MARKED;
    if (longest > WB_NAME_BYTES)
        return WB_LONG_NAME;
    if (operation->object == host->n)
        return WB_NO_OBJECT;
    if (!applies(&host->own, operation))
        return refusal(&host->own, operation);
    return free_slots(host) == 0 ? WB_LOG_FULL : WB_ACCEPTED;
}

static void check_change(const struct operation *operation, struct wb_value answer, uint64_t wanted)
{
    if (answer.returned == wanted && answer.value == (wanted == WB_ACCEPTED ? operation->sequence : 0))
        return;
    fflush(stdout);
    fprintf(stderr, "\nlesson: asked for operation ");
    print_operation(stderr, operation);
    fault("it returned %d, %s, with value %llu; expected was %d, %s", (int)answer.returned, wb_text(answer.returned),
          (unsigned long long)answer.value, (int)wanted, wb_text(wanted));
}

/* What an accepted operation brings: its program depends on what reaches its operands; it waits; the host's own view has it. */
static void now_waits(struct host *host, const struct operation *operation)
{
    uint8_t objects[WB_MOST_OBJECTS] = {0};
    uint64_t found[WB_LIST_OBJECTS], count = operands(operation, found), i;
    for (i = 0; i < count; i++)
        objects[found[i]] = 1;
    note_dependence(host, operation->program, objects);
    add_waiting(host, operation);
    if (!replay(&host->own, operation))
        fault("operation %lu was accepted and does not apply to the host's own view", (unsigned long)operation->sequence);
}

static uint64_t finish(struct host *host, const struct operation *operation, struct wb_value answer, uint64_t wanted)
{
    check_change(operation, answer, wanted);
    if (wanted == WB_ACCEPTED)
        now_waits(host, operation);
    return wanted;
}

/* Whether the name leads to an object of the directory, which has it in another spelling. */
static int is_there_otherwise(const struct host *host, uint64_t parent, struct name name)
{
    uint64_t there = sought(&host->own, parent, name.bytes, name.length);
    return there != host->n && spelt_otherwise(host, there, name.bytes, name.length);
}

uint64_t do_create(struct host *host, uint64_t program, enum kind kind, uint64_t parent, struct name name, uint64_t object)
{
    struct operation operation = fresh(host, program, kind);
    struct wb_value answer;
    uint64_t wanted;
    operation.object = object;
    operation.parent = parent;
    put_name(operation.name, &operation.name_length, name);
    wanted = expected(host, &operation, name.length);
    host->taken_otherwise += wanted == WB_TAKEN && is_there_otherwise(host, parent, name);
    if (kind == CREATE_FILE)
        CALL(host, ENTRY_CREATE, answer, wb_create(LENT(host), program, parent, name.bytes, name.length, object));
    else
        CALL(host, ENTRY_MKDIR, answer, wb_mkdir(LENT(host), program, parent, name.bytes, name.length, object));
    return finish(host, &operation, answer, wanted);
}

/* Whether a remove is refused since its object is not of the kind that the call takes. Of what would be returned otherwise, children
 * and a full log come after that. */
static int is_other_kind(const struct host *host, uint64_t object, uint64_t kind, uint64_t otherwise)
{
    return (otherwise == WB_ACCEPTED || otherwise > WB_WRONG_KIND) && kind_at(&host->own, object) != kind;
}

static void count_wrong(struct host *host, uint64_t object)
{
    const int is_file = kind_at(&host->own, object) == FILE_ENTRY, filled = has_children(&host->own, object);
    host->wrong_files += (uint64_t)is_file;
    host->wrong_empty += !is_file && !filled;
    host->wrong_filled += !is_file && filled;
}

uint64_t do_remove(struct host *host, uint64_t program, uint64_t kind, uint64_t parent, struct name name)
{
    struct operation operation = fresh(host, program, REMOVE);
    struct wb_value answer;
    uint64_t wanted;
    operation.object = sought(&host->own, parent, name.bytes, name.length);
    operation.parent = parent;
    put_name(operation.name, &operation.name_length, name);
    wanted = expected(host, &operation, name.length);
    if (is_other_kind(host, operation.object, kind, wanted)) {
        wanted = WB_WRONG_KIND;
        count_wrong(host, operation.object);
    }
    if (kind == FILE_ENTRY)
        CALL(host, ENTRY_REMOVE_FILE, answer, wb_remove_file(LENT(host), program, parent, name.bytes, name.length));
    else
        CALL(host, ENTRY_REMOVE_DIRECTORY, answer, wb_remove_directory(LENT(host), program, parent, name.bytes, name.length));
    return finish(host, &operation, answer, wanted);
}

uint64_t do_rename(struct host *host, uint64_t program, uint64_t parent, struct name name, uint64_t second_parent,
                   struct name second_name)
{
    struct operation operation = fresh(host, program, RENAME);
    uint64_t wanted, there = sought(&host->own, second_parent, second_name.bytes, second_name.length);
    struct wb_value answer;
    operation.object = sought(&host->own, parent, name.bytes, name.length);
    operation.parent = parent;
    operation.second_parent = second_parent;
    operation.displaced = there == host->n || there == operation.object ? 0 : there;
    put_name(operation.name, &operation.name_length, name);
    put_name(operation.second_name, &operation.second_name_length, second_name);
    wanted = expected(host, &operation, name.length > second_name.length ? name.length : second_name.length);
    CALL(host, ENTRY_RENAME, answer, wb_rename(LENT(host), program, parent, name.bytes, name.length, second_parent,
                                               second_name.bytes, second_name.length));
    return finish(host, &operation, answer, wanted);
}

/* Across the end it is two operations, which need two slots; the number of the first is answered. */
uint64_t do_write(struct host *host, uint64_t program, uint64_t object, uint64_t offset, const uint8_t *data, uint64_t length)
{
    struct operation asked = fresh(host, program, offset == length_at(&host->own, object) ? APPEND : OVERWRITE), parts[2];
    struct wb_value answer;
    uint64_t wanted, count, i;
    asked.object = object;
    asked.offset = offset;
    asked.data_length = length;
    memcpy(asked.data, data, length);
    count = divide(&host->own, &asked, parts);
    wanted = expected(host, &parts[0], 0);
    if (wanted == WB_ACCEPTED && free_slots(host) < count)
        wanted = WB_LOG_FULL;
    CALL(host, ENTRY_WRITE, answer, wb_write(LENT(host), program, object, offset, data, length));
    check_change(&asked, answer, wanted);
    for (i = 0; i < count && wanted == WB_ACCEPTED; i++) {
        now_waits(host, &parts[i]);
        issued_as(host, parts[i].sequence)->rest = i > 0;
    }
    return wanted;
}

uint64_t do_setlen(struct host *host, uint64_t program, uint64_t object, uint64_t length)
{
    struct operation operation = fresh(host, program, SET_LENGTH);
    struct wb_value answer;
    uint64_t wanted;
    operation.object = object;
    operation.offset = length;
    wanted = expected(host, &operation, 0);
    CALL(host, ENTRY_SETLEN, answer, wb_setlen(LENT(host), program, object, length));
    return finish(host, &operation, answer, wanted);
}

uint64_t do_forder(struct host *host, uint64_t program, const uint64_t *list, uint64_t count)
{
    struct operation operation = fresh(host, program, FORDER);
    uint8_t lent[2 * WB_LIST_OBJECTS];
    struct wb_value answer;
    uint64_t wanted, i;
    operation.list_length = count;
    for (i = 0; i < count; i++) {
        operation.list[i] = list[i];
        put_number(lent + 2 * i, list[i], 2);
    }
    wanted = expected(host, &operation, 0);
    CALL(host, ENTRY_FORDER, answer, wb_forder(LENT(host), program, lent, 2 * count));
    return finish(host, &operation, answer, wanted);
}
