#include "operation.h"
#include <string.h>
#include "numbers.h"

int operation_of_record(const uint8_t *buffer, uint64_t length, struct operation *operation)
{
    struct wb_loss loss = wb_record(0, buffer, length);
    uint64_t i;
    memset(operation, 0, sizeof *operation);
    if (loss.returned != WB_ACCEPTED)
        return 0;
    operation->sequence = loss.sequence;
    operation->program = loss.program;
    operation->kind = loss.kind;
    operation->object = loss.object;
    operation->parent = loss.parent;
    operation->second_parent = loss.second_parent;
    operation->displaced = loss.displaced;
    operation->offset = loss.offset;
    operation->name_length = loss.name_len;
    operation->second_name_length = loss.second_name_len;
    operation->data_length = loss.data_len;
    operation->list_length = loss.list_len / 2;
    memcpy(operation->name, buffer + loss.name_at, loss.name_len);
    memcpy(operation->second_name, buffer + loss.second_name_at, loss.second_name_len);
    memcpy(operation->data, buffer + loss.data_at, loss.data_len);
    for (i = 0; i < operation->list_length; i++)
        operation->list[i] = number_at(buffer + loss.list_at + 2 * i, 2);
    return 1;
}

int same_operation(const struct operation *first, const struct operation *second)
{
    return first->sequence == second->sequence && first->program == second->program && first->kind == second->kind
        && first->object == second->object && first->parent == second->parent
        && first->second_parent == second->second_parent && first->displaced == second->displaced
        && first->offset == second->offset && first->name_length == second->name_length
        && first->second_name_length == second->second_name_length && first->data_length == second->data_length
        && first->list_length == second->list_length
        && memcmp(first->list, second->list, first->list_length * sizeof first->list[0]) == 0
        && memcmp(first->name, second->name, first->name_length) == 0
        && memcmp(first->second_name, second->second_name, first->second_name_length) == 0
        && memcmp(first->data, second->data, first->data_length) == 0;
}

const char *kind_text(uint64_t kind)
{
    static const char *const texts[] = {"no kind", "create file", "make directory", "remove", "rename",
                                        "overwrite", "append", "set length", "forder"};
    return texts[kind <= FORDER ? kind : 0];
}

void print_name(FILE *file, const uint8_t *name, uint64_t length)
{
    uint64_t i;
    for (i = 0; i < length; i++)
        if (name[i] < 32 || name[i] > 126 || name[i] == '"' || name[i] == '\\')
            fprintf(file, "\\x%02x", name[i]);
        else
            putc(name[i], file);
}

static void print_names(FILE *file, const struct operation *operation)
{
    fprintf(file, " of object %d, \"", (int)operation->object);
    print_name(file, operation->name, operation->name_length);
    fprintf(file, "\" in %d", (int)operation->parent);
    if (operation->kind != RENAME)
        return;
    fprintf(file, " to \"");
    print_name(file, operation->second_name, operation->second_name_length);
    fprintf(file, "\" in %d", (int)operation->second_parent);
    if (operation->displaced)
        fprintf(file, ", displacing object %d", (int)operation->displaced);
}

static void print_list(FILE *file, const struct operation *operation)
{
    uint64_t i;
    for (i = 0; i < operation->list_length; i++)
        fprintf(file, "%s%d", i ? ", " : " of objects ", (int)operation->list[i]);
}

void print_operation(FILE *file, const struct operation *operation)
{
    fprintf(file, "%lu by program %d: %s", (unsigned long)operation->sequence, (int)operation->program,
            kind_text(operation->kind));
    if (operation->kind <= RENAME)
        print_names(file, operation);
    else if (operation->kind == FORDER)
        print_list(file, operation);
    else if (operation->kind == SET_LENGTH)
        fprintf(file, " of object %d to %lu", (int)operation->object, (unsigned long)operation->offset);
    else
        fprintf(file, " of object %d, %lu bytes at %lu", (int)operation->object, (unsigned long)operation->data_length,
                (unsigned long)operation->offset);
}
