#include "spelling.h"
#include <string.h>

uint8_t other_case(uint8_t byte)
{
    if ('A' <= byte && byte <= 'Z')
        return (uint8_t)(byte - 'A' + 'a');
    return 'a' <= byte && byte <= 'z' ? (uint8_t)(byte - 'a' + 'A') : byte;
}

int same_name(const uint8_t *first, uint64_t first_length, const uint8_t *second, uint64_t second_length)
{
    uint64_t i;
    if (first_length != second_length)
        return 0;
    for (i = 0; i < first_length; i++)
        if (first[i] != second[i] && first[i] != other_case(second[i]))
            return 0;
    return 1;
}

int same_spelling(const uint8_t *first, uint64_t first_length, const uint8_t *second, uint64_t second_length)
{
    return first_length == second_length && memcmp(first, second, first_length) == 0;
}

int by_other_spelling(const struct operation *operation, const uint8_t *stored, uint64_t length)
{
    return (operation->kind == REMOVE || operation->kind == RENAME)
        && !same_spelling(operation->name, operation->name_length, stored, length);
}

int changes_case_alone(const struct operation *operation, const uint8_t *stored, uint64_t length)
{
    return operation->kind == RENAME && operation->parent == operation->second_parent
        && same_name(operation->second_name, operation->second_name_length, stored, length)
        && !same_spelling(operation->second_name, operation->second_name_length, stored, length);
}
