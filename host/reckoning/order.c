#include "order.h"
#include <string.h>

uint64_t operands(const struct operation *operation, uint64_t found[WB_LIST_OBJECTS])
{
    uint64_t count = 0;
    if (operation->kind == FORDER) {
        memcpy(found, operation->list, operation->list_length * sizeof found[0]);
        return operation->list_length;
    }
    found[count++] = operation->object;
    if (operation->kind <= RENAME)
        found[count++] = operation->parent;
    if (operation->kind == RENAME)
        found[count++] = operation->second_parent;
    if (operation->displaced)
        found[count++] = operation->displaced;
    return count;
}

int has_operand(const struct operation *operation, uint64_t object)
{
    uint64_t found[WB_LIST_OBJECTS], count = operands(operation, found), i;
    for (i = 0; i < count; i++)
        if (found[i] == object)
            return 1;
    return 0;
}

int touches(const struct operation *earlier, const struct operation *later)
{
    uint64_t found[WB_LIST_OBJECTS], count = operands(earlier, found), i;
    for (i = 0; i < count; i++)
        if (has_operand(later, found[i]))
            return earlier->sequence < later->sequence;
    return 0;
}

static int common_byte(const struct operation *first, const struct operation *second)
{
    return first->offset < second->offset + second->data_length && second->offset < first->offset + first->data_length;
}

int directly_precedes(const struct operation *earlier, const struct operation *later)
{
    int two_overwrites = earlier->kind == OVERWRITE && later->kind == OVERWRITE;
    return touches(earlier, later) && (!two_overwrites || common_byte(earlier, later));
}

/* Steps lead from earlier to later ones only, so that going backwards once finds them all. */
void with_predecessors(const struct operation *const *listed, uint64_t count, uint8_t *chosen)
{
    uint64_t i, j;
    for (i = count; i-- > 0;)
        for (j = i + 1; j < count && !chosen[i]; j++)
            chosen[i] = chosen[j] && directly_precedes(listed[i], listed[j]);
}

void reaching(const struct operation *const *listed, uint64_t count, uint8_t objects[WB_MOST_OBJECTS], uint8_t *chosen)
{
    uint64_t found[WB_LIST_OBJECTS], i, j, operand_count;
    for (i = count; i-- > 0;) {
        operand_count = operands(listed[i], found);
        chosen[i] = 0;
        for (j = 0; j < operand_count; j++)
            chosen[i] |= objects[found[j]];
        for (j = 0; j < operand_count; j++)
            objects[found[j]] |= chosen[i];
    }
}
