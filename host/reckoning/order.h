/* A host's own reckoning of order and dependence (document 01, "Order and dependence"). The library is not asked, so that what it
 * answers can be compared with this. A list of operations is given in issue order. */
#ifndef ORDER_H
#define ORDER_H

#include "operation.h"

/* Writes the operands one after another, and tells how many: the object and every parent, displaced or listed object. */
uint64_t operands(const struct operation *operation, uint64_t found[WB_LIST_OBJECTS]);

int has_operand(const struct operation *operation, uint64_t object);

/* Whether the earlier one touches the later one: they share an operand. */
int touches(const struct operation *earlier, const struct operation *later);

/* Whether the earlier one touches the later one and they are not two overwrites without a common byte. */
int directly_precedes(const struct operation *earlier, const struct operation *later);

/* Adds to the chosen ones (1 where chosen) all that precede them, directly or through further ones. */
void with_predecessors(const struct operation *const *listed, uint64_t count, uint8_t *chosen);

/* Chooses those with one of the objects as operand (1 where it is one), and all that touch a chosen one. A program that had an
 * accepted call on these objects depends on the chosen ones. The objects reached on the way are added. */
void reaching(const struct operation *const *listed, uint64_t count, uint8_t objects[WB_MOST_OBJECTS], uint8_t *chosen);

#endif
