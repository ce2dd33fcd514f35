/* A host's own reckoning of when two names are the same (document 02, K2): if they differ at most in A to Z against a to z. The
 * library is not asked. A name is given as its bytes and its length. */
#ifndef SPELLING_H
#define SPELLING_H

#include "operation.h"

/* Whether two names are the same, in whatever spelling, and whether they are spelt alike too. */
int same_name(const uint8_t *first, uint64_t first_length, const uint8_t *second, uint64_t second_length);
int same_spelling(const uint8_t *first, uint64_t first_length, const uint8_t *second, uint64_t second_length);

/* The letter in the other case; a byte that is none of A to Z and a to z stays. */
uint8_t other_case(uint8_t byte);

/* Of an operation whose object had this name as stored when it was issued: whether it is a remove or rename that found the object
 * by another spelling, and whether it is a rename that changes only the case of the stored name, in the same parent. */
int by_other_spelling(const struct operation *operation, const uint8_t *stored, uint64_t length);
int changes_case_alone(const struct operation *operation, const uint8_t *stored, uint64_t length);

#endif
