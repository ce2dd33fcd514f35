/* An operation as a host knows it: from a call that it saw accepted, or from a loss record. */
#ifndef OPERATION_H
#define OPERATION_H

#include <stdio.h>
#include "writebehind.h"

/* The kinds of operations, with the codes of the loss record. */
enum kind { CREATE_FILE = 1, MAKE_DIRECTORY, REMOVE, RENAME, OVERWRITE, APPEND, SET_LENGTH, FORDER };

/* What a kind does not have is 0. */
struct operation {
    uint64_t sequence, program, kind;
    uint64_t object, parent, second_parent;
    uint64_t displaced;              /* 0: none */
    uint64_t offset;                 /* of a set length the new length */
    uint64_t name_length, second_name_length, data_length, list_length;
    uint64_t list[WB_LIST_OBJECTS];
    uint8_t name[WB_NAME_BYTES], second_name[WB_NAME_BYTES], data[WB_BLOCK_BYTES];
};

/* The operation of a loss record at the start of the buffer; 0 if there is none. */
int operation_of_record(const uint8_t *buffer, uint64_t length, struct operation *operation);

/* Whether all fields of two operations are equal. */
int same_operation(const struct operation *first, const struct operation *second);

/* The kind in words. */
const char *kind_text(uint64_t kind);

/* One line without its end: sequence, program, kind, object, names, offset and lengths. Bytes that do not print show as \xNN. */
void print_operation(FILE *file, const struct operation *operation);

/* A name, with the bytes that do not print, quotes and backslashes as \xNN. */
void print_name(FILE *file, const uint8_t *name, uint64_t length);

#endif
