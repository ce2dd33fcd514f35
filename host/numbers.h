/* Numbers that hosts share: where the fields of the stored form stand, numbers stored low byte first, and random ones from a
 * seed. */
#ifndef NUMBERS_H
#define NUMBERS_H

#include "writebehind.h"

/* The places of fields, each counted from the start of what has them (document 01, "Geometry and stored form" and "Loss record"):
 * of an entry of a volume, of a log, of a slot, and of a loss record, whose own fields come behind its kind. */
enum { KIND_AT = 0, NAME_LENGTH_AT = 1, PARENT_AT = 2, NAME_AT = 4, LENGTH_AT = 64, DATA_AT = WB_ENTRY_HEAD_BYTES };
enum { NEXT_AT = 0, MARKS_AT = 4 };
enum { STATE_AT = 0, DEPENDENTS_AT = 4, RECORD_AT = 8 };
enum { RECORD_MAP_AT = 0, RECORD_SEQUENCE_AT = 2, RECORD_PROGRAM_AT = 6, RECORD_KIND_AT = 7, RECORD_FIELDS_AT = 8 };

/* The states of a slot. */
enum { STATE_FREE = 0, STATE_WAITING = 1, STATE_LOST = 2 };

/* The bytes of a file of the most blocks that there can be. */
#define LONGEST_FILE (WB_BLOCK_BYTES * WB_MOST_BLOCKS)

/* The number that is stored in so many bytes, at most 8. */
static inline uint64_t number_at(const uint8_t *at, int bytes)
{
    uint64_t number = 0;
    while (bytes-- > 0)
        number = number << 8 | at[bytes];
    return number;
}

static inline void put_number(uint8_t *at, uint64_t number, int bytes)
{
    for (; bytes-- > 0; number >>= 8)
        *at++ = (uint8_t)number;
}

/* The next number of the sequence splitmix64; the state is the seed to begin with. */
static inline uint64_t splitmix64(uint64_t *state)
{
    uint64_t mixed = *state += UINT64_C(0x9e3779b97f4a7c15);
    mixed = (mixed ^ mixed >> 30) * UINT64_C(0xbf58476d1ce4e5b9);
    mixed = (mixed ^ mixed >> 27) * UINT64_C(0x94d049bb133111eb);
    return mixed ^ mixed >> 31;
}

#endif
