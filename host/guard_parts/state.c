/* Random numbers, and what the present buffers hold. The copies are read; they may be damaged, so every number is possible. */
#include "guard.h"

static uint64_t random_state;

void set_seed(uint64_t seed)
{
    random_state = seed;
}

uint64_t any(void)
{
    return splitmix64(&random_state);
}

uint64_t below(uint64_t limit)
{
    return (any() >> 32) * limit >> 32;
}

int chance(uint64_t in, uint64_t of)
{
    return below(of) < in;
}

struct geometry present;

uint64_t present_length(enum buffer buffer)
{
    return buffer == LOG ? WB_LOG_BYTES(present.m) : WB_VOLUME_BYTES(present.n, present.b);
}

int is_usual(const struct call *call)
{
    return call->number[N] == present.n && call->number[B] == present.b && call->number[M] == present.m
        && call->length[SERVER] == present_length(SERVER) && call->length[VIEW] == present_length(VIEW)
        && call->length[LOG] == present_length(LOG);
}

const uint8_t *entry_at(enum buffer volume, uint64_t object)
{
    return copy_of(volume, present_length(volume)) + object * ENTRY_BYTES;
}

const uint8_t *object_at(uint64_t object)
{
    return entry_at(VIEW, object);
}

static const uint8_t *log_held(void)
{
    return copy_of(LOG, present_length(LOG));
}

const uint8_t *slot_at(uint64_t slot)
{
    return log_held() + WB_LOG_HEAD_BYTES + slot * WB_SLOT_BYTES;
}

uint64_t parent_of(uint64_t object)
{
    return number_at(object_at(object) + PARENT_AT, 2);
}

uint64_t length_of(uint64_t object)
{
    return object < present.n ? number_at(object_at(object) + LENGTH_AT, 4) : 0;
}

uint64_t listing_of(uint64_t directory)
{
    uint64_t object, bytes = 0;
    for (object = 1; object < present.n; object++)
        if (object_at(object)[KIND_AT] != FREE && parent_of(object) == directory)
            bytes += 4 + object_at(object)[NAME_LENGTH_AT];
    return bytes;
}

static uint64_t slots_until(uint8_t state)
{
    uint64_t slot = 0;
    while (slot < present.m && slot_at(slot)[STATE_AT] != STATE_FREE && slot_at(slot)[STATE_AT] != state)
        slot++;
    return slot;
}

uint64_t slots_used(void)
{
    return slots_until(STATE_FREE);
}

uint64_t slots_lost(void)
{
    return slots_until(STATE_WAITING);
}

uint64_t sequence_of(uint64_t slot)
{
    return number_at(slot_at(slot) + RECORD_AT + RECORD_SEQUENCE_AT, 4);
}

uint64_t issuer_of(uint64_t slot)
{
    return slot_at(slot)[RECORD_AT + RECORD_PROGRAM_AT];
}

uint64_t next_sequence(void)
{
    return number_at(log_held() + NEXT_AT, 4);
}

uint64_t marks(void)
{
    return number_at(log_held() + MARKS_AT, 4);
}

int marked(uint64_t program)
{
    return HAS(marks(), program % WB_PROGRAMS);
}

/* An object of one of these kinds, sought from any object on; or n. */
static uint64_t seek(uint32_t kinds)
{
    const uint64_t from = below(present.n);
    uint64_t i;
    for (i = from; i < from + present.n; i++) {
        const uint8_t kind = object_at(i % present.n)[KIND_AT];
        if (kind <= DIRECTORY && HAS(kinds, kind))
            return i % present.n;
    }
    return present.n;
}

int has_object(uint32_t kinds)
{
    return seek(kinds) < present.n;
}

uint64_t object_of(uint32_t kinds)
{
    const uint64_t object = seek(kinds);
    return object < present.n ? object : below(present.n + 1);
}
