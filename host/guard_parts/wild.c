/* Wild arguments: numbers, lengths and texts that a call must refuse, or at least not mistake for others. */
#include <string.h>
#include "guard.h"

/* A number beside the one given: near a limit, or the same in its low bits, or one whose product with a size is the same. */
static uint64_t wild_number(uint64_t given)
{
    const uint64_t high = UINT64_C(1) << 63, n = present.n, random = any();
    return ONE_OF(given + WIDE, given + WIDE, given + 65536, given + 65536, given + 256, given + 32, given + 1, given - 1,
                  given + high, given + high / 2, given + high / 4, given + high / 512, n, n + 1, 0, 31, 32, 33, 64, 255, 256,
                  257, 1023, 1024, 1025, 65535, 65536, WIDE - 2, WIDE - 1, WIDE, WIDE + 1, high, high - 1, UINT64_MAX - 1,
                  UINT64_MAX, random);
}

/* A length beside the right one of the server volume, view or log. */
static uint64_t wild_length(uint64_t right)
{
    const uint64_t some = below(70000);
    return ONE_OF(0, 0, right + 1, right - 1, right + 1, right - 1, right + WB_BLOCK_BYTES, right + WB_SLOT_BYTES,
                  right - WB_SLOT_BYTES, right + 65536, right + WIDE, right + WIDE, WIDE, WB_LOG_HEAD_BYTES, some);
}

/* n, b and m a little greater or less, perhaps out of range, with lengths that fit them; the buffers hold what they hold. */
static void wild_geometry(struct call *call)
{
    const uint64_t n = present.n + below(3) - 1, m = present.m + below(3) - 1;
    const uint64_t b = chance(1, 4) ? present.b + below(3) - 1 : present.b;
    call->number[N] = n;
    call->number[B] = b;
    call->number[M] = m;
    call->length[SERVER] = call->length[VIEW] = WB_VOLUME_BYTES(n, b);
    call->length[LOG] = WB_LOG_BYTES(m);
}

/* A text of one byte all over, with a few others in it; a path has slashes, mostly. */
static void wild_text(struct call *call, enum buffer buffer, int path)
{
    static const uint32_t lengths[] = {0, 0, 1, 1, 1, 2, 2, 2, 3, 59, 60, 60, 61, 61, 61, 62, 64, 128, 255, 256, 257, 316, 1000};
    static const uint32_t path_lengths[] = {0, 1, 2, 3, 4, 61, 62, 63, 122, 123, 124, 1022, 1023, 1023, 1024, 1024, 1025, 1100};
    static uint8_t wild[LONGEST_TEXT];
    const uint64_t every = ONE_OF(2, 3, 5, 61, 62, 1000);
    uint64_t length = path ? PICK(path_lengths) : PICK(lengths), count = ONE_OF(0, 0, 0, 0, 0, 0, 0, 1, 1, 2), at;
    if (chance(1, 60))
        length = 65536 + below(70);
    memset(wild, (int)ONE_OF('a', 'b', 'n', '.', 255), length);
    for (at = 0; path && at < length; at += every)
        wild[at] = '/';
    for (; length > 0 && count > 0; count--) {
        at = below(length);
        wild[at] = (uint8_t)ONE_OF(0, '/', '.', 1, 46, 48, 255);
    }
    text(call, buffer, wild, length);
}

/* One byte of a sensible text becomes another. */
static void change_text(struct call *call, enum buffer buffer)
{
    const uint8_t byte = (uint8_t)ONE_OF(0, '/', '/', '.', 'a', 255);
    if (call->length[buffer] > 0 && call->length[buffer] < LONGEST_TEXT)
        put(buffer, call->length[buffer], below(call->length[buffer]), &byte, 1);
}

/* A list of odd or great length, or with an object twice, or with objects that are none. */
static void wild_list(struct call *call)
{
    static uint8_t list[LONGEST_TEXT];
    const uint64_t length = ONE_OF(0, 0, 1, 2, 3, 4, 4, 6, 15, 16, 16, 17, 18, 18, 20, 32, 256 + 2, 65536 + 2);
    const int random = chance(1, 3), good = chance(2, 3);
    uint64_t at;
    for (at = 0; at < length; at += 2) {
        const uint64_t object = random ? below(present.n) : at / 2 % present.n;
        put_number(list + at, good ? object : ONE_OF(object, object, present.n - 1, present.n, object + 256, 65535), 2);
    }
    text(call, OWN, list, length);
}

/* A buffer, data or row of records of another length; it holds what is there. */
static void wild_own(struct call *call)
{
    const uint64_t length = call->length[OWN] % WIDE, some = below(1100), block = WB_BLOCK_BYTES, record = WB_RECORD_BYTES;
    call->length[OWN] = ONE_OF(0, 0, length + 1, length + 1, length > 0 ? length - 1 : 0, length > 0 ? length - 1 : 0, some, some,
                               block - 1, block, block + 1, record - 1, record, record + 1, 2 * block, length + 65536,
                               length + WIDE, WIDE);
    if (call->entry == FORDER || HAS(shapes[call->entry].numbers, PARENT))
        call->length[OWN] %= WIDE; /* these texts are read to their end */
    if (call->entry == RECORD && call->length[OWN] > WIDE && placement == ENDS)
        call->number[AT] += WIDE; /* where the record is now */
}

static void wild_bytes(struct call *call)
{
    const enum buffer name = call->entry == RENAME && chance(1, 2) ? SECOND_NAME : OWN;
    const int sort = (int)below(4);
    if (sort == 0 && name == OWN)
        wild_own(call);
    else if (sort == 1)
        change_text(call, name);
    else if (call->entry == FORDER)
        wild_list(call);
    else if (call->entry == LOOKUP || HAS(shapes[call->entry].numbers, PARENT))
        wild_text(call, name, call->entry == LOOKUP);
    else
        wild_own(call);
}

/* One of the numbers of the entry, n, b and m less often than the others. */
static void wild_one(struct call *call)
{
    uint64_t which = below(NUMBERS);
    while (!HAS(shapes[call->entry].numbers, which) || (which <= M && !chance(1, 8)))
        which = below(NUMBERS);
    call->number[which] = wild_number(call->number[which]);
}

void make_wild(struct call *call)
{
    const uint32_t buffers = shapes[call->entry].buffers;
    const uint64_t lent = below(3);
    do {
        const uint64_t sort = below(20);
        if (sort < 10)
            wild_one(call);
        else if (sort < 17 && HAS(buffers, OWN))
            wild_bytes(call);
        else if (sort == 18 && HAS(buffers, lent))
            call->length[lent] = wild_length(present_length((enum buffer)lent));
        else if (sort == 19 && HAS(buffers, SERVER))
            wild_geometry(call);
    } while (chance(1, 4));
}
