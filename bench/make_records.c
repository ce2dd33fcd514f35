// Writes loss records to standard output: `make_records mixed BYTES SEED` random valid ones of every kind, at least so many
// bytes; `make_records broken BYTES SEED` the same with one byte changed, or with the last bytes left out; and
// `make_records limits SEED` the stored test of `losses`: C12, every kind at both ends of its limits, mixed records longer
// than two of its buffers, and a bad record.
#include <stdint.h>
#include <stdio.h>
#include <stdlib.h>
#include <string.h>
#include "numbers.h"

static unsigned char record[WB_RECORD_BYTES];
static size_t fill;
static uint64_t state;
// Of the bytes to be written: the one that is changed, and the first that is left out.
static size_t written, changed = SIZE_MAX, cut = SIZE_MAX;

// xorshift64*
static uint32_t any(void) {
    state ^= state >> 12;
    state ^= state << 25;
    state ^= state >> 27;
    return (uint32_t)((state * UINT64_C(2685821657736338717)) >> 32);
}

static uint32_t from_to(uint32_t lo, uint32_t hi) { return lo + any() % (hi - lo + 1); }

static void number(unsigned width, uint32_t v) {
    for (unsigned i = 0; i < width; i++) {
        record[fill++] = (unsigned char)(v & 255);
        v >>= 8;
    }
}

static void head(uint32_t map, uint32_t sequence, uint32_t program, uint32_t kind) {
    fill = 0;
    number(2, map);
    number(4, sequence);
    number(1, program);
    number(1, kind);
}

// A name of so many bytes, none 0 or 47, and neither "." nor "..".
static void name(uint32_t len) {
    number(1, len);
    for (uint32_t i = 0; i < len; i++) {
        unsigned char b;
        do
            b = (unsigned char)from_to(1, 255);
        while (b == '/' || (b == '.' && len < 3));
        record[fill++] = b;
    }
}

static void data(uint32_t len) {
    number(2, len);
    for (uint32_t i = 0; i < len; i++)
        record[fill++] = (unsigned char)any();
}

static size_t put(void) {
    if (changed - written < fill)
        record[changed - written] ^= (unsigned char)from_to(1, 255);
    size_t n = cut <= written ? 0 : cut - written < fill ? cut - written : fill;
    if (fwrite(record, 1, n, stdout) != n)
        exit(1);
    written += fill;
    return fill;
}

static size_t entry(uint32_t kind, uint32_t seq, uint32_t program, uint32_t object, uint32_t parent, uint32_t len) {
    head(19, seq, program, kind);
    number(2, object);
    number(2, parent);
    name(len);
    return put();
}

static size_t move(uint32_t seq, uint32_t program, uint32_t object, uint32_t parent, uint32_t second, uint32_t displaced,
                   uint32_t len, uint32_t len2) {
    head(displaced ? 63 : 55, seq, program, 4);
    number(2, object);
    number(2, parent);
    number(2, second);
    if (displaced)
        number(2, displaced);
    name(len);
    name(len2);
    return put();
}

static size_t block(uint32_t kind, uint32_t seq, uint32_t program, uint32_t object, uint32_t offset, uint32_t len) {
    head(193, seq, program, kind);
    number(2, object);
    number(4, offset);
    data(len);
    return put();
}

static size_t length(uint32_t seq, uint32_t program, uint32_t object, uint32_t len) {
    head(65, seq, program, 7);
    number(2, object);
    number(4, len);
    return put();
}

static size_t order(uint32_t seq, uint32_t program, uint32_t count, const uint32_t *list) {
    head(256, seq, program, 8);
    number(1, count);
    for (uint32_t i = 0; i < count; i++)
        number(2, list[i]);
    return put();
}

static size_t mixed(void) {
    uint32_t seq = any();
    if (seq < 1 || WB_LAST_SEQUENCE < seq)
        seq = 1;
    uint32_t program = from_to(0, 31), object = from_to(1, 255), kind = from_to(1, 8);
    switch (kind) {
    case 4: {
        uint32_t displaced = 0;
        if (any() & 1)
            do
                displaced = from_to(1, 255);
            while (displaced == object);
        return move(seq, program, object, from_to(0, 255), from_to(0, 255), displaced, from_to(1, WB_NAME_BYTES),
                    from_to(1, WB_NAME_BYTES));
    }
    case 5:
    case 6: {
        uint32_t start = from_to(0, WB_BLOCK_BYTES - 1), len = from_to(1, WB_BLOCK_BYTES - start);
        return block(kind, seq, program, object, from_to(0, WB_MOST_BLOCKS - 1) * WB_BLOCK_BYTES + start, len);
    }
    case 7:
        return length(seq, program, object, from_to(0, LONGEST_FILE));
    case 8: {
        uint32_t list[WB_LIST_OBJECTS], count = from_to(1, WB_LIST_OBJECTS);
        for (uint32_t i = 0; i < count; i++) {
            uint32_t j;
            do {
                list[i] = from_to(0, 255);
                for (j = 0; list[j] != list[i]; j++)
                    ;
            } while (j != i);
        }
        return order(seq, program, count, list);
    }
    default:
        return entry(kind, seq, program, object, from_to(0, 255), from_to(1, WB_NAME_BYTES));
    }
}

static void limits(void) {
    static const uint32_t c12[] = {5, 6}, one[] = {0}, other[] = {255}, eight[] = {0, 255, 1, 254, 2, 253, 3, 252};
    const uint32_t first = 1, last = WB_LAST_SEQUENCE;
    order(7, 3, 2, c12);
    for (uint32_t kind = 1; kind <= 3; kind++) {
        entry(kind, first, 0, 1, 0, 1);
        entry(kind, last, 31, 255, 255, WB_NAME_BYTES);
    }
    move(first, 0, 1, 0, 0, 0, 1, 1);
    move(last, 31, 255, 255, 255, 0, WB_NAME_BYTES, WB_NAME_BYTES);
    move(first, 0, 1, 0, 0, 255, 1, 1);
    move(last, 31, 255, 255, 255, 1, WB_NAME_BYTES, WB_NAME_BYTES);
    for (uint32_t kind = 5; kind <= 6; kind++) {
        block(kind, first, 0, 1, 0, 1);
        block(kind, last, 31, 255, 0, WB_BLOCK_BYTES);
        block(kind, last, 31, 255, LONGEST_FILE - WB_BLOCK_BYTES, WB_BLOCK_BYTES);
        block(kind, last, 31, 255, LONGEST_FILE - 1, 1);
    }
    length(first, 0, 1, 0);
    length(last, 31, 255, LONGEST_FILE);
    order(first, 0, 1, one);
    order(last, 31, 1, other);
    order(last, 31, 8, eight);
    for (size_t n = 0; n < 3 * 65536;)
        n += mixed();
    // A block that runs a byte past the longest file.
    block(6, 9, 3, 7, LONGEST_FILE - 7, 8);
    mixed();
}

int main(int argc, char **argv) {
    if (argc == 3 && strcmp(argv[1], "limits") == 0) {
        state = strtoull(argv[2], NULL, 10) * 2 + 1;
        limits();
    } else if (argc == 4 && (strcmp(argv[1], "mixed") == 0 || strcmp(argv[1], "broken") == 0)) {
        size_t bytes = strtoull(argv[2], NULL, 10);
        state = strtoull(argv[3], NULL, 10) * 2 + 1;
        for (int i = 0; i < 8; i++)
            any();
        if (argv[1][0] == 'b')
            *(any() & 1 ? &changed : &cut) = from_to(0, (uint32_t)bytes - 1);
        for (size_t n = 0; n < bytes;)
            n += mixed();
    } else {
        fprintf(stderr, "make_records mixed BYTES SEED | broken BYTES SEED | limits SEED\n");
        return 2;
    }
    return fflush(stdout) == 0 ? 0 : 1;
}
