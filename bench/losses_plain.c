// The program `losses` in plain C, from document 01: reads loss records from standard input and prints sequence, program
// and kind of each; at a bad record "bad", a space and its byte offset, and stops.
#include <stdint.h>
#include <stdio.h>
#include <string.h>
#include "numbers.h"

static unsigned char buf[65536];

static uint32_t two(const unsigned char *p) { return p[0] | (uint32_t)p[1] << 8; }

static uint32_t four(const unsigned char *p) { return two(p) | two(p + 2) << 16; }

static int good_name(const unsigned char *p, size_t n) {
    if (n < 1 || WB_NAME_BYTES < n)
        return 0;
    for (size_t i = 0; i < n; i++)
        if (p[i] == 0 || p[i] == '/')
            return 0;
    return !(p[0] == '.' && (n == 1 || (n == 2 && p[1] == '.')));
}

// The length of the valid record that begins n bytes, or 0.
static size_t record(const unsigned char *p, size_t n) {
    if (n < RECORD_FIELDS_AT)
        return 0;
    uint32_t map = two(p + RECORD_MAP_AT), seq = four(p + RECORD_SEQUENCE_AT), object = 0, displaced = 0, offset = 0, len = 0;
    switch (p[RECORD_KIND_AT]) {
    case 1:
    case 2:
    case 3:
        if (map != 19)
            return 0;
        break;
    case 4:
        if (map != 55 && map != 63)
            return 0;
        break;
    case 5:
    case 6:
        if (map != 193)
            return 0;
        break;
    case 7:
        if (map != 65)
            return 0;
        break;
    case 8:
        if (map != 256)
            return 0;
        break;
    default:
        return 0;
    }
    if (seq < 1 || WB_LAST_SEQUENCE < seq || WB_PROGRAMS <= p[RECORD_PROGRAM_AT])
        return 0;
    size_t at = RECORD_FIELDS_AT;
    for (int bit = 0; bit < 4; bit++)
        if (map >> bit & 1) {
            if (n < at + 2)
                return 0;
            uint32_t v = two(p + at);
            if (WB_MOST_OBJECTS <= v || ((bit == 0 || bit == 3) && v < 1))
                return 0;
            if (bit == 0)
                object = v;
            if (bit == 3)
                displaced = v;
            at += 2;
        }
    for (int bit = 4; bit < 6; bit++)
        if (map >> bit & 1) {
            if (n < at + 1 || n < at + 1 + p[at] || !good_name(p + at + 1, p[at]))
                return 0;
            at += 1 + p[at];
        }
    if (map >> 6 & 1) {
        if (n < at + 4)
            return 0;
        offset = four(p + at);
        at += 4;
    }
    if (map >> 7 & 1) {
        if (n < at + 2)
            return 0;
        len = two(p + at);
        if (len < 1 || WB_BLOCK_BYTES < len || n < at + 2 + len)
            return 0;
        at += 2 + len;
    }
    if (map >> 8 & 1) {
        if (n < at + 1)
            return 0;
        size_t count = p[at];
        at += 1;
        if (count < 1 || WB_LIST_OBJECTS < count || n < at + 2 * count)
            return 0;
        for (size_t i = 0; i < count; i++) {
            if (WB_MOST_OBJECTS <= two(p + at + 2 * i))
                return 0;
            for (size_t j = 0; j < i; j++)
                if (two(p + at + 2 * i) == two(p + at + 2 * j))
                    return 0;
        }
        at += 2 * count;
    }
    if ((map >> 3 & 1) && object == displaced)
        return 0;
    if ((map >> 6 & 1)
        && (LONGEST_FILE < offset || LONGEST_FILE - offset < len || WB_BLOCK_BYTES < offset % WB_BLOCK_BYTES + len))
        return 0;
    return at;
}

int main(void) {
    size_t held = 0;
    unsigned long long base = 0;
    int ended = 0;
    for (;;) {
        size_t got = fread(buf + held, 1, sizeof buf - held, stdin), at = 0;
        held += got;
        ended = held < sizeof buf;
        while (at < held && (ended || WB_RECORD_BYTES <= held - at)) {
            size_t n = record(buf + at, held - at);
            if (n == 0) {
                printf("bad %llu\n", base + at);
                return 0;
            }
            printf("%u %u %u\n", four(buf + at + RECORD_SEQUENCE_AT), (unsigned)buf[at + RECORD_PROGRAM_AT],
                   (unsigned)buf[at + RECORD_KIND_AT]);
            at += n;
        }
        if (ended)
            return 0;
        memmove(buf, buf + at, held - at);
        base += at;
        held -= at;
    }
}
