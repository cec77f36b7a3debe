/* A listing of exactly 24,576 bytes that uses every limit: 64 constraints, 128 collections, 128 patterns, 512 method and omit lines, 32 roles
 * (20 of them declared) and 31 methods. The patterns are as long as the bytes that are left allow. */
#ifndef FULL_H
#define FULL_H
#include <stddef.h>
#include <stdint.h>
#include <stdio.h>
#include <string.h>

enum { FULL = 24576 };

/* Writes the listing with patterns of `length` bytes, the first `longer` of them one byte longer. Returns its length. */
static size_t full_with(char *to, size_t length, size_t longer) {
    size_t n = 0, methods = 0, patterns = 0;
    n += (size_t)sprintf(to + n, "constraints\t1\n");
    for (int r = 0; r < 20; r++) n += (size_t)sprintf(to + n, "role\trole%02d\n", r);
    for (int c = 0; c < 64; c++) {
        n += (size_t)sprintf(to + n, "constraint\t%s\n", c % 8 ? "auth" : "open");
        if (c % 8) n += (size_t)sprintf(to + n, "allow\trole%02d\nallow\trole%02d\n", 20 + c % 12, c % 20);
        for (int k = 0; k < 2; k++) {
            size_t room = length + (patterns < longer);
            n += (size_t)sprintf(to + n, "collection\npattern\t");
            size_t head = (size_t)sprintf(to + n, "/p%03zu/", patterns++);
            memset(to + n + head, 'x', room - head - 2);
            memcpy(to + n + room - 2, "/*\n", 3);
            n += room + 1;
            for (int j = 0; j < 4; j++) n += (size_t)sprintf(to + n, "%s\tMETHOD%02zu\n", (c + k) % 2 ? "method" : "omit", methods++ % 31);
        }
    }
    return n + (size_t)sprintf(to + n, "end\n");
}

static uint8_t full_room[65536];

static const uint8_t *full_listing(void) {
    size_t short_one = full_with((char *)full_room, 16, 0), left = FULL - short_one;
    size_t n = full_with((char *)full_room, 16 + left / 128, left % 128);
    return n == FULL ? full_room : NULL;
}
#endif
