/* Listings that grow: in bytes, in patterns, in trial paths. */
#ifndef GROWN_H
#define GROWN_H
#include <stddef.h>
#include <stdint.h>
#include <stdio.h>
#include "../second/generate.h"

/* The generator's full listing with all of its counts at k eighths, k from 1 to 8: 3,072 bytes for each eighth. */
static size_t grown_bytes(uint8_t *to, unsigned k) {
    struct big b = {.declared = 4 * k, .constraints = 8 * k, .collections = 16 * k, .patterns = 16 * k, .methods = k < 8 ? 4 * k : 31,
                    .method_lines = 64 * k, .size = 3072 * k, .prefixes = 40, .extensions = 20, .nested = 1};
    return generate_big(&b, to, GENERATED_LISTING);
}

/* n prefixes of one length, in one collection. */
static size_t grown_patterns(uint8_t *to, unsigned n) {
    size_t at = (size_t)sprintf((char *)to, "constraints\t1\nrole\tassessor\nconstraint\tauth\nallow\tassessor\ncollection\n");
    for (unsigned i = 0; i < n; i++) at += (size_t)sprintf((char *)to + at, "pattern\t/clock/offsets/of/%03u/*\n", i);
    return at + (size_t)sprintf((char *)to + at, "end\n");
}

/* One side of a pair that is no wider: n prefixes (new) or n extensions (old), n even, two a constraint, and `/` twice; 31 methods and 32 roles. The
 * prefixes allow four roles each, the extensions every role. */
static size_t grown_side(uint8_t *to, unsigned n, int prefixes) {
    char *s = (char *)to;
    size_t at = (size_t)sprintf(s, "constraints\t1\n");
    for (unsigned i = 0; i < 32; i++) at += (size_t)sprintf(s + at, "role\tr%02u\n", i);
    for (unsigned i = 0; i < n + 2; i++) {
        if (i % 2 == 0) {
            at += (size_t)sprintf(s + at, "constraint\tauth\n");
            for (unsigned k = 0; k < 4 && prefixes; k++) at += (size_t)sprintf(s + at, "allow\tr%02u\n", (5 * i + 7 * k) % 32);
            if (!prefixes) at += (size_t)sprintf(s + at, "allow\t*\n");
        }
        at += (size_t)sprintf(s + at, "collection\npattern\t");
        at += (size_t)(i >= n ? sprintf(s + at, "/\n") : prefixes ? sprintf(s + at, "/p%u/*\n", i) : sprintf(s + at, "*.e%u\n", i));
        for (unsigned m = 0; m < 31 && i == n + 1; m++) at += (size_t)sprintf(s + at, "method\tM%02u\n", m);
    }
    return at + (size_t)sprintf(s + at, "end\n");
}

/* Its trial paths: each prefix bare and with each extension; each extension; `/` four times and at the end. */
static unsigned grown_paths(unsigned n) { return n * (1 + n) + n + 5; }
#endif
