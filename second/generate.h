/* generate.h: test cases for reading, deciding and comparing, from a seed.
 *
 * The same seed gives the same case always.  The generator knows nothing of
 * the implementations; it makes listings, damages some of them, and makes
 * requests to match.
 */
#ifndef GENERATE_H
#define GENERATE_H

#include <stddef.h>
#include <stdint.h>

enum generated_kind { GENERATED_READ, GENERATED_DECIDE, GENERATED_COMPARE };

enum {
    GENERATED_LISTING = 40960,
    GENERATED_PATH = 2048,
    GENERATED_METHOD = 64,
    GENERATED_ROLES = 4096
};

struct generated {
    enum generated_kind kind;
    /* the only listing, or the old one in comparing */
    uint8_t listing[GENERATED_LISTING];
    size_t listing_len;
    /* the new listing, in comparing */
    uint8_t new_listing[GENERATED_LISTING];
    size_t new_len;
    /* the request, in deciding */
    uint8_t path[GENERATED_PATH];
    size_t path_len;
    uint8_t method[GENERATED_METHOD];
    size_t method_len;
    uint32_t login;
    uint8_t roles[GENERATED_ROLES];
    size_t roles_len;
    /* the lent buffers: their lengths, and what they hold before the call */
    size_t answer_len;
    size_t work_len;
    uint64_t garbage;
};

/* One case from a seed. */
void generate_case(uint64_t seed, struct generated *g);

/* The exhaustive family of small things: cases 0 to count - 1. */
size_t generate_small_count(void);
void generate_small(size_t index, struct generated *g);

/* A few large cases (0 to count - 1), slow in a literal implementation: full
 * listings, the worst pair, a filler of five digits. */
size_t generate_large_count(void);
void generate_large(size_t index, struct generated *g);

/* What a lent buffer holds before the call. */
uint8_t generate_garbage_byte(uint64_t garbage, size_t place);
uint32_t generate_garbage_number(uint64_t garbage, size_t place);

/* A listing with the given counts, which needn't be within 01's limits. */
struct big {
    unsigned declared, undeclared;     /* distinct role names */
    unsigned constraints, collections, patterns, method_lines, methods;
    unsigned pattern_len;              /* of the last pattern; 0: as it comes */
    unsigned role_len, method_len;     /* of the first; 0: as it comes */
    size_t size;                       /* of the listing, by longer patterns; 0: as it comes */
    unsigned prefixes, extensions;     /* in percent of the patterns */
    unsigned nested;                   /* prefixes below each other */
    unsigned repeats;                  /* one in so many patterns again; 0: none */
    unsigned full_allow;               /* every `auth` allows every role */
    unsigned all_auth;                 /* no `open` and no empty `auth` */
    unsigned shift;                    /* of the names, so that two listings differ */
    unsigned last_default;             /* the last pattern is the default */
};
size_t generate_big(const struct big *b, uint8_t *to, size_t room);

#endif
