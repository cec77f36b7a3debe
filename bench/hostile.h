/* Listings that are made to cost: 128 patterns, most of them as long as 24,576 bytes allow, which begin alike, end alike or both, and differ in three bytes. */
#ifndef HOSTILE_H
#define HOSTILE_H
#include <stddef.h>
#include <stdint.h>
#include <stdio.h>
#include <string.h>

/* How the listing is made: START, then `before` bytes, a number from `from` on, `behind` bytes and END, 128 times. `fill` is what these bytes repeat. A rich one
 * has 32 roles and 31 methods; a free one asks nothing, so that nothing is wider than it. */
struct hostile {
    const char *start, *end, *fill;
    unsigned before, from, behind;
    int rich, free;
};

static size_t hostile_bytes(char *to, const char *fill, unsigned count) {
    for (unsigned i = 0; i < count; i++) to[i] = fill[i % strlen(fill)];
    return count;
}

static size_t hostile(uint8_t *to, struct hostile h) {
    char *s = (char *)to;
    size_t at = (size_t)sprintf(s, "constraints\t1\n");
    for (int i = 0; h.rich && i < 32; i++) at += (size_t)sprintf(s + at, "role\tr%d\n", i);
    at += (size_t)sprintf(s + at, "constraint\t%s\ncollection\n", h.free ? "open" : "auth");
    for (unsigned i = 0; i < 128; i++) {
        at += (size_t)sprintf(s + at, "pattern\t%s", h.start);
        at += hostile_bytes(s + at, h.fill, h.before);
        at += (size_t)sprintf(s + at, "%03u", h.from + i);
        at += hostile_bytes(s + at, h.fill, h.behind);
        at += (size_t)sprintf(s + at, "%s\n", h.end);
    }
    for (int i = 0; h.rich && i < 31; i++) at += (size_t)sprintf(s + at, "method\tM%d\n", i);
    return at + (size_t)sprintf(s + at, "end\n");
}

static const struct {
    const char *name;
    struct hostile old, new;
} hostile_pairs[] = {
    /* begin alike, each with itself; two such with no text in both */
    {"begin", {"/", "/*", "a", 165, 0, 0, 0, 0}, {"/", "/*", "a", 165, 0, 0, 0, 0}},
    {"begin2", {"/", "/*", "a", 165, 0, 0, 0, 0}, {"/", "/*", "a", 165, 128, 0, 0, 0}},
    /* begin and end alike, with itself; two such with no text in both */
    {"both", {"/", "/*", "a", 85, 0, 80, 0, 0}, {"/", "/*", "a", 85, 0, 80, 0, 0}},
    {"both2", {"/", "/*", "a", 85, 0, 80, 0, 0}, {"/", "/*", "a", 85, 128, 80, 0, 0}},
    /* old's prefixes begin as all of new's, which are longer, do; each could be above each by its length */
    {"below", {"/", "/*", "a", 82, 0, 80, 1, 1}, {"/", "/c/*", "a", 82, 128, 80, 1, 0}},
    /* exact paths in new; in old extensions that end alike, or prefixes that are as long */
    {"endings", {"*.", "", "a", 82, 0, 80, 1, 1}, {"/x.", "", "a", 82, 128, 80, 1, 0}},
    {"exact", {"/", "/*", "a", 82, 0, 80, 1, 1}, {"/", "", "a", 82, 128, 80, 1, 0}},
    /* each path is one of the prefixes, and all bytes are numbers that the filler must not be */
    {"marks", {"/", "/*", "q12345", 83, 0, 80, 1, 1}, {"/", "", "q12345", 83, 0, 80, 1, 0}},
};

/* The pair of that name, old and then new; 0 where there is none. */
static size_t hostile_pair(const char *what, uint8_t *old, uint8_t *new, size_t *new_len) {
    for (size_t i = 0; i < sizeof hostile_pairs / sizeof *hostile_pairs; i++)
        if (!strcmp(what, hostile_pairs[i].name)) {
            *new_len = hostile(new, hostile_pairs[i].new);
            return hostile(old, hostile_pairs[i].old);
        }
    return 0;
}
#endif
