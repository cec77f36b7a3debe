/* calls WHAT WHO TIMES [SIZE]: one call TIMES times, for counting instructions. WHAT is a call and an input: read-L, compare-large2, xml-full. WHO is
 * proved, plain (the yardstick in C; of web.xml the second implementation), walk (the yardstick that walks through all trial paths) or scalar (the same
 * without vectors). Prints what the last call answered; with SIZE, for the inputs that grow, and for a web.xml, first how large it is. */
#include <stdint.h>
#include <stdio.h>
#include <stdlib.h>
#include <string.h>
#include "../include/budquarry.h"
#include "../second/second.h"
#include "../second/yardstick.h"
#include "grown.h"
#include "hostile.h"
#include "inputs.h"
#include "xml.h"

/* yardstick.c with YARDSTICK_WALK */
typedef struct yardstick_comparison compare(const uint8_t *, size_t, const uint8_t *, size_t, uint8_t *, size_t, uint32_t *, size_t);
compare walk_compare, scalar_compare;

static uint32_t work[BUDQUARRY_WORK];
static uint8_t answer[BUDQUARRY_ANSWER], listing[BUDQUARRY_LISTING], old_room[GENERATED_LISTING], new_room[GENERATED_LISTING];
static struct generated large;
static const uint8_t *old, *new;
static size_t old_len, new_len;
static const char *path = "/p127/some/path.csv", *method = "METHOD30", *names = "role31\nrole07\n";

static void give(const void *o, size_t o_len, const void *n, size_t n_len) {
    old = o;
    old_len = o_len;
    new = n;
    new_len = n_len;
}

/* A path below the full listing's last prefix. */
static const char *full_path(void) {
    static char room[BUDQUARRY_ANSWER];
    const char *last = NULL, *at = (const char *)full_room;
    while ((at = strstr(at, "\npattern\t")) != NULL) last = at += 9;
    size_t n = strcspn(last, "*");
    memcpy(room, last, n);
    strcpy(room + n, "path.csv");
    return room;
}

/* The input after the call's name; gives how large one that grows is. */
static unsigned long choose(const char *what, unsigned size) {
    if (!strcmp(what, "L")) give(small, sizeof small - 1, small, sizeof small - 1);
    if (!strcmp(what, "12")) give(old_12, sizeof old_12 - 1, new_12, sizeof new_12 - 1);
    if (!strcmp(what, "long")) give(full_room, FULL + 1, full_room, FULL + 1);
    if (!strcmp(what, "full")) {
        give(full_listing(), FULL, full_room, FULL);
        path = full_path();
    }
    if (!strncmp(what, "large", 5)) {
        generate_large((size_t)atoi(what + 5), &large);
        give(large.listing, large.listing_len, large.new_listing, large.new_len);
        path = "/n/n/p2cdefg_abcdefg_abcdefg/x.e1";
        method = "M4";
        names = "role1\nrole2\n";
    }
    size_t other = 0, hostile_len = hostile_pair(what, old_room, new_room, &other);
    if (hostile_len) give(old_room, hostile_len, new_room, other);
    if (!strcmp(what, "bytes")) {
        give(old_room, grown_bytes(old_room, size), NULL, 0);
        return old_len;
    }
    if (!strcmp(what, "patterns")) {
        give(old_room, grown_patterns(old_room, size), NULL, 0);
        path = "/clock/offsets/of/nothing";
        return size;
    }
    if (!strcmp(what, "paths")) {
        give(old_room, grown_side(old_room, size, 0), new_room, grown_side(new_room, size, 1));
        return grown_paths(size);
    }
    return 0;
}

/* Reads the web.xml so many times, and prints how large it is, what was handed back and the listing. */
static void from_web_xml(const char *who, int times) {
    struct budquarry_written w = {0, 0, 0, 0};
    for (; times > 0; times--) {
        if (!strcmp(who, "proved")) {
            w = budquarry_from_web_xml((const uint8_t *)xml_room, xml_len, listing, sizeof listing, work, BUDQUARRY_WORK);
        } else {
            struct second_written s = second_from_web_xml((const uint8_t *)xml_room, xml_len, listing, sizeof listing, work, BUDQUARRY_WORK);
            w = (struct budquarry_written){s.number, s.side, s.line, s.length};
        }
    }
    printf("%zu\nnumber %u line %u length %zu\n%.*s", xml_len, (unsigned)w.number, (unsigned)w.line, w.length, w.number ? 0 : (int)w.length, (char *)listing);
}

/* One call; gives its number and its answer, or the answer's length. */
static uint64_t call(char which, const char *who) {
    size_t p = strlen(path), m = strlen(method), r = strlen(names);
    if (!strcmp(who, "proved")) {
        if (which == 'r') return (uint64_t)budquarry_read(old, old_len, work, BUDQUARRY_WORK).number << 32;
        if (which == 'd') {
            struct budquarry_decision d = budquarry_decide(old, old_len, (const uint8_t *)path, p, (const uint8_t *)method, m, 1,
                                                           (const uint8_t *)names, r, work, BUDQUARRY_WORK);
            return (uint64_t)d.number << 32 | d.answer;
        }
        struct budquarry_comparison c = budquarry_compare(old, old_len, new, new_len, answer, sizeof answer, work, BUDQUARRY_WORK);
        return (uint64_t)c.number << 32 | c.length;
    }
    if (which == 'r') return (uint64_t)yardstick_read(old, old_len, work, BUDQUARRY_WORK).number << 32;
    if (which == 'd') {
        struct yardstick_decision d = yardstick_decide(old, old_len, (const uint8_t *)path, p, (const uint8_t *)method, m, 1,
                                                       (const uint8_t *)names, r, work, BUDQUARRY_WORK);
        return (uint64_t)d.number << 32 | d.answer;
    }
    compare *yardstick = !strcmp(who, "walk") ? walk_compare : !strcmp(who, "scalar") ? scalar_compare : yardstick_compare;
    struct yardstick_comparison c = yardstick(old, old_len, new, new_len, answer, sizeof answer, work, BUDQUARRY_WORK);
    return (uint64_t)c.number << 32 | c.length;
}

int main(int argc, char **argv) {
    const char *what = argc < 4 ? NULL : strchr(argv[1], '-');
    if (!what) return 2;
    if (argv[1][0] == 'x') return xml_make(what + 1) ? from_web_xml(argv[2], atoi(argv[3])), 0 : 2;
    unsigned long size = choose(what + 1, argc > 4 ? (unsigned)atoi(argv[4]) : 0);
    if (!old) return 2;
    uint64_t said = 0;
    for (int i = atoi(argv[3]); i > 0; i--) said = call(argv[1][0], argv[2]);
    if (size) printf("%lu\n", size);
    printf("number %u answer %u\n%.*s", (unsigned)(said >> 32), (unsigned)said, argv[1][0] == 'c' ? (int)(uint32_t)said : 0, (char *)answer);
    return 0;
}
