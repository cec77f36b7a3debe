/* The proved reading of web.xml against the independent second one, on generated files: everything handed back, every byte of the listing buffer and
 * every number of the work table, those past what is written and a few past what is lent too. agree_xml SEED CASES; exit 1 at the first disagreement
 * or broken promise, and in a run of 50,000 cases or more if a refusal comes in less than one of a hundred or less than a third is accepted. Of the second's
 * outcome itself it is asked on every case that
 *   - beside a refusal the listing buffer is as it was and the length 0 (the length needed beside 15), and the work table is left as 01 says;
 *   - a listing that is written is accepted when it is read, as it is and behind 15 as it would be;
 *   - a file that a listing was written as, in any style, gives back the bytes of that listing.
 * Compiled with ONLY_SECOND it runs the second implementation in both places, and needs no archive. */
#include <inttypes.h>
#include <stdio.h>
#include <stdlib.h>
#include <string.h>
#include "../include/budquarry.h"
#include "../second/generate_xml.h"
#include "../second/second.h"

#ifdef ONLY_SECOND
static struct budquarry_written budquarry_from_web_xml_(const uint8_t *xml, size_t xml_len, uint8_t *listing, size_t listing_len, uint32_t *work,
                                                        size_t work_len) {
    struct second_written w = second_from_web_xml(xml, xml_len, listing, listing_len, work, work_len);
    return (struct budquarry_written){ w.number, w.side, w.line, w.length };
}
#define budquarry_from_web_xml budquarry_from_web_xml_
#endif

enum { MOST_WORK = 8192, MOST_ROOM = GENERATED_LISTING, GUARD = 16, MANY = 50000, NUMBERS = 20 };
static struct generated_xml c;
static uint32_t mine[MOST_WORK + GUARD], theirs[MOST_WORK + GUARD], scratch[4096];
static uint8_t my_room[MOST_ROOM + GUARD], their_room[MOST_ROOM + GUARD], wide[MOST_ROOM];
static unsigned long refusals[NUMBERS], cases, meant;

static void lend(void) {
    for (size_t i = 0; i < c.work_len + GUARD; i++) mine[i] = theirs[i] = generate_garbage_number(c.garbage, i);
    for (size_t i = 0; i < c.room + GUARD; i++) my_room[i] = their_room[i] = generate_garbage_byte(c.garbage, i);
}

/* 01: "After every call the first 4,096 work numbers are zero and the rest as before; with refusal 1 none changes." */
static int work_left_right(uint32_t number) {
    for (size_t i = 0; i < c.work_len + GUARD; i++)
        if (theirs[i] != (number != 1 && i < 4096 ? 0 : generate_garbage_number(c.garbage, i))) return 0;
    return 1;
}

static int room_kept_from(size_t from) {
    for (size_t i = from; i < c.room + GUARD; i++)
        if (their_room[i] != generate_garbage_byte(c.garbage, i)) return 0;
    return 1;
}

static int read_number(const uint8_t *listing, size_t length) {
    return (int)second_read(listing, length, scratch, 4096).number;
}

/* The listing that a file of number 0 or 15 has, in a buffer that is wide enough; gives whether the call says so again. */
static int write_wide(size_t length) {
    struct second_written w = second_from_web_xml(c.xml, c.xml_len, wide, sizeof wide, scratch, 4096);
    return w.number == 0 && w.length == length;
}

/* What is wrong with the second's outcome by itself. */
static const char *broken(struct second_written b) {
    int has = b.number == 0 || b.number == 15;
    if (!work_left_right(b.number)) return "the work table";
    if (!room_kept_from(b.number == 0 ? b.length : 0)) return "the listing buffer's rest";
    if (!has && b.length != 0) return "a length beside a refusal";
    if (b.side != (b.number != 0 && b.number != 1 && b.number != 15)) return "the side";
    if ((b.line == 0) != (has || b.number == 1 || b.number == 16 || b.number == 2)) return "the line";
    if (has && (!write_wide(b.length) || read_number(wide, b.length) != 0)) return "reading what was written";
    if (b.number == 0 && memcmp(wide, their_room, b.length)) return "a wider buffer";
    if (b.number == 1 || !c.whole || c.xml_len > 65536 || read_number(c.listing, c.listing_len) != 0) return NULL;
    meant++;
    return has && b.length == c.listing_len && !memcmp(wide, c.listing, b.length) ? NULL : "the listing that the file was made from";
}

/* What the two disagree on, or what is broken. */
static const char *fault(int counted) {
    lend();
    struct budquarry_written a = budquarry_from_web_xml(c.xml, c.xml_len, my_room, c.room, mine, c.work_len);
    struct second_written b = second_from_web_xml(c.xml, c.xml_len, their_room, c.room, theirs, c.work_len);
    if (a.number != b.number || a.side != b.side || a.line != b.line || a.length != b.length) {
        printf("proved %u %u %u %zu, second %u %u %u %zu\n", (unsigned)a.number, (unsigned)a.side, (unsigned)a.line, (size_t)a.length, (unsigned)b.number,
               (unsigned)b.side, (unsigned)b.line, b.length);
        return "what is handed back";
    }
    if (memcmp(mine, theirs, (c.work_len + GUARD) * sizeof *mine)) return "the two work tables";
    if (memcmp(my_room, their_room, c.room + GUARD)) return "the two listing buffers";
    cases++;
    if (counted) refusals[b.number]++;
    return broken(b);
}

/* The file of a bad case goes to a file of its own, to be looked at. */
static void check(const char *family, uint64_t seed, uint64_t at, int counted) {
    const char *what = fault(counted);
    if (what == NULL) return;
    printf("web.xml, seed %" PRIu64 ", case %" PRIu64 " of the %s cases: %s; room %zu, work %zu\n", seed, at, family, what, c.room, c.work_len);
    FILE *f = fopen("build/bad_web.xml", "wb");
    if (f != NULL) {
        fwrite(c.xml, 1, c.xml_len, f);
        fclose(f);
        printf("the file is in build/bad_web.xml\n");
    }
    exit(1);
}

int main(int argc, char **argv) {
    static const int order[] = { 1, 16, 17, 18, 19, 6, 7, 9, 8, 2, 15 };
    uint64_t seed = argc > 1 ? strtoull(argv[1], 0, 10) : 1, n = argc > 2 ? strtoull(argv[2], 0, 10) : MANY;
    int rare = 0;
    for (size_t i = 0; i < generate_xml_small_count(); i++) {
        generate_xml_small(i, &c);
        check("small", seed, i, 0);
    }
    for (uint64_t i = 0; i < n; i++) {
        generate_xml_case(seed * 1000003 + i, &c);
        check("seeded", seed, i, 1);
    }
    printf("web.xml, seed %" PRIu64 ": %lu cases agree, %lu give back the listing they were made from; of the %" PRIu64 " seeded ones: refused", seed, cases, meant, n);
    for (size_t i = 0; i < sizeof order / sizeof *order; i++) {
        printf(" %d: %lu,", order[i], refusals[order[i]]);
        rare |= n >= MANY && refusals[order[i]] * 100 < n;
    }
    printf(" accepted %lu\n", refusals[0]);
    rare |= n >= MANY && refusals[0] * 3 < n;
    if (rare) printf("web.xml, seed %" PRIu64 ": a refusal comes in less than one of a hundred cases, or less than a third is accepted\n", seed);
    return rare;
}
