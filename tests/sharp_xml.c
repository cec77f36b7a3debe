/* Wrong variants of the second implementation's reading of web.xml (second/wrong/xml) against the right one, on the typed cases (typed_xml.txt) and on
 * agree_xml.c's seeded ones. sharp_xml SEED CASES prints a line for each variant: its name, and how many cases of each tell it apart; the last line has
 * the cases tried. A case tells a variant apart as it would in agree_xml.c: by anything handed back, any byte of the listing buffer or any number of the
 * work table. */
#include <inttypes.h>
#include <stdio.h>
#include <stdlib.h>
#include <string.h>
#include "../second/generate_xml.h"
#include "../second/second.h"
#include "xml_cases.h"

typedef struct second_written call(const uint8_t *, size_t, uint8_t *, size_t, uint32_t *, size_t);
#define WRONG(name) call name##_from_web_xml;
#include "../build/wrong/xml/list.h"
#undef WRONG
#define WRONG(name) { #name, name##_from_web_xml, { 0, 0 } },
static struct variant {
    const char *name;
    call *from_web_xml;
    unsigned long hits[2];
} right = { "", second_from_web_xml, { 0, 0 } }, wrong[] = {
#include "../build/wrong/xml/list.h"
};
enum { VARIANTS = sizeof wrong / sizeof *wrong, MOST_WORK = 8192, MOST_ROOM = GENERATED_LISTING };

struct outcome {
    struct second_written back;
    uint32_t work[MOST_WORK];
    uint8_t room[MOST_ROOM];
};
static struct generated_xml c;
static struct xml_case typed;
static struct outcome lent, expected, got;

static void run(const struct variant *v, struct outcome *o) {
    memcpy(o->work, lent.work, c.work_len * sizeof *o->work);
    memcpy(o->room, lent.room, c.room);
    o->back = v->from_web_xml(c.xml, c.xml_len, o->room, c.room, o->work, c.work_len);
}

static int told_apart(const struct variant *v) {
    run(v, &got);
    return got.back.number != expected.back.number || got.back.side != expected.back.side || got.back.line != expected.back.line ||
           got.back.length != expected.back.length || memcmp(got.work, expected.work, c.work_len * sizeof *got.work) ||
           memcmp(got.room, expected.room, c.room);
}

static void try(int family) {
    for (size_t i = 0; i < c.work_len; i++) lent.work[i] = generate_garbage_number(c.garbage, i);
    for (size_t i = 0; i < c.room; i++) lent.room[i] = generate_garbage_byte(c.garbage, i);
    run(&right, &expected);
    for (size_t i = 0; i < VARIANTS; i++) wrong[i].hits[family] += (unsigned long)told_apart(&wrong[i]);
}

int main(int argc, char **argv) {
    uint64_t seed = argc > 1 ? strtoull(argv[1], 0, 10) : 1, n = argc > 2 ? strtoull(argv[2], 0, 10) : 20000;
    unsigned long cases = 0;
    FILE *f = fopen("tests/typed_xml.txt", "r");
    if (f == NULL) return perror("tests/typed_xml.txt"), 2;
    for (; xml_case_next(f, &typed); cases++) {
        memcpy(c.xml, typed.xml, typed.xml_len);
        c.xml_len = typed.xml_len, c.room = typed.room, c.work_len = typed.work_len, c.garbage = 1;
        try(0);
    }
    fclose(f);
    for (uint64_t i = 0; i < n; i++) {
        generate_xml_case(seed * 1000003 + i, &c);
        try(1);
    }
    for (size_t i = 0; i < VARIANTS; i++) printf("%s %lu %lu\n", wrong[i].name, wrong[i].hits[0], wrong[i].hits[1]);
    printf("cases %lu %" PRIu64 "\n", cases, n);
    return 0;
}
