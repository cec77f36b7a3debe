/* Wrong variants of the second implementation (second/wrong) against the right one, on agree.c's seeded cases. sharp SEED CASES prints a line for
 * each variant: its name, and how many cases tell it apart by reading, by deciding and by comparing; the last line has the cases tried of each.
 * A case tells a variant apart as it would in agree.c: by anything handed back, any byte of the answer buffer or any number of the work table.
 * Accepted pairs of over MOST_PAIR bytes are left out: they are few, and most of the time would go to them. */
#include <inttypes.h>
#include <stdio.h>
#include <stdlib.h>
#include <string.h>
#include "../second/generate.h"
#include "../second/second.h"

struct variant {
    const char *name;
    struct second_report (*read)(const uint8_t *, size_t, uint32_t *, size_t);
    struct second_decision (*decide)(const uint8_t *, size_t, const uint8_t *, size_t, const uint8_t *, size_t, uint32_t, const uint8_t *, size_t,
                                     uint32_t *, size_t);
    struct second_comparison (*compare)(const uint8_t *, size_t, const uint8_t *, size_t, uint8_t *, size_t, uint32_t *, size_t);
    unsigned long hits[3];
};

#define WRONG(name)                                                                                                                        \
    struct second_report name##_read(const uint8_t *, size_t, uint32_t *, size_t);                                                         \
    struct second_decision name##_decide(const uint8_t *, size_t, const uint8_t *, size_t, const uint8_t *, size_t, uint32_t,              \
                                         const uint8_t *, size_t, uint32_t *, size_t);                                                     \
    struct second_comparison name##_compare(const uint8_t *, size_t, const uint8_t *, size_t, uint8_t *, size_t, uint32_t *, size_t);
#include "../build/wrong/list.h"
#undef WRONG
#define WRONG(name) { #name, name##_read, name##_decide, name##_compare, { 0, 0, 0 } },
static struct variant right = { "", second_read, second_decide, second_compare, { 0, 0, 0 } }, wrong[] = {
#include "../build/wrong/list.h"
};
enum { VARIANTS = sizeof wrong / sizeof *wrong, MOST_WORK = 8192, MOST_ANSWER = 4096, MOST_PAIR = 16384 };

struct outcome {
    uint64_t back[5]; /* number, side, line, answer, length */
    uint32_t work[MOST_WORK];
    uint8_t answer[MOST_ANSWER];
};
static struct generated c;
static struct outcome lent, expected, got;
static size_t work_len, answer_len;

static void run(const struct variant *v, struct outcome *o) {
    memcpy(o->work, lent.work, work_len * sizeof *o->work);
    memcpy(o->answer, lent.answer, answer_len);
    if (c.kind == GENERATED_READ) {
        struct second_report a = v->read(c.listing, c.listing_len, o->work, work_len);
        memcpy(o->back, (uint64_t[5]){ a.number, a.side, a.line, 0, 0 }, sizeof o->back);
    } else if (c.kind == GENERATED_DECIDE) {
        struct second_decision a = v->decide(c.listing, c.listing_len, c.path, c.path_len, c.method, c.method_len, c.login, c.roles, c.roles_len, o->work, work_len);
        memcpy(o->back, (uint64_t[5]){ a.number, a.side, a.line, a.answer, 0 }, sizeof o->back);
    } else {
        struct second_comparison a = v->compare(c.listing, c.listing_len, c.new_listing, c.new_len, o->answer, answer_len, o->work, work_len);
        memcpy(o->back, (uint64_t[5]){ a.number, a.side, a.line, 0, a.length }, sizeof o->back);
    }
}

static int told_apart(const struct variant *v) {
    run(v, &got);
    return memcmp(got.back, expected.back, sizeof got.back) || memcmp(got.work, expected.work, work_len * sizeof *got.work) ||
           memcmp(got.answer, expected.answer, answer_len);
}

/* Gives whether the case was tried. */
static int try(void) {
    work_len = c.work_len < MOST_WORK ? c.work_len : MOST_WORK;
    answer_len = c.answer_len < MOST_ANSWER ? c.answer_len : MOST_ANSWER;
    for (size_t i = 0; i < work_len; i++) lent.work[i] = generate_garbage_number(c.garbage, i);
    for (size_t i = 0; i < answer_len; i++) lent.answer[i] = generate_garbage_byte(c.garbage, i);
    run(&right, &expected);
    if (c.kind == GENERATED_COMPARE && expected.back[0] == 0 && c.listing_len + c.new_len > MOST_PAIR) return 0;
    for (size_t i = 0; i < VARIANTS; i++)
        wrong[i].hits[c.kind] += told_apart(&wrong[i]);
    return 1;
}

int main(int argc, char **argv) {
    uint64_t seed = argc > 1 ? strtoull(argv[1], 0, 10) : 1, n = argc > 2 ? strtoull(argv[2], 0, 10) : 100000;
    unsigned long tried[3] = { 0, 0, 0 };
    for (uint64_t i = 0; i < n; i++) {
        generate_case(seed * 1000003 + i, &c);
        tried[c.kind] += try();
    }
    for (size_t i = 0; i < VARIANTS; i++) printf("%s %lu %lu %lu\n", wrong[i].name, wrong[i].hits[0], wrong[i].hits[1], wrong[i].hits[2]);
    printf("cases %lu %lu %lu\n", tried[0], tried[1], tried[2]);
    return 0;
}
