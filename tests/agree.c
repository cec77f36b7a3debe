/* The proved calls against the independent second implementation, on generated cases: everything handed back, every byte of the answer buffer
 * and every number of the work table, those past what is written and a few past what is lent too. agree SEED CASES; exit 1 at the first
 * disagreement, and in a run of 100,000 cases or more if a refusal, an answer or a verdict comes fewer than 1,000 times.
 *
 * The second implementation is the literal one (second.c), but on the large comparing cases the yardstick: there the literal one tries every
 * caller and takes seconds. That these two agree, on the large cases too, is what second/agree.c checks. */
#include <inttypes.h>
#include <stdio.h>
#include <stdlib.h>
#include <string.h>
#include "../include/budquarry.h"
#include "../second/generate.h"
#include "../second/second.h"
#include "../second/yardstick.h"

enum { MOST_WORK = 8192, MOST_ANSWER = 4096, GUARD = 16, MANY = 100000, ENOUGH = 1000 };
static struct generated c;
static uint32_t mine[MOST_WORK + GUARD], theirs[MOST_WORK + GUARD];
static uint8_t my_answer[MOST_ANSWER + GUARD], their_answer[MOST_ANSWER + GUARD];
static size_t work_len, answer_len;

/* Hits of the seeded cases, each case counted once, by its own call. */
enum { NO_WIDER, WIDER_FOR_NONE, WIDER_FOR_A_ROLE, VERDICTS };
static unsigned long refusals[15], answers[6], verdicts[VERDICTS], cases;

static void lend(void) {
    for (size_t i = 0; i < work_len + GUARD; i++) mine[i] = theirs[i] = generate_garbage_number(c.garbage, i);
    for (size_t i = 0; i < answer_len + GUARD; i++) my_answer[i] = their_answer[i] = generate_garbage_byte(c.garbage, i);
}

static int same_buffers(void) {
    return !memcmp(mine, theirs, (work_len + GUARD) * sizeof *mine) && !memcmp(my_answer, their_answer, answer_len + GUARD);
}

static int same_read(const uint8_t *listing, size_t listing_len, uint32_t *number) {
    lend();
    struct budquarry_report a = budquarry_read(listing, listing_len, mine, work_len);
    struct second_report b = second_read(listing, listing_len, theirs, work_len);
    *number = b.number;
    return a.number == b.number && a.side == b.side && a.line == b.line && same_buffers();
}

static int same_decide(uint32_t *number, uint32_t *answer) {
    lend();
    struct budquarry_decision a = budquarry_decide(c.listing, c.listing_len, c.path, c.path_len, c.method, c.method_len, c.login, c.roles, c.roles_len, mine, work_len);
    struct second_decision b = second_decide(c.listing, c.listing_len, c.path, c.path_len, c.method, c.method_len, c.login, c.roles, c.roles_len, theirs, work_len);
    *number = b.number;
    *answer = b.answer;
    return a.number == b.number && a.side == b.side && a.line == b.line && a.answer == b.answer && same_buffers();
}

static int verdict(size_t length) {
    static const char none[] = "\ncaller\tnone\n";
    size_t n = sizeof none - 1;
    if (!memcmp(their_answer, "verdict\tno wider\n", 17)) return NO_WIDER;
    return length >= n && !memcmp(their_answer + length - n, none, n) ? WIDER_FOR_NONE : WIDER_FOR_A_ROLE;
}

static int same_compare(int large, uint32_t *number, int *found) {
    lend();
    struct budquarry_comparison a = budquarry_compare(c.listing, c.listing_len, c.new_listing, c.new_len, my_answer, answer_len, mine, work_len);
    struct second_comparison b;
    if (large) {
        struct yardstick_comparison y = yardstick_compare(c.listing, c.listing_len, c.new_listing, c.new_len, their_answer, answer_len, theirs, work_len);
        b = (struct second_comparison){ y.number, y.side, y.line, y.length };
    } else {
        b = second_compare(c.listing, c.listing_len, c.new_listing, c.new_len, their_answer, answer_len, theirs, work_len);
    }
    *number = b.number;
    *found = verdict(b.length);
    return a.number == b.number && a.side == b.side && a.line == b.line && a.length == b.length && same_buffers();
}

/* Every case is also read, both listings of a pair. Gives the call on which the two disagree. */
static const char *disagreement(int large, int counted) {
    uint32_t number, new_number, answer = 0;
    int found = 0;
    work_len = c.work_len < MOST_WORK ? c.work_len : MOST_WORK;
    answer_len = c.answer_len < MOST_ANSWER ? c.answer_len : MOST_ANSWER;
    if (!same_read(c.listing, c.listing_len, &number)) return "read";
    if (c.kind == GENERATED_DECIDE && !same_decide(&number, &answer)) return "decide";
    if (c.kind == GENERATED_COMPARE) {
        if (!same_read(c.new_listing, c.new_len, &new_number)) return "read, the new listing,";
        if (!same_compare(large, &number, &found)) return "compare";
    }
    cases++;
    if (!counted) return NULL;
    refusals[number]++;
    if (number == 0 && c.kind == GENERATED_DECIDE) answers[answer]++;
    if (number == 0 && c.kind == GENERATED_COMPARE) verdicts[found]++;
    return NULL;
}

static void check(const char *family, uint64_t seed, uint64_t at) {
    const char *call = disagreement(!strcmp(family, "large"), !strcmp(family, "seeded"));
    if (call == NULL) return;
    printf("seed %" PRIu64 ": the two disagree on %s, case %" PRIu64 " of the %s cases\n", seed, call, at, family);
    exit(1);
}

/* Prints a count; gives whether it is too small. */
static int few(const char *what, unsigned long hits, uint64_t n) {
    printf(" %s %lu,", what, hits);
    return n >= MANY && hits < ENOUGH;
}

int main(int argc, char **argv) {
    static const char *const answer_names[6] = { "", "open", "by role", "closed", "login wanted", "role lacking" };
    static const char *const verdict_names[VERDICTS] = { "no wider", "wider for none", "wider for a role" };
    uint64_t seed = argc > 1 ? strtoull(argv[1], 0, 10) : 1, n = argc > 2 ? strtoull(argv[2], 0, 10) : MANY;
    for (size_t i = 0; i < generate_small_count(); i++) {
        generate_small(i, &c);
        check("small", seed, i);
    }
    for (size_t i = 0; i < generate_large_count(); i++) {
        generate_large(i, &c);
        check("large", seed, i);
    }
    for (uint64_t i = 0; i < n; i++) {
        generate_case(seed * 1000003 + i, &c);
        check("seeded", seed, i);
    }
    int rare = 0;
    printf("seed %" PRIu64 ": %lu cases agree; of the %" PRIu64 " seeded ones: refused", seed, cases, n);
    for (int i = 1; i < 15; i++) {
        char number[16];
        snprintf(number, sizeof number, "%d:", i);
        rare |= few(number, refusals[i], n);
    }
    for (int i = 1; i < 6; i++) rare |= few(answer_names[i], answers[i], n);
    for (int i = 0; i < VERDICTS; i++) rare |= few(verdict_names[i], verdicts[i], n);
    printf(" accepted in all %lu\n", refusals[0]);
    if (rare) printf("seed %" PRIu64 ": one of these comes fewer than %d times\n", seed, ENOUGH);
    return rare;
}
