/* agree.c: runs cases through the literal implementation and the yardstick and
 * compares everything.
 *
 *   agree CASES SEED [small] [large]
 *
 * CASES random cases from SEED; `small`: the exhaustive family of small things
 * too; `large`: the large cases too.  The worked requests of 01 are run first,
 * always.  Exit 1 at the first disagreement, with a dump of the case.
 */
#include "generate.h"
#include "second.h"
#include "yardstick.h"

#include <stdio.h>
#include <stdlib.h>
#include <string.h>

struct outcome {
    uint32_t number, side, line, answer;
    size_t length;
    uint8_t *buffer;                   /* the answer buffer afterwards */
    uint32_t *work;                    /* the work table afterwards */
};

/* Hits, by kind and refusal number; by answer; by verdict. */
struct tally {
    unsigned long cases, number[3][15], answer[6], no_wider, wider_none, wider_role;
};

/* A copy of exactly that length, so that a sanitizer sees the ends; of no bytes
 * sometimes a null pointer. */
static void *copy(const void *from, size_t bytes, uint64_t garbage)
{
    if (bytes == 0 && (garbage & 1) != 0)
        return NULL;
    uint8_t *p = malloc(bytes == 0 ? 1 : bytes);
    if (p == NULL)
        abort();
    if (bytes > 0)
        memcpy(p, from, bytes);
    return p;
}

static int changed(const void *a, const void *b, size_t bytes)
{
    return bytes > 0 && memcmp(a, b, bytes) != 0;
}

static void run(int literal, const struct generated *g, struct outcome *r)
{
    uint8_t *listing = copy(g->listing, g->listing_len, g->garbage);
    uint8_t *second = copy(g->new_listing, g->new_len, g->garbage);
    uint8_t *path = copy(g->path, g->path_len, g->garbage);
    uint8_t *method = copy(g->method, g->method_len, g->garbage);
    uint8_t *roles = copy(g->roles, g->roles_len, g->garbage);
    memset(r, 0, sizeof *r);
    r->work = malloc(g->work_len * sizeof *r->work + (g->work_len == 0));
    r->buffer = malloc(g->answer_len + (g->answer_len == 0));
    if (r->work == NULL || r->buffer == NULL)
        abort();
    for (size_t i = 0; i < g->work_len; i++)
        r->work[i] = generate_garbage_number(g->garbage, i);
    for (size_t i = 0; i < g->answer_len; i++)
        r->buffer[i] = generate_garbage_byte(g->garbage, i);

    switch (g->kind) {
    case GENERATED_READ:
        if (literal) {
            struct second_report a = second_read(listing, g->listing_len, r->work, g->work_len);
            r->number = a.number, r->side = a.side, r->line = a.line;
        } else {
            struct yardstick_report a =
                yardstick_read(listing, g->listing_len, r->work, g->work_len);
            r->number = a.number, r->side = a.side, r->line = a.line;
        }
        break;
    case GENERATED_DECIDE:
        if (literal) {
            struct second_decision a =
                second_decide(listing, g->listing_len, path, g->path_len, method, g->method_len,
                              g->login, roles, g->roles_len, r->work, g->work_len);
            r->number = a.number, r->side = a.side, r->line = a.line, r->answer = a.answer;
        } else {
            struct yardstick_decision a =
                yardstick_decide(listing, g->listing_len, path, g->path_len, method,
                                 g->method_len, g->login, roles, g->roles_len, r->work,
                                 g->work_len);
            r->number = a.number, r->side = a.side, r->line = a.line, r->answer = a.answer;
        }
        break;
    case GENERATED_COMPARE:
        if (literal) {
            struct second_comparison a =
                second_compare(listing, g->listing_len, second, g->new_len, r->buffer,
                               g->answer_len, r->work, g->work_len);
            r->number = a.number, r->side = a.side, r->line = a.line, r->length = a.length;
        } else {
            struct yardstick_comparison a =
                yardstick_compare(listing, g->listing_len, second, g->new_len, r->buffer,
                                  g->answer_len, r->work, g->work_len);
            r->number = a.number, r->side = a.side, r->line = a.line, r->length = a.length;
        }
        break;
    }
    /* what was only lent to be read mustn't change */
    if (changed(listing, g->listing, g->listing_len) ||
        changed(second, g->new_listing, g->new_len) || changed(path, g->path, g->path_len) ||
        changed(method, g->method, g->method_len) || changed(roles, g->roles, g->roles_len)) {
        printf("an input changed\n");
        exit(1);
    }
    free(listing);
    free(second);
    free(path);
    free(method);
    free(roles);
}

static void release(struct outcome *r)
{
    free(r->work);
    free(r->buffer);
}

/* What 01 says of the buffers and numbers of every outcome. */
static const char *broken(const struct generated *g, const struct outcome *r)
{
    for (size_t i = 0; i < g->work_len; i++) {
        uint32_t want = r->number != 1 && i < 4096 ? 0 : generate_garbage_number(g->garbage, i);
        if (r->work[i] != want)
            return "work table";
    }
    if (r->number != 0 && r->length != 0)
        return "length beside a refusal";
    if (r->number != 0 && r->answer != 0)
        return "answer beside a refusal";
    if (r->length > g->answer_len)
        return "length";
    for (size_t i = r->length; i < g->answer_len; i++)
        if (r->buffer[i] != generate_garbage_byte(g->garbage, i))
            return "answer buffer";
    if (r->number == 0 && (r->side != 0 || r->line != 0))
        return "side or line without a refusal";
    if (r->number == 0 && (g->kind == GENERATED_DECIDE) != (r->answer >= 1 && r->answer <= 5))
        return "answer";
    if (r->number == 0 && (g->kind == GENERATED_COMPARE) != (r->length > 0))
        return "no answer's length";
    if ((r->number == 1) != (g->work_len < 4096))
        return "refusal 1";
    switch (r->number) {
    case 0: break;
    case 1: case 11: case 12: case 13: case 14:
        if (r->side != 0 || r->line != 0)
            return "side or line";
        break;
    case 2:
        if (r->side == 0 || r->line != 0)
            return "side or line of 2";
        break;
    case 3: case 4: case 5: case 6: case 7: case 8: case 9: case 10:
        if (r->side == 0 || r->side > 2 || r->line == 0)
            return "side or line of 3 to 10";
        break;
    default:
        return "number";
    }
    return NULL;
}

static const char *differ(const struct generated *g, const struct outcome *a,
                          const struct outcome *b)
{
    if (a->number != b->number || a->side != b->side || a->line != b->line)
        return "refusal";
    if (a->answer != b->answer)
        return "answer";
    if (a->length != b->length)
        return "length";
    if (g->answer_len > 0 && memcmp(a->buffer, b->buffer, g->answer_len) != 0)
        return "answer buffer";
    if (g->work_len > 0 && memcmp(a->work, b->work, g->work_len * sizeof *a->work) != 0)
        return "work table";
    return NULL;
}

static void dump_bytes(const char *name, const uint8_t *s, size_t n)
{
    printf("%s, %zu bytes:\n  ", name, n);
    for (size_t i = 0; i < n; i++) {
        if (s[i] == 10)
            printf("\\n\n  ");
        else if (s[i] == 9)
            printf("\\t");
        else if (s[i] == '\\')
            printf("\\\\");
        else if (s[i] < 32 || s[i] > 126)
            printf("\\x%02x", s[i]);
        else
            putchar(s[i]);
    }
    printf("\n");
}

static void dump_outcome(const char *name, const struct outcome *r)
{
    printf("%s: number %u side %u line %u answer %u length %zu\n", name, r->number, r->side,
           r->line, r->answer, r->length);
    if (r->length > 0)
        dump_bytes("  answer buffer", r->buffer, r->length);
}

static void dump(const char *family, unsigned long long which, const char *what,
                 const struct generated *g, const struct outcome *a, const struct outcome *b)
{
    static const char *const kinds[3] = { "read", "decide", "compare" };
    printf("DISAGREEMENT (%s): %s case %llu, kind %s\n", what, family, which, kinds[g->kind]);
    printf("work table %zu numbers, answer buffer %zu bytes\n", g->work_len, g->answer_len);
    dump_bytes(g->kind == GENERATED_COMPARE ? "old listing" : "listing", g->listing,
               g->listing_len);
    if (g->kind == GENERATED_COMPARE)
        dump_bytes("new listing", g->new_listing, g->new_len);
    if (g->kind == GENERATED_DECIDE) {
        dump_bytes("path", g->path, g->path_len);
        dump_bytes("method", g->method, g->method_len);
        printf("login %u\n", g->login);
        dump_bytes("roles", g->roles, g->roles_len);
    }
    dump_outcome("literal", a);
    dump_outcome("yardstick", b);
    exit(1);
}

static void check(const char *family, unsigned long long which, const struct generated *g,
                  struct tally *t)
{
    struct outcome a, b;
    run(1, g, &a);
    run(0, g, &b);
    const char *what = broken(g, &a);
    if (what == NULL)
        what = differ(g, &a, &b);
    if (what != NULL)
        dump(family, which, what, g, &a, &b);
    t->cases++;
    t->number[g->kind][a.number]++;
    if (a.number == 0 && g->kind == GENERATED_DECIDE)
        t->answer[a.answer]++;
    if (a.number == 0 && g->kind == GENERATED_COMPARE) {
        if (memcmp(a.buffer, "verdict\tno", 10) == 0)
            t->no_wider++;
        else if (a.length >= 12 && memcmp(a.buffer + a.length - 12, "caller\tnone\n", 12) == 0)
            t->wider_none++;
        else
            t->wider_role++;
    }
    release(&a);
    release(&b);
}

static void report(const char *name, const struct tally *t)
{
    static const char *const kinds[3] = { "read", "decide", "compare" };
    static const char *const answers[6] = {
        "", "open", "by role", "closed", "login wanted", "role lacking"
    };
    printf("%s: %lu cases agree\n", name, t->cases);
    for (int k = 0; k < 3; k++) {
        printf("  %-8s", kinds[k]);
        printf(" accepted %lu;", t->number[k][0]);
        for (int n = 1; n < 15; n++)
            printf(" %d: %lu", n, t->number[k][n]);
        printf("\n");
    }
    printf("  answers ");
    for (int n = 1; n < 6; n++)
        printf(" %s %lu%s", answers[n], t->answer[n], n < 5 ? "," : "\n");
    printf("  verdicts no wider %lu, wider for none %lu, wider for a role %lu\n", t->no_wider,
           t->wider_none, t->wider_role);
}

/* --------------------------------------------------- the worked requests */

static const char LISTING_L[] =
    "constraints\t1\nrole\tadjuster\nrole\tassessor\nrole\towner\n"
    "constraint\tauth\ncollection\npattern\t/*\nmethod\tDELETE\n"
    "constraint\tauth\nallow\tassessor\ncollection\npattern\t/clock/*\nomit\tGET\n"
    "constraint\tauth\nallow\tadjuster\ncollection\npattern\t/clock/*\nmethod\tPUT\n"
    "constraint\topen\ncollection\npattern\t*.csv\n"
    "constraint\tauth\nallow\t*\ncollection\npattern\t/clock/offset\nmethod\tGET\nend\n";
static const char LISTING_11[] =
    "constraints\t1\nconstraint\tauth\nallow\t*\ncollection\npattern\t/a/*\n"
    "constraint\tauth\nallow\tadjuster\ncollection\npattern\t/a/*\nend\n";

static const struct {
    const char *path, *method, *role;
    uint32_t answer;
} WORKED[11] = {
    { "/x", "DELETE", "adjuster\n", SECOND_CLOSED },
    { "/x", "GET", NULL, SECOND_OPEN },
    { "/clock", "PUT", "adjuster\n", SECOND_BY_ROLE },
    { "/clock/a", "GET", NULL, SECOND_OPEN },
    { "/clock/a", "DELETE", "assessor\n", SECOND_BY_ROLE },
    { "/clockwork", "DELETE", "assessor\n", SECOND_CLOSED },
    { "/clock/offset", "PUT", NULL, SECOND_OPEN },
    { "/clock/offset", "GET", NULL, SECOND_LOGIN_WANTED },
    { "/log.csv", "DELETE", "assessor\n", SECOND_CLOSED },
    { "/clock/a", "PUT", "owner\n", SECOND_ROLE_LACKING },
    { "/a/b", "GET", "adjuster\n", SECOND_BY_ROLE }
};

#define OLD_12 "constraints\t1\nrole\tassessor\nconstraint\tauth\nallow\tassessor\n" \
               "collection\npattern\t/clock/*\n"
#define MORE_12 "constraint\tauth\nallow\tassessor\ncollection\npattern\t/clock/offset\nmethod\tGET\n"
static const char ANSWER_12[] =
    "verdict\twider\npath\t/clock/offset\nmethod\tQ0\ncaller\tnone\n";

static size_t set(uint8_t *to, const char *s)
{
    size_t n = s == NULL ? 0 : strlen(s);
    if (n > 0)
        memcpy(to, s, n);
    return n;
}

static void worked(struct generated *g, struct tally *t)
{
    struct outcome r;
    for (unsigned i = 0; i < 12; i++) {
        memset(g, 0, sizeof *g);
        g->work_len = 4096;
        if (i < 11) {
            g->kind = GENERATED_DECIDE;
            g->listing_len = set(g->listing, i < 10 ? LISTING_L : LISTING_11);
            g->path_len = set(g->path, WORKED[i].path);
            g->method_len = set(g->method, WORKED[i].method);
            g->login = WORKED[i].role != NULL;
            g->roles_len = set(g->roles, WORKED[i].role);
        } else {
            g->kind = GENERATED_COMPARE;
            g->listing_len = set(g->listing, OLD_12 "end\n");
            g->new_len = set(g->new_listing, OLD_12 MORE_12 "end\n");
            g->answer_len = 1024;
        }
        run(1, g, &r);
        if (r.number != 0 || (i < 11 ? r.answer != WORKED[i].answer
                                     : r.length != sizeof ANSWER_12 - 1 ||
                                       memcmp(r.buffer, ANSWER_12, r.length) != 0)) {
            printf("worked request %u fails\n", i + 1);
            dump_outcome("literal", &r);
            exit(1);
        }
        release(&r);
        check("worked", i + 1, g, t);
    }
}

int main(int argc, char **argv)
{
    static struct generated g;
    unsigned long cases = argc > 1 ? strtoul(argv[1], NULL, 10) : 1000;
    unsigned long long seed = argc > 2 ? strtoull(argv[2], NULL, 10) : 1;
    struct tally t;

    memset(&t, 0, sizeof t);
    worked(&g, &t);
    report("worked requests of 01", &t);
    for (int a = 3; a < argc; a++) {
        memset(&t, 0, sizeof t);
        if (strcmp(argv[a], "small") == 0) {
            for (size_t i = 0; i < generate_small_count(); i++) {
                generate_small(i, &g);
                check("small", i, &g, &t);
            }
            report("small things", &t);
        } else if (strcmp(argv[a], "large") == 0) {
            for (size_t i = 0; i < generate_large_count(); i++) {
                generate_large(i, &g);
                check("large", i, &g, &t);
            }
            report("large things", &t);
        }
    }
    memset(&t, 0, sizeof t);
    for (unsigned long i = 0; i < cases; i++) {
        uint64_t one = seed * 1000000007u + i;
        generate_case(one, &g);
        check("random", one, &g, &t);
    }
    printf("seed %llu, ", seed);
    report("random cases", &t);
    return 0;
}
