/* What comparing and deciding promise, tried on random requests, every request decided by the literal second implementation (second.c) and the
 * verdict its own too. properties SEED CASES; exit 1, with the seed and the case, at the first property that fails. On the seeded cases of agree.c:
 *   - a pair that compares as no wider: none of PER_PAIR requests is granted by new and denied by old;
 *   - a pair that compares as wider: the shown request is granted by new and denied by old, and on its path no earlier method or caller is;
 *   - a single listing: a caller who logs in, or gets further names, never loses a grant, and a name said again changes nothing;
 *   - a single listing: a path without parameters is answered the same with parameters put behind its segments. Every path with parameters is
 *     such a one, made of the path that dropping them leaves: so a request is answered as its dropped path is. */
#include <inttypes.h>
#include <stdio.h>
#include <stdlib.h>
#include <string.h>
#include "../second/generate.h"
#include "../second/second.h"

enum { PER_PAIR = 2000, PER_LISTING = 40, MOST_PAIR = 16384, MOST_LISTING = 8192, MOST_FIELDS = 2048, WORK = 4096, MOST_NAMES = 32 };
struct text {
    const uint8_t *at;
    size_t length;
};
struct fields {
    struct text field[MOST_FIELDS];
    size_t count;
};
struct request {
    uint8_t path[2048], method[64], roles[4096];
    size_t path_len, method_len, roles_len;
    uint32_t login;
};

static struct generated c;
static struct request q;
static struct fields patterns, extensions, methods, names;
static uint32_t work[WORK];
static uint64_t state, seed, at;
static unsigned long no_wider, wider, listings, requests, granted, denied_by_old, earlier, widened, marked;

static unsigned below(unsigned n) {
    uint64_t z = state += 0x9e3779b97f4a7c15u;
    z = (z ^ (z >> 30)) * 0xbf58476d1ce4e5b9u;
    z = (z ^ (z >> 27)) * 0x94d049bb133111ebu;
    return (unsigned)(((z ^ (z >> 31)) >> 32) * n >> 32);
}

static struct text text_of(const char *s) {
    return (struct text){ (const uint8_t *)s, strlen(s) };
}

static int same(struct text a, struct text b) {
    return a.length == b.length && !memcmp(a.at, b.at, a.length);
}

/* ---- the texts of the listings, each once, by first appearance */

static void enter(struct fields *f, struct text t) {
    for (size_t i = 0; i < f->count; i++)
        if (same(f->field[i], t)) return;
    if (f->count < MOST_FIELDS) f->field[f->count++] = t;
}

static void collect(const uint8_t *listing, size_t length) {
    for (size_t i = 0; i < length;) {
        size_t tab = i, stop;
        while (listing[tab] != 9 && listing[tab] != 10) tab++;
        for (stop = tab; listing[stop] != 10;) stop++;
        struct text record = { listing + i, tab - i }, field = { listing + tab + 1, stop > tab ? stop - tab - 1 : 0 };
        i = stop + 1;
        if (same(record, text_of("pattern"))) {
            enter(&patterns, field);
            if (field.length > 2 && field.at[0] == '*') enter(&extensions, (struct text){ field.at + 2, field.length - 2 });
        }
        if (same(record, text_of("method")) || same(record, text_of("omit"))) enter(&methods, field);
        if (same(record, text_of("role")) || (same(record, text_of("allow")) && !same(field, text_of("*")))) enter(&names, field);
    }
}

/* ---- random requests around those texts */

static void add(uint8_t *to, size_t *length, size_t most, struct text t) {
    if (t.length > most - *length) t.length = most - *length;
    memcpy(to + *length, t.at, t.length);
    *length += t.length;
}

static struct text one_of(const struct fields *f, const char *otherwise) {
    return f->count > 0 && below(8) > 0 ? f->field[below((unsigned)f->count)] : text_of(otherwise);
}

static void add_path(struct text t) { add(q.path, &q.path_len, 1024, t); }

/* A pattern as the start of a path. */
static void start_path(void) {
    struct text p = one_of(&patterns, "/zz");
    q.path_len = 0;
    if (p.length >= 2 && p.at[0] == '*') {
        static const char *const stems[] = { "/", "/x", "/q0", "/x/y", "/x.y", "/q0/q1", "/a.b/c" };
        add_path(text_of(stems[below(7)]));
        add_path(text_of("."));
        p.at += 2, p.length -= 2;
    } else if (p.length >= 2 && below(8) > 0 && !memcmp(p.at + p.length - 2, "/*", 2)) {
        p.length -= 2;
    }
    add_path(p);
}

static void lengthen_path(void) {
    static const char *const tails[] = { "/", "/q0", "/q7", "/x", ".", "x", "/*", "..", "//", "=a", "/.", "*" };
    switch (below(6)) {
    case 0:
    case 1:
        add_path(text_of(tails[below(12)]));
        break;
    case 2:
        add_path(text_of("/q0"));
        /* fall through */
    case 3:
        add_path(text_of("."));
        add_path(one_of(&extensions, "zz"));
        break;
    case 4:
        add_path(one_of(&patterns, "/zz"));
        break;
    default: {
        /* a segment of a pattern */
        struct text p = one_of(&patterns, "/zz");
        size_t from = p.length > 0 ? below((unsigned)p.length) : 0, to = from + (from < p.length);
        while (from > 0 && p.at[from] != '/') from--;
        while (to < p.length && p.at[to] != '/') to++;
        add_path((struct text){ p.at + from, to - from });
        break;
    }
    }
}

static void bend_path(void) {
    if (q.path_len < 2) return;
    size_t i = 1 + below((unsigned)q.path_len - 1);
    for (unsigned tries = 0; tries < 8 && q.path[i] != '.' && q.path[i] != '/'; tries++) i = 1 + below((unsigned)q.path_len - 1);
    uint8_t b = q.path[i];
    switch (below(5)) {
    case 0:
        q.path_len = i;
        break;
    case 1:
        memmove(q.path + i, q.path + i + 1, --q.path_len - i);
        break;
    case 2:
        if (q.path_len == 1024) break;
        memmove(q.path + i + 1, q.path + i, q.path_len++ - i);
        break;
    case 3:
        q.path[i] = q.path[i - 1];
        q.path[i - 1] = b;
        break;
    default:
        q.path[i] = b == '.' ? '/' : b == '/' ? '.' : b ^ 32 ? b ^ 32 : 'x';
        if (q.path[i] < 32 || q.path[i] == 127) q.path[i] = 'x';
        break;
    }
}

static void make_plain_path(void) {
    start_path();
    for (unsigned n = below(3); n > 0; n--) lengthen_path();
    if (below(10) < 3) bend_path();
    if (q.path_len == 0 || q.path[0] != '/') {
        memmove(q.path + 1, q.path, q.path_len < 1024 ? q.path_len++ : 1023);
        q.path[0] = '/';
    }
}

/* A `;` and up to seven bytes, none of them a `/`; now and then as many as there is room for. */
static void add_parameter(uint8_t *to, size_t *length, size_t most) {
    static const char bytes[] = ";.=aq0*%x \xe9";
    size_t n = below(20) > 0 ? below(8) : most;
    add(to, length, most, text_of(";"));
    for (; n > 0 && *length < most; n--) to[(*length)++] = (uint8_t)bytes[below(sizeof bytes - 1)];
}

/* Parameters behind some of the segments, as far as a path has room. */
static void mark_path(void) {
    uint8_t plain[1024];
    size_t n = q.path_len, at_most = 1 + below(4);
    memcpy(plain, q.path, n);
    q.path_len = 0;
    for (size_t i = 0; i < n; i++) {
        q.path[q.path_len++] = plain[i];
        int ends = i + 1 == n || plain[i + 1] == '/';
        if (ends && at_most > 0 && below(2) > 0) add_parameter(q.path, &q.path_len, 1024 - (n - i - 1)), at_most--;
    }
}

static void make_path(void) {
    make_plain_path();
    if (below(4) == 0) mark_path();
}

static void make_method(void) {
    static const char *const others[] = { "GET", "get", "PUT", "Q0", "Q1", "Q12", "ZZ", "*", "G" };
    q.method_len = 0;
    add(q.method, &q.method_len, 24, one_of(&methods, others[below(9)]));
    switch (below(8)) {
    case 0:
        add(q.method, &q.method_len, 24, text_of("X"));
        break;
    case 1:
        if (q.method_len > 1) q.method_len--;
        break;
    case 2:
        for (size_t i = 0; i < q.method_len; i++)
            if ((q.method[i] | 32) >= 'a' && (q.method[i] | 32) <= 'z') q.method[i] ^= 32;
        break;
    default:
        break;
    }
}

/* A name of either listing, of neither, or nearly one. */
static void add_name(void) {
    static const char *const others[] = { "nobody", "zz", "**", "none" };
    uint8_t name[64];
    size_t n = 0;
    add(name, &n, 64, one_of(&names, others[below(4)]));
    if (below(10) == 0) add(name, &n, 64, text_of("x"));
    if (below(10) == 0 && n > 1 && name[n - 2] != ' ' && !(n == 2 && name[0] == '*')) n--;
    add(q.roles, &q.roles_len, sizeof q.roles, (struct text){ name, n });
    add(q.roles, &q.roles_len, sizeof q.roles, text_of("\n"));
}

static void make_caller(void) {
    unsigned n = below(4) > 0 ? below(4) : below(MOST_NAMES + 1);
    q.roles_len = 0;
    q.login = below(5) > 0;
    for (unsigned i = 0; q.login && i < n; i++) add_name();
}

/* ---- the properties */

static void fail(const char *what) {
    printf("seed %" PRIu64 ", case %" PRIu64 ": %s; path %.*s method %.*s login %u, names:\n%.*s", seed, at, what, (int)q.path_len, q.path,
           (int)q.method_len, q.method, q.login, (int)q.roles_len, q.roles);
    exit(1);
}

static uint32_t ask(const uint8_t *listing, size_t length) {
    struct second_decision d =
        second_decide(listing, length, q.path, q.path_len, q.method, q.method_len, q.login, q.roles, q.roles_len, work, WORK);
    if (d.number != 0) fail("a request that is refused");
    return d.answer;
}

static int grants(const uint8_t *listing, size_t length) {
    uint32_t answer = ask(listing, length);
    return answer == SECOND_OPEN || answer == SECOND_BY_ROLE;
}

static int is_wider(void) {
    return grants(c.new_listing, c.new_len) && !grants(c.listing, c.listing_len);
}

static void check_no_wider(void) {
    no_wider++;
    for (unsigned i = 0; i < PER_PAIR; i++) {
        make_path();
        make_method();
        make_caller();
        requests++;
        int by_new = grants(c.new_listing, c.new_len), by_old = grants(c.listing, c.listing_len);
        granted += by_new;
        denied_by_old += !by_old;
        if (by_new && !by_old) fail("no wider, but new grants this and old denies it");
    }
}

/* The text between `start` and the next byte 10; moves behind it. */
static struct text line_of(struct text *answer, const char *start) {
    size_t n = strlen(start), stop = n;
    if (answer->length < n || memcmp(answer->at, start, n)) fail("an answer not of four lines");
    while (stop < answer->length && answer->at[stop] != 10) stop++;
    if (stop == answer->length) fail("an answer with an unended line");
    struct text t = { answer->at + n, stop - n };
    answer->at += stop + 1, answer->length -= stop + 1;
    return t;
}

static void set_caller(const struct text *name) {
    q.login = name != NULL;
    q.roles_len = 0;
    if (name == NULL) return;
    add(q.roles, &q.roles_len, sizeof q.roles, *name);
    add(q.roles, &q.roles_len, sizeof q.roles, text_of("\n"));
}

/* Whether the method and caller set are wider, counted as one tried before the shown. */
static void check_earlier(void) {
    earlier++;
    if (is_wider()) fail("wider, and this method and caller come before the shown ones");
}

static void check_wider(struct text answer) {
    wider++;
    line_of(&answer, "verdict\twider");
    struct text path = line_of(&answer, "path\t"), method = line_of(&answer, "method\t"), caller = line_of(&answer, "caller\t"), role = caller;
    int logged_in = !same(caller, text_of("none"));
    if (answer.length != 0 || (logged_in && (caller.length < 5 || memcmp(caller.at, "role\t", 5)))) fail("an answer not of four lines");
    role.at += 5, role.length -= logged_in ? 5 : 0;
    q.path_len = q.method_len = 0;
    add_path(path);
    add(q.method, &q.method_len, 24, method);
    set_caller(logged_in ? &role : NULL);
    if (!is_wider()) fail("wider, but the shown request is not granted by new and denied by old");

    /* methods and names stand in 01's order: those of new were collected first */
    for (size_t k = 0; logged_in && (k == 0 || !same(names.field[k - 1], role)); k++) {
        set_caller(k == 0 ? NULL : &names.field[k - 1]);
        check_earlier();
        if (k == names.count) fail("wider, but the shown role is of neither listing");
    }
    for (size_t m = 0; m < methods.count && !same(methods.field[m], method); m++) {
        q.method_len = 0;
        add(q.method, &q.method_len, 24, methods.field[m]);
        for (size_t k = 0; k <= names.count; k++) {
            set_caller(k == 0 ? NULL : &names.field[k - 1]);
            check_earlier();
        }
    }
}

static void check_callers(void) {
    listings++;
    for (unsigned i = 0; i < PER_LISTING; i++) {
        make_path();
        make_method();
        set_caller(NULL);
        int before = grants(c.listing, c.listing_len);
        q.login = 1;
        for (unsigned n = 0; n <= 6; n++) {
            int now = grants(c.listing, c.listing_len);
            widened += now && !before;
            if (before && !now) fail("a grant was lost with this login or last name");
            before = now;
            add_name();
        }
        /* the first name again, in front and behind */
        uint32_t answer = ask(c.listing, c.listing_len);
        size_t n = (size_t)((uint8_t *)memchr(q.roles, 10, q.roles_len) - q.roles) + 1;
        memmove(q.roles + n, q.roles, q.roles_len);
        memcpy(q.roles + n + q.roles_len, q.roles, n);
        q.roles_len += 2 * n;
        if (ask(c.listing, c.listing_len) != answer) fail("a name said again changed the answer");
    }
}

static void check_parameters(void) {
    for (unsigned i = 0; i < PER_LISTING; i++) {
        make_plain_path();
        make_method();
        make_caller();
        uint32_t answer = ask(c.listing, c.listing_len);
        for (unsigned n = 0; n < 2; n++) { /* the second time behind parameters that are there */
            mark_path();
            marked++;
            if (ask(c.listing, c.listing_len) != answer) fail("parameters changed the answer");
        }
    }
}

static void check_case(void) {
    static uint8_t answer[1024];
    state = seed * 0x2545f4914f6cdd1du + at;
    patterns.count = extensions.count = methods.count = names.count = 0;
    if (c.kind != GENERATED_COMPARE) {
        if (c.listing_len > MOST_LISTING || second_read(c.listing, c.listing_len, work, WORK).number != 0) return;
        collect(c.listing, c.listing_len);
        check_callers();
        check_parameters();
        return;
    }
    /* a listing compared with itself would tell nothing, and large pairs would take most of the time */
    if (c.listing_len + c.new_len > MOST_PAIR || (c.listing_len == c.new_len && !memcmp(c.listing, c.new_listing, c.new_len))) return;
    struct second_comparison d = second_compare(c.listing, c.listing_len, c.new_listing, c.new_len, answer, sizeof answer, work, WORK);
    if (d.number != 0) return;
    collect(c.new_listing, c.new_len);
    collect(c.listing, c.listing_len);
    struct text t = { answer, d.length };
    if (same(t, text_of("verdict\tno wider\n")))
        check_no_wider();
    else
        check_wider(t);
}

int main(int argc, char **argv) {
    seed = argc > 1 ? strtoull(argv[1], 0, 10) : 1;
    uint64_t n = argc > 2 ? strtoull(argv[2], 0, 10) : 4000;
    for (at = 0; at < n; at++) {
        generate_case(seed * 1000003 + at, &c);
        check_case();
    }
    printf("seed %" PRIu64 ": %lu pairs no wider, %lu requests (%lu granted by new, %lu denied by old), none wider; %lu pairs wider, each by the "
           "shown request, and by none of %lu before it; %lu listings, no grant lost with a login or a name (%lu won), no answer changed by the "
           "parameters of %lu paths\n",
           seed, no_wider, requests, granted, denied_by_old, wider, earlier, listings, widened, marked);
    return 0;
}
