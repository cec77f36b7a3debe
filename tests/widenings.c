/* What `budquarry compare --all` lists, against a walk through all of 01's trials that is made here from 01's text, each request decided by the
 * literal second implementation (second.c). widenings SEED CASES; exit 1, with the case, at the first difference. On the edge pairs below, on
 * seeded pairs, and on large pairs, of which at most SAMPLES trials are picked:
 *   - every trial (path, method, caller) that is wider is in a line of the list, and every trial that isn't is in none;
 *   - a path that is no trial is answered like the trial with the same closest patterns, for which it is said to stand;
 *   - with some lines of the list taken as accepted, the trials in them are passed over and no others are; with the list of the pair before, what of it
 *     is told as gone is what is not wider here;
 *   - the list has no path but those that are wider, each once, in 01's order, and the count that is said beside a verdict is theirs. */
#define _POSIX_C_SOURCE 200809L
#include <inttypes.h>
#include <stdio.h>
#include <stdlib.h>
#include <string.h>
#include "../command/accept.h"
#include "../second/generate.h"
#include "../second/second.h"

enum { WALKED = 6000, SAMPLES = 2000, WORK = 4096, MOST_LINES = 70000, MOST_PATHS = 40000 };

struct line { /* of the list */
    struct text path, methods, who;
};
struct walk { /* the trials, as 01 writes them down: a path as often as it comes */
    struct text path[MOST_PATHS], method[64], caller[65];
    size_t paths, methods, callers;
};

static struct listing old, new;
static struct trials trials;
static struct walk walk;
static struct line lines[MOST_LINES];
static size_t line_count;
static uint32_t work[WORK];
static char room[1 << 25];
static size_t room_len;
static uint64_t state;
static const char *what = "";
static uint64_t at;
static unsigned long pairs, requests, wider, anyone, by_role, passed, gone_lines, alike;

static unsigned below(unsigned n) {
    uint64_t z = state += 0x9e3779b97f4a7c15u;
    z = (z ^ (z >> 30)) * 0xbf58476d1ce4e5b9u;
    z = (z ^ (z >> 27)) * 0x94d049bb133111ebu;
    return (unsigned)(((z ^ (z >> 31)) >> 32) * n >> 32);
}

static void fail(const char *why, struct text path, struct text method, struct text caller) {
    printf("widenings: %s %" PRIu64 ": %s: path %.*s, method %.*s, caller %.*s\n", what, at, why, (int)path.len, path.at, (int)method.len, method.at,
           (int)caller.len, caller.at);
    exit(1);
}

static const struct text nothing = {(const uint8_t *)"", 0};

/* ---- the walk */

static struct text made(struct text a, const char *b, struct text c) {
    size_t start = room_len;
    memcpy(room + room_len, a.at, a.len), room_len += a.len;
    memcpy(room + room_len, b, strlen(b)), room_len += strlen(b);
    memcpy(room + room_len, c.at, c.len), room_len += c.len;
    return (struct text){(uint8_t *)room + start, room_len - start};
}

/* Calls for each `name<tab>FIELD` of new, then of old. */
static void each(const char *name, void found(struct text)) {
    const struct listing *both_listings[] = {&new, &old};
    for (int k = 0; k < 2; k++)
        for (size_t i = 0, stop; i < both_listings[k]->len; i = stop + 1) {
            const uint8_t *b = both_listings[k]->bytes;
            for (stop = i; b[stop] != 10;) stop++;
            size_t n = strlen(name);
            if (stop - i > n && !memcmp(b + i, name, n) && b[i + n] == 9) found((struct text){b + i + n + 1, stop - i - n - 1});
        }
}

static char filler[16];
static struct text stem, patterns[256];
static size_t pattern_count;

static void keep_pattern(struct text p) { patterns[pattern_count++] = p; }

static int is_inside(const char *inner, struct text t) {
    size_t n = strlen(inner);
    for (const uint8_t *p = t.at, *end = t.at + t.len; (p = memchr(p, inner[0], (size_t)(end - p))); p++)
        if ((size_t)(end - p) >= n && !memcmp(p, inner, n)) return 1;
    return 0;
}

static void choose_filler(void) {
    size_t i;
    unsigned n = 0;
    pattern_count = 0;
    each("pattern", keep_pattern);
    do {
        snprintf(filler, sizeof filler, "q%u", n++);
        for (i = 0; i < pattern_count && !is_inside(filler, patterns[i]);) i++;
    } while (i < pattern_count);
}

static void add_path(struct text p) { walk.path[walk.paths++] = p; }

static void add_ending(struct text p) {
    if (p.len > 2 && p.at[0] == '*') add_path(made(made(stem, "/", text_of(filler)), ".", (struct text){p.at + 2, p.len - 2}));
}

static void add_pattern(struct text p) {
    if (!p.len) {
        add_path(text_of("/"));
    } else if (p.at[0] == '*') {
        stem = nothing;
        add_ending(p);
    } else if (p.len == 1) {
        add_path(made(nothing, "/", text_of(filler)));
    } else if (!memcmp(p.at + p.len - 2, "/*", 2)) {
        stem = (struct text){p.at, p.len - 2};
        struct text s = stem;
        add_path(made(s, "/", text_of(filler)));
        each("pattern", add_ending);
    } else {
        add_path(p);
    }
}

static void add_method_name(struct text m) {
    for (size_t i = 0; i < walk.methods; i++)
        if (same(walk.method[i], m)) return;
    walk.method[walk.methods++] = m;
}

/* `method` and `omit` lines in the order in which they stand. */
static void add_methods(void) {
    const struct listing *both_listings[] = {&new, &old};
    for (int k = 0; k < 2; k++)
        for (size_t i = 0, stop; i < both_listings[k]->len; i = stop + 1) {
            const uint8_t *b = both_listings[k]->bytes;
            for (stop = i; b[stop] != 10;) stop++;
            if (stop - i > 7 && !memcmp(b + i, "method\t", 7)) add_method_name((struct text){b + i + 7, stop - i - 7});
            if (stop - i > 5 && !memcmp(b + i, "omit\t", 5)) add_method_name((struct text){b + i + 5, stop - i - 5});
        }
    static char name[16];
    size_t named = walk.methods;
    for (unsigned n = 0; walk.methods == named; n++) {
        snprintf(name, sizeof name, "Q%u", n);
        add_method_name(text_of(name));
    }
}

static void add_caller(struct text name) {
    if (same(name, text_of("*"))) return;
    for (size_t i = 1; i < walk.callers; i++)
        if (same(walk.caller[i], name)) return;
    walk.caller[walk.callers++] = name;
}

static void make_walk(void) {
    room_len = walk.paths = walk.methods = 0;
    choose_filler();
    each("pattern", add_pattern);
    add_path(made(nothing, "/", text_of(filler)));
    add_methods();
    walk.caller[0] = nothing;
    walk.callers = 1;
    each("role", add_caller);
    each("allow", add_caller);
}

static int grants(const struct listing *l, struct text path, struct text method, struct text caller) {
    uint8_t name[65];
    memcpy(name, caller.at, caller.len);
    name[caller.len] = 10;
    struct second_decision d = second_decide(l->bytes, l->len, path.at, path.len, method.at, method.len, caller.len > 0, name,
                                             caller.len + (caller.len > 0), work, WORK);
    if (d.number) fail("a trial that is refused", path, method, caller);
    requests++;
    return d.answer == SECOND_OPEN || d.answer == SECOND_BY_ROLE;
}

/* ---- the list */

static struct text take(struct text *rest, uint8_t end) {
    size_t n = 0;
    while (n < rest->len && rest->at[n] != end) n++;
    struct text t = {rest->at, n};
    *rest = (struct text){rest->at + n + (n < rest->len), rest->len - n - (n < rest->len)};
    return t;
}

static void cut_lines(struct text list) {
    line_count = 0;
    while (list.len) {
        struct text line = take(&list, 10);
        if (!same(take(&line, 9), text_of("widening")) || line_count == MOST_LINES) fail("a line of the list that is none", line, nothing, nothing);
        struct line *l = &lines[line_count++];
        l->path = take(&line, 9);
        l->methods = take(&line, 9);
        l->who = line;
    }
}

static int has_method(struct text methods, struct text method) {
    int inverse = starts_with(methods, "every method");
    if (same(methods, text_of("every method"))) return 1;
    if (inverse) methods = behind(methods, strlen("every method but "));
    while (methods.len)
        if (same(take(&methods, ','), method)) return !inverse;
    return inverse;
}

static int has_caller(struct text who, struct text caller, int denied_by_old) {
    if (same(who, text_of("anyone"))) return denied_by_old;
    take(&who, 9);
    while (who.len)
        if (same(take(&who, 9), caller)) return 1;
    return 0;
}

/* In how many lines a trial is. */
static int listed(size_t from, struct text path, struct text method, struct text caller, int denied_by_old) {
    int n = 0;
    for (size_t i = from; i < line_count && same(lines[i].path, path); i++)
        n += has_method(lines[i].methods, method) && has_caller(lines[i].who, caller, denied_by_old);
    return n;
}

static size_t first_line(struct text path) {
    size_t i = 0;
    while (i < line_count && !same(lines[i].path, path)) i++;
    return i;
}

/* ---- the two compared */

/* Returns whether the trial is wider. */
static int check_trial(struct text path, struct text method, struct text caller, size_t from) {
    int granted = grants(&new, path, method, caller), denied = !grants(&old, path, method, caller);
    int n = listed(from, path, method, caller, denied);
    if (granted && denied && n != 1) fail(n ? "wider, and in several lines of the list" : "wider, and not in the list", path, method, caller);
    if (!(granted && denied) && n) fail("in the list, and not wider", path, method, caller);
    wider += (unsigned long)(granted && denied);
    return granted && denied;
}

static int is_earlier_path(size_t p) {
    for (size_t i = 0; i < p; i++)
        if (same(walk.path[i], walk.path[p])) return 1;
    return 0;
}

/* All trials; the list's lines come in the order of the paths that are wider. */
static void check_all(const struct summary *s) {
    size_t next = 0, paths = 0, to_anyone = 0;
    for (size_t p = 0; p < walk.paths; p++) {
        int path_wider = 0, path_to_anyone = 0;
        if (is_earlier_path(p)) continue;
        for (size_t m = 0; m < walk.methods; m++)
            for (size_t c = 0; c < walk.callers; c++) {
                int w = check_trial(walk.path[p], walk.method[m], walk.caller[c], next);
                path_wider |= w;
                path_to_anyone |= w && !c;
            }
        paths += (size_t)path_wider;
        to_anyone += (size_t)path_to_anyone;
        if (!path_wider) continue;
        while (next < line_count && same(lines[next].path, walk.path[p])) {
            if (same(lines[next].who, text_of("anyone"))) anyone++;
            else by_role++;
            next++;
        }
    }
    if (next != line_count) fail("a path in the list that is not wider, or out of order", lines[next].path, nothing, nothing);
    if (paths != s->paths || to_anyone != s->to_anyone) fail("the counts are not those of the trials", nothing, nothing, nothing);
}

/* ---- what a trial stands for */

/* A path around the patterns: a piece of one, and perhaps more behind it. */
static struct text some_path(void) {
    static uint8_t path[1024];
    static const char *const tails[] = {"", "/", "/x", ".csv", "/x.csv", "/q7", "x", "/*", "/x/y.q0", "."};
    struct text p = pattern_count ? patterns[below((unsigned)pattern_count)] : text_of("/x");
    size_t start = p.len && p.at[0] == '*', len = p.len - start, cut = below(3) ? 0 : below((unsigned)len + 1);
    struct text tail = below(3) ? text_of(tails[below(10)]) : pattern_count ? patterns[below((unsigned)pattern_count)] : nothing;
    if (len - cut >= 2 && below(4) && p.at[p.len - cut - 1] == '*') cut += 2;
    path[0] = '/';
    memcpy(path + 1, p.at + start, len - cut);
    memcpy(path + 1 + len - cut, tail.at, tail.len);
    struct text t = {path, 1 + len - cut + tail.len};
    return t.len > 1 && t.at[1] == '/' ? behind(t, 1) : t;
}

static uint32_t answer(const struct listing *l, struct text path, struct text method, struct text caller) {
    uint8_t name[65];
    memcpy(name, caller.at, caller.len);
    name[caller.len] = 10;
    return second_decide(l->bytes, l->len, path.at, path.len, method.at, method.len, caller.len > 0, name, caller.len + (caller.len > 0), work, WORK).answer;
}

static void check_alike(void) {
    struct text path = some_path(), method = walk.method[below((unsigned)walk.methods)], caller = walk.caller[below((unsigned)walk.callers)];
    size_t in_new = best_pattern(&trials.new.map, path), in_old = best_pattern(&trials.old.map, path);
    for (size_t i = 0; i < walk.paths; i++) {
        struct text trial = walk.path[i];
        if (best_pattern(&trials.new.map, trial) != in_new || best_pattern(&trials.old.map, trial) != in_old) continue;
        alike++;
        if (answer(&new, path, method, caller) != answer(&new, trial, method, caller) || answer(&old, path, method, caller) != answer(&old, trial, method, caller))
            fail("not answered like the trial with the same closest patterns", path, method, caller);
        return;
    }
    fail("no trial has the same closest patterns", path, method, caller);
}

/* ---- accepted widenings */

static struct acceptance acceptance;

static void accept_text(struct text bytes) {
    free(acceptance.line);
    acceptance = (struct acceptance){.name = "accepted", .bytes = bytes};
    if (!cut_acceptance(&acceptance) || !add_accepted_methods(&trials, &acceptance)) fail("a list that can't be read again", nothing, nothing, nothing);
}

/* The list without some of its lines, chosen anew each time. */
static struct text some_lines(struct text list) {
    static uint8_t kept[1 << 22];
    size_t len = 0;
    while (list.len) {
        struct text line = take(&list, 10);
        if (below(2) || len + line.len + 1 > sizeof kept) continue;
        memcpy(kept + len, line.at, line.len);
        kept[len + line.len] = 10;
        len += line.len + 1;
    }
    return (struct text){kept, len};
}

/* Each trial of the list is passed over if it is in one of the lines kept, and else told. */
static void check_accepting(struct text list) {
    struct who who[ALL_METHODS];
    struct text kept = some_lines(list);
    accept_text(kept);
    cut_lines(kept);
    rewind_trials(&trials);
    while (next_widened(&trials)) {
        size_t from = first_line(trials.here);
        keep_unaccepted(&trials, &acceptance, who);
        for (size_t m = 0; m < walk.methods; m++) {
            size_t place = find_text(trials.method, trials.methods, walk.method[m]);
            struct who all = trials.who[place];
            int in = listed(from, trials.here, walk.method[m], nothing, 1);
            if (all.anyone && who[place].anyone == in) fail("accepted and told, or neither", trials.here, walk.method[m], nothing);
            for (size_t r = 0; r < trials.roles; r++) {
                if (!(all.roles >> r & 1)) continue;
                in = listed(from, trials.here, walk.method[m], trials.role[r], 1);
                if ((who[place].roles >> r & 1) == (uint64_t)in) fail("accepted and told, or neither", trials.here, walk.method[m], trials.role[r]);
                passed += (unsigned long)in;
            }
        }
    }
}

static FILE *gone_list;

static void write_gone_line(void *to, const struct trials *t, const struct gone *gone) {
    (void)to;
    write_fold(gone_list, "widening", gone->line->path, t, &gone->fold, gone->role);
    gone_lines++;
}

static int is_trial_path(struct text path) {
    for (size_t i = 0; i < walk.paths; i++)
        if (same(walk.path[i], path)) return 1;
    return 0;
}

/* One request of a line of the pair before: gone unless it is a trial here, and wider. A caller's name is of either pair. */
static void check_gone_one(struct line *was, struct text method, struct text caller, size_t from) {
    int is_wider = is_trial_path(was->path) && grants(&new, was->path, method, caller) && !grants(&old, was->path, method, caller);
    int n = 0;
    for (size_t i = from; i < line_count && same(lines[i].path, was->path); i++) {
        struct text who = lines[i].who;
        if (!has_method(lines[i].methods, method)) continue;
        n += caller.len ? !same(who, text_of("anyone")) && has_caller(who, caller, 0) : same(who, text_of("anyone"));
    }
    if (is_wider == (n > 0)) fail(n ? "wider, and told as gone" : "not wider, and not told as gone", was->path, method, caller);
}

static void check_gone(struct text before) {
    static struct line were[MOST_LINES];
    char *told = NULL;
    size_t len = 0, count;
    accept_text(before);
    cut_lines(before);
    memcpy(were, lines, line_count * sizeof *lines);
    count = line_count;
    gone_list = open_memstream(&told, &len);
    find_gone(&trials, &acceptance, write_gone_line, NULL);
    fclose(gone_list);
    cut_lines((struct text){(uint8_t *)told, len});
    for (size_t i = 0; i < count; i++)
        for (size_t m = 0; m < walk.methods; m++) {
            struct text who = were[i].who;
            if (!has_method(were[i].methods, walk.method[m])) continue;
            if (same(who, text_of("anyone"))) check_gone_one(&were[i], walk.method[m], nothing, first_line(were[i].path));
            else for (take(&who, 9); who.len;) check_gone_one(&were[i], walk.method[m], take(&who, 9), first_line(were[i].path));
        }
    free(told);
}

/* Pairs that are small enough, and the list of the last of them. */
static void check_acceptance(struct text list) {
    static uint8_t before[4096];
    static size_t before_len;
    check_accepting(list);
    if (before_len) check_gone((struct text){before, before_len});
    if (!list.len || list.len > sizeof before) return;
    memcpy(before, list.at, list.len);
    before_len = list.len;
}

static void check_pair(void) {
    char *list = NULL;
    size_t len = 0;
    if (second_read(old.bytes, old.len, work, WORK).number || second_read(new.bytes, new.len, work, WORK).number) return;
    FILE *to = open_memstream(&list, &len);
    if (!to) abort();
    start_trials(&trials, &old, &new);
    struct summary s = {0, 0, 0};
    struct fold f;
    while (next_widened(&trials)) {
        uint8_t done[ALL_METHODS] = {0};
        add_up(&s, &trials, trials.who);
        while (next_fold(&trials, trials.who, done, &f)) write_fold(to, "widening", trials.here, &trials, &f, trials.role);
    }
    fclose(to);
    cut_lines((struct text){(uint8_t *)list, len});
    make_walk();
    pairs++;
    if (walk.paths * walk.methods * walk.callers <= WALKED) {
        check_all(&s);
        for (int i = 0; i < 50; i++) check_alike();
        check_acceptance((struct text){(uint8_t *)list, len});
    } else {
        for (unsigned i = 0; i < SAMPLES / (1 + (old.len + new.len) / 2048); i++) {
            struct text path = line_count && below(2) ? lines[below((unsigned)line_count)].path : walk.path[below((unsigned)walk.paths)];
            check_trial(path, walk.method[below((unsigned)walk.methods)], walk.caller[below((unsigned)walk.callers)], first_line(path));
        }
    }
    free(list);
}

static void set(struct listing *l, const void *bytes, size_t len) {
    l->len = len <= BUDQUARRY_LISTING ? len : BUDQUARRY_LISTING + 1;
    memcpy(l->bytes, bytes, l->len);
}

static void check_generated(const struct generated *g) {
    if (g->kind != GENERATED_COMPARE) return;
    set(&old, g->listing, g->listing_len);
    set(&new, g->new_listing, g->new_len);
    check_pair();
}

/* ---- the edges: every one of these listings with every other */

#define AUTH "constraint\tauth\n"
#define OPEN "constraint\topen\n"
#define AT "collection\npattern\t"
static const char *const edges[] = {
    "",
    AUTH AT "/*\n",
    AUTH AT "/\n",
    AUTH AT "\n",
    OPEN AT "/*\nomit\tGET\n" AUTH AT "/reports/*\nmethod\tPOST\n",
    "role\ta\nrole\tb\n" AUTH "allow\t*\n" AT "/*\n" AUTH "allow\tc\n" AT "*.csv\nmethod\tGET\n",
    AUTH "allow\t*\n" AT "/reports/*\n" AUTH "allow\tb\nallow\ta\n" AT "/reports/*\nomit\tGET\nomit\tQ0\n",
    AUTH "allow\ta\n" AT "*.csv\npattern\t*.q0\npattern\t/q1/q10\npattern\t/reports/x.csv\n",
    AUTH "allow\tbroker, north\n" AT "/reports/quarterly/*\nmethod\tGET\n" AUTH AT "/reports/*\npattern\t/reports/x.csv\n",
    AUTH "allow\ta\n" AT "/reports/*\npattern\t/*\npattern\t/\npattern\t\npattern\t*.csv\nmethod\tGET\nmethod\tget\n" AUTH "allow\tb\n" AT "/\nomit\tGET\n",
    OPEN AT "/reports\npattern\t/reports/\npattern\t/reports/*/x\npattern\t/*.csv\nmethod\tQ0\nmethod\tQ2\n" AUTH AT "/reports/*\nmethod\tQ1\n",
    AUTH "allow\ta\n" AT "/x\n" OPEN AT "/x\nmethod\tGET\n" AUTH AT "/x\nmethod\tPUT\n" AUTH "allow\tb\n" AT "/x\nmethod\tDELETE\n",
};

static void check_edges(void) {
    size_t n = sizeof edges / sizeof *edges;
    what = "edge pair";
    for (at = 0; at < n * n; at++) {
        char text[4096];
        set(&old, text, (size_t)sprintf(text, "constraints\t1\n%send\n", edges[at / n]));
        set(&new, text, (size_t)sprintf(text, "constraints\t1\n%send\n", edges[at % n]));
        unsigned long before = pairs;
        check_pair();
        if (pairs == before) fail("an edge that is refused", text_of(edges[at / n]), nothing, nothing);
    }
}

int main(int argc, char **argv) {
    static struct generated g;
    uint64_t seed = argc > 1 ? strtoull(argv[1], 0, 10) : 1, cases = argc > 2 ? strtoull(argv[2], 0, 10) : 4000;
    state = seed;
    check_edges();
    what = "large pair";
    for (at = 0; at < generate_large_count(); at++) {
        static uint8_t answer[1024];
        generate_large(at, &g);
        /* a pair that is no wider has no list, and asking all of a large one takes its time */
        if (budquarry_compare(g.listing, g.listing_len, g.new_listing, g.new_len, answer, sizeof answer, work, WORK).length != BUDQUARRY_NO_WIDER)
            check_generated(&g);
    }
    what = "case";
    for (uint64_t i = 0; i < cases; i++) {
        at = seed * 1000003 + i;
        generate_case(at, &g);
        check_generated(&g);
    }
    printf("widenings: %lu pairs, %lu requests decided by the second implementation, %lu trials wider, in %lu lines for anyone and %lu by role at the "
           "pairs gone through whole; the list is theirs; %lu other paths answered like their trials; %lu trials accepted by role, %lu lines gone\n",
           pairs, requests, wider, anyone, by_role, alike, passed, gone_lines);
    return pairs < 100 || !anyone || !by_role || !passed || !gone_lines;
}
