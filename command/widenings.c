/* widenings.c: see widenings.h. */
#include <stdlib.h>
#include <string.h>
#include "showing.h"
#include "widenings.h"

/* ---- the trials, in 01's order */

/* The first of q0, q1, .. inside no pattern. Two listings have too few bytes for 65,536 numbers. */
static void choose_filler(struct trials *t) {
    static uint8_t taken[65536];
    size_t n = 0;
    memset(taken, 0, sizeof taken);
    for (size_t i = 0; i < t->new.map.patterns + t->old.map.patterns; i++) {
        const struct map *m = i < t->new.map.patterns ? &t->new.map : &t->old.map;
        struct text p = m->pattern[i < t->new.map.patterns ? i : i - t->new.map.patterns].text;
        for (size_t k = 0; k < p.len; k++) {
            if (p.at[k] != 'q') continue;
            size_t number = 0;
            for (size_t d = k + 1; d < p.len && p.at[d] >= '0' && p.at[d] <= '9'; d++) {
                if (d > k + 1 && !number) break; /* q01 has q0 inside, and no other */
                number = 10 * number + (size_t)(p.at[d] - '0');
                if (number >= sizeof taken) break;
                taken[number] = 1;
            }
        }
    }
    while (taken[n]) n++;
    snprintf(t->filler, sizeof t->filler, "q%u", (unsigned)n & 0xffff);
}

static void choose_methods(struct trials *t) {
    const struct map *maps[] = {&t->new.map, &t->old.map};
    t->methods = 0;
    for (size_t k = 0; k < 2; k++)
        for (size_t i = 0; i < maps[k]->methods; i++)
            if (find_text(t->method, t->methods, maps[k]->method[i].text) == t->methods) t->method[t->methods++] = maps[k]->method[i].text;
    for (unsigned n = 0; n <= t->methods; n++) {
        snprintf(t->filler_name, sizeof t->filler_name, "Q%u", n & 0xff);
        if (find_text(t->method, t->methods, text_of(t->filler_name)) == t->methods) break;
    }
    t->filler_method = t->methods;
    t->method[t->methods++] = text_of(t->filler_name);
}

static void place_methods(const struct trials *t, struct side *s) {
    for (size_t m = 0; m < t->methods; m++) {
        size_t own = find(s->map.method, s->map.methods, t->method[m]);
        s->own[m] = (uint8_t)(own < s->map.methods ? own : METHODS);
    }
}

static void choose_roles(struct trials *t) {
    const struct map *maps[] = {&t->new.map, &t->old.map};
    t->roles = 0;
    for (size_t k = 0; k < 2; k++)
        for (size_t i = 0; i < maps[k]->roles; i++)
            if (find_text(t->role, t->roles, maps[k]->role[i]) == t->roles) t->role[t->roles++] = maps[k]->role[i];
}

/* The filler is in no pattern, so that paths are the same only where stem and ending are; stems of different patterns differ, but for the empty one. */
static void add_trial(struct trials *t, struct trial path) {
    for (size_t i = 0; path.filled && !path.stem.len && i < t->paths; i++)
        if (t->path[i].filled && !t->path[i].stem.len && same(t->path[i].ending, path.ending)) return;
    t->path[t->paths++] = path;
}

/* The endings of both listings, each once. */
static size_t collect_endings(const struct trials *t, struct text endings[2 * PATTERNS]) {
    size_t count = 0;
    for (size_t i = 0; i < t->new.map.patterns + t->old.map.patterns; i++) {
        struct text p = i < t->new.map.patterns ? t->new.map.pattern[i].text : t->old.map.pattern[i - t->new.map.patterns].text;
        if (kind_of(p) == ENDING && find_text(endings, count, behind(p, 2)) == count) endings[count++] = behind(p, 2);
    }
    return count;
}

static void choose_paths(struct trials *t) {
    static struct text endings[2 * PATTERNS];
    size_t ends = collect_endings(t, endings);
    struct text none = text_of("");
    t->paths = 0;
    for (size_t i = 0; i < t->new.map.patterns + t->old.map.patterns; i++) {
        int of_new = i < t->new.map.patterns;
        struct text p = of_new ? t->new.map.pattern[i].text : t->old.map.pattern[i - t->new.map.patterns].text;
        if (!of_new && find(t->new.map.pattern, t->new.map.patterns, p) < t->new.map.patterns) continue;
        switch (kind_of(p)) {
        case EXACT: add_trial(t, (struct trial){p.len ? p : text_of("/"), none, 0}); break;
        case PREFIX:
            p.len -= 2;
            add_trial(t, (struct trial){p, none, 1});
            for (size_t k = 0; k < ends; k++) add_trial(t, (struct trial){p, endings[k], 1});
            break;
        case ENDING: add_trial(t, (struct trial){none, behind(p, 2), 1}); break;
        case DEFAULT: add_trial(t, (struct trial){none, none, 1}); break;
        }
    }
    add_trial(t, (struct trial){none, none, 1});
}

static void start_side(struct side *s, const struct listing *listing) {
    s->listing = listing;
    s->asks = 0;
    memset(s->where, 0, sizeof s->where);
    map_listing(listing, &s->map);
}

void start_trials(struct trials *t, const struct listing *old, const struct listing *new) {
    start_side(&t->new, new);
    start_side(&t->old, old);
    choose_filler(t);
    choose_methods(t);
    place_methods(t, &t->new);
    place_methods(t, &t->old);
    choose_roles(t);
    choose_paths(t);
    rewind_trials(t);
}

int add_method(struct trials *t, struct text method) {
    size_t m = find_text(t->method, t->methods, method);
    if (m == t->filler_method) m += 1 + find_text(t->method + m + 1, t->methods - m - 1, method); /* the filler is a name for others */
    if (m < t->methods) return 1;
    if (t->methods == ALL_METHODS) return 0;
    t->method[t->methods++] = method;
    return 1;
}

void rewind_trials(struct trials *t) { t->taken = 0; }

static void append(struct trials *t, struct text more) {
    if (more.len) memcpy(t->bytes + t->here.len, more.at, more.len);
    t->here.len += more.len;
}

static void write_path(struct trials *t, const struct trial *path) {
    t->here = (struct text){t->bytes, 0};
    append(t, path->stem);
    if (!path->filled) return;
    append(t, text_of("/"));
    append(t, text_of(t->filler));
    if (!path->ending.len) return;
    append(t, text_of("."));
    append(t, path->ending);
}

/* ---- asking */

/* Whether the listing grants the method at the path taken last to a caller with these of the trial roles, or, with none, to one who isn't logged in. */
static uint32_t ask(const struct trials *t, const struct side *s, struct text method, size_t first, size_t count) {
    static budquarry_work work;
    static uint8_t names[ROLES * 65];
    size_t len = 0;
    for (size_t i = first; i < first + count; i++) {
        memcpy(names + len, t->role[i].at, t->role[i].len);
        len += t->role[i].len;
        names[len++] = '\n';
    }
    struct budquarry_decision d = budquarry_decide(s->listing->bytes, s->listing->len, t->here.at, t->here.len, method.at, method.len, count > 0, names,
                                                   len, work, BUDQUARRY_WORK);
    if (d.number) abort(); /* a trial is never refused */
    show_progress(t->taken - 1, t->paths);
    return d.answer;
}

static int is_grant(uint32_t answer) { return answer == BUDQUARRY_OPEN || answer == BUDQUARRY_BY_ROLE; }

/* Those among the trial roles from `first` on, `count` of them, each of which is granted it alone. */
static uint64_t ask_roles(const struct trials *t, const struct side *s, struct text method, size_t first, size_t count) {
    if (!count) return 0;
    if (count <= ROLES && !is_grant(ask(t, s, method, first, count))) return 0;
    if (count == 1) return (uint64_t)1 << first;
    return ask_roles(t, s, method, first, count / 2) | ask_roles(t, s, method, first + count / 2, count - count / 2);
}

static struct asked *asked_about(struct trials *t, struct side *s, size_t best, size_t method) {
    struct set none = {{0, 0}};
    size_t m = s->own[method < t->filler_method ? method : t->filler_method];
    uint16_t *where = &s->where[best < s->map.patterns ? best : PATTERNS][m];
    if (*where) return &s->asked[*where - 1];
    struct set having = best < s->map.patterns ? s->map.pattern[best].in : none;
    struct set naming = m < METHODS ? both(having, s->map.method[m].in) : none;
    size_t i = 0;
    while (i < s->asks && !(same_set(s->asked[i].having, having) && same_set(s->asked[i].naming, naming))) i++;
    if (i == s->asks) s->asked[s->asks++] = (struct asked){having, naming, ask(t, s, t->method[method], 0, 0), 0, 0};
    *where = (uint16_t)(i + 1);
    return &s->asked[i];
}

static uint64_t granted_roles(const struct trials *t, const struct side *s, struct asked *a, size_t method) {
    if (a->answer == BUDQUARRY_CLOSED) return 0;
    if (!a->roles_asked) a->roles = ask_roles(t, s, t->method[method], 0, t->roles);
    a->roles_asked = 1;
    return a->roles;
}

static struct who who_widens(struct trials *t, size_t method) {
    struct who nobody = {0, 0};
    struct asked *old = asked_about(t, &t->old, t->best_old, method);
    if (is_grant(old->answer)) return nobody;
    struct asked *new = asked_about(t, &t->new, t->best_new, method);
    if (new->answer == BUDQUARRY_CLOSED) return nobody;
    if (is_grant(new->answer)) return (struct who){1, 0};
    uint64_t may = granted_roles(t, &t->new, new, method);
    return (struct who){0, may ? may & ~granted_roles(t, &t->old, old, method) : 0};
}

int role_widens(struct trials *t, size_t method, size_t role) {
    if (!t->who[method].anyone) return role < t->roles && t->who[method].roles >> role & 1;
    struct asked *old = asked_about(t, &t->old, t->best_old, method);
    return role == t->roles || !(granted_roles(t, &t->old, old, method) >> role & 1);
}

int is_nobody(struct who w) { return !w.anyone && !w.roles; }

int next_widened(struct trials *t) {
    while (t->taken < t->paths) {
        int wider = 0;
        write_path(t, &t->path[t->taken++]);
        t->best_new = best_pattern(&t->new.map, t->here);
        t->best_old = best_pattern(&t->old.map, t->here);
        for (size_t m = 0; m < t->methods; m++) {
            t->who[m] = m > t->filler_method ? t->who[t->filler_method] : who_widens(t, m);
            wider |= !is_nobody(t->who[m]);
        }
        if (wider) return 1;
    }
    return 0;
}

/* ---- folding and writing */

static int same_who(struct who a, struct who b) { return a.anyone == b.anyone && a.roles == b.roles; }

int next_fold(const struct trials *t, const struct who who[], uint8_t done[ALL_METHODS], struct fold *f) {
    size_t first = 0;
    while (first < t->methods && (done[first] || is_nobody(who[first]))) first++;
    if (first == t->methods) return 0;
    f->who = who[first];
    for (size_t m = 0; m < t->methods; m++) {
        f->has[m] = same_who(who[m], f->who);
        done[m] |= f->has[m];
    }
    return 1;
}

int is_all_but(const struct trials *t, const struct fold *f) { return f->has[t->filler_method]; }

static void write_methods(FILE *to, const struct trials *t, const struct fold *f) {
    int all_but = is_all_but(t, f), written = 0;
    if (all_but) fputs("every method", to);
    for (size_t m = 0; m < t->methods; m++) {
        if (f->has[m] == all_but) continue;
        fputs(written ? "," : all_but ? " but " : "", to);
        show(to, t->method[m]);
        written = 1;
    }
}

void write_fold(FILE *to, const char *name, struct text path, const struct trials *t, const struct fold *f, const struct text role[]) {
    fprintf(to, "%s\t", name);
    show(to, path);
    putc('\t', to);
    write_methods(to, t, f);
    fputs(f->who.anyone ? "\tanyone" : "\trole", to);
    for (size_t r = 0; !f->who.anyone && r < TRIAL_ROLES; r++) {
        if (!(f->who.roles >> r & 1)) continue;
        putc('\t', to);
        show(to, role[r]);
    }
    putc('\n', to);
}

int is_more_than(const struct trials *t, struct text method, struct text role) {
    for (size_t m = 0; m < t->methods; m++) {
        struct who w = t->who[m];
        if (same(t->method[m], method)) {
            if (role.len && w.roles != (uint64_t)1 << find_text(t->role, t->roles, role)) return 1;
        } else if (!is_nobody(w)) {
            return 1;
        }
    }
    return 0;
}

int add_up(struct summary *s, const struct trials *t, const struct who who[]) {
    int anyone = 0, wider = 0;
    for (size_t m = 0; m < t->methods; m++) {
        anyone |= who[m].anyone;
        wider |= !is_nobody(who[m]);
    }
    s->paths += (size_t)wider;
    s->to_anyone += (size_t)anyone;
    s->made_up |= wider && t->path[t->taken - 1].filled;
    return wider;
}
