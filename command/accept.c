/* accept.c: see accept.h. */
#include <stdlib.h>
#include <string.h>
#include "accept.h"
#include "causes.h"

/* ---- reading */

static const char every[] = "every method", but[] = "every method but ";

/* The text up to a byte, which is taken off with it. */
static struct text take_until(struct text *rest, uint8_t end) {
    const uint8_t *at = rest->len ? memchr(rest->at, end, rest->len) : NULL;
    struct text t = {rest->at, at ? (size_t)(at - rest->at) : rest->len};
    *rest = behind(*rest, t.len + (at != NULL));
    return t;
}

static int are_methods(struct text list) {
    while (list.len) {
        int more = list.at[list.len - 1] == ',';
        if (more || !is_method(take_until(&list, ','))) return 0;
    }
    return 1;
}

/* At least one, and no more than two listings have. */
static int are_roles(struct text list) {
    size_t n = 0;
    if (!list.len || list.at[list.len - 1] == '\t') return 0;
    for (; list.len; n++)
        if (!take_until(&list, '\t').len) return 0;
    return n <= TRIAL_ROLES;
}

static size_t cut_roles(const struct accepted *a, struct text role[TRIAL_ROLES]) {
    struct text list = a->roles;
    size_t n = 0;
    while (list.len) role[n++] = take_until(&list, '\t');
    return n;
}

static int read_line(struct accepted *a, struct text line) {
    struct text rest = line;
    if (!same(take_until(&rest, '\t'), text_of("widening"))) return 0;
    a->path = take_until(&rest, '\t');
    a->methods = take_until(&rest, '\t');
    a->all_but = starts_with(a->methods, every);
    if (a->all_but) a->methods = behind(a->methods, same(a->methods, text_of(every)) ? strlen(every) : starts_with(a->methods, but) ? strlen(but) : 0);
    struct text who = take_until(&rest, '\t');
    a->anyone = same(who, text_of("anyone"));
    a->roles = rest;
    return starts_with(a->path, "/") && (a->all_but || a->methods.len) && are_methods(a->methods) &&
           (a->anyone ? !rest.len : same(who, text_of("role")) && are_roles(rest));
}

static int is_passed_over(struct text line) { return !line.len || line.at[0] == '#' || starts_with(line, "verdict\t") || starts_with(line, "gone\t"); }

static void say_bad_line(const struct acceptance *a, uint32_t number, struct text line) {
    show_string(stderr, a->name);
    fprintf(stderr, ":%u: ", number);
    if (line.at[line.len - 1] == '\r')
        fputs("the line ends as Windows ends lines. Save the file with Unix line ends (LF).\n", stderr);
    else if (!memchr(line.at, '\t', line.len))
        fputs("the parts of a widening are parted by tabs, and here is none. Take the line from compare --all.\n", stderr);
    else
        fputs("this is no widening as compare --all writes it: widening<tab>PATH<tab>METHODS<tab>anyone, or role<tab>NAME at the end. Take the line from "
              "there.\n",
              stderr);
    show_line(stderr, line);
}

static int compare_paths(const void *a, const void *b) {
    const struct accepted *x = a, *y = b;
    size_t least = x->path.len < y->path.len ? x->path.len : y->path.len;
    int order = memcmp(x->path.at, y->path.at, least);
    if (!order) order = x->path.len < y->path.len ? -1 : x->path.len > y->path.len;
    return order ? order : x->line < y->line ? -1 : 1;
}

int cut_acceptance(struct acceptance *a) {
    struct text rest = a->bytes;
    size_t most = 1;
    for (size_t i = 0; i < rest.len; i++) most += rest.at[i] == '\n';
    a->line = calloc(most, sizeof *a->line);
    if (!a->line) return perror("budquarry"), 0;
    for (uint32_t number = 1; rest.len; number++) {
        struct text line = take_line(&rest);
        if (is_passed_over(line)) continue;
        struct accepted *new = &a->line[a->lines++];
        new->line = number;
        if (!read_line(new, line)) return say_bad_line(a, number, line), 0;
    }
    qsort(a->line, a->lines, sizeof *a->line, compare_paths);
    return 1;
}

int add_accepted_methods(struct trials *t, const struct acceptance *a) {
    for (size_t i = 0; i < a->lines; i++) {
        struct text list = a->line[i].methods;
        while (list.len) {
            if (add_method(t, take_until(&list, ','))) continue;
            show_string(stderr, a->name);
            fprintf(stderr, ":%u: the file names more methods than this command can tell apart (%d). Take out lines that are no longer needed.\n",
                    a->line[i].line, ALL_METHODS);
            return 0;
        }
    }
    return 1;
}

/* ---- asking */

/* The first line about a path, or where it would be. */
static size_t first_about(const struct acceptance *a, struct text path) {
    struct accepted wanted = {.path = path};
    size_t low = 0, high = a->lines;
    while (low < high) {
        size_t middle = (low + high) / 2;
        if (compare_paths(&a->line[middle], &wanted) < 0)
            low = middle + 1;
        else
            high = middle;
    }
    return low;
}

static int has_method(const struct trials *t, const struct accepted *a, size_t method) {
    struct text list = a->methods;
    while (method != t->filler_method && list.len)
        if (same(take_until(&list, ','), t->method[method])) return !a->all_but;
    return a->all_but;
}

static uint64_t trial_roles(const struct trials *t, const struct accepted *a) {
    struct text role[TRIAL_ROLES];
    uint64_t roles = 0;
    for (size_t i = 0, n = cut_roles(a, role); i < n; i++) {
        size_t r = find_text(t->role, t->roles, role[i]);
        if (r < t->roles) roles |= (uint64_t)1 << r;
    }
    return roles;
}

void keep_unaccepted(const struct trials *t, const struct acceptance *a, struct who who[ALL_METHODS]) {
    memcpy(who, t->who, sizeof t->who);
    for (size_t i = first_about(a, t->here); i < a->lines && same(a->line[i].path, t->here); i++) {
        uint64_t roles = trial_roles(t, &a->line[i]);
        for (size_t m = 0; m < t->methods; m++) {
            if (!has_method(t, &a->line[i], m)) continue;
            if (a->line[i].anyone) who[m] = (struct who){0, 0};
            who[m].roles &= ~roles;
        }
    }
}

/* For each method who of a line's callers no longer comes in newly, at the path taken last if that is wider at all. Returns whether somebody does. */
static int find_lost(struct trials *t, const struct accepted *a, int wider, const struct text role[], size_t roles, struct who lost[ALL_METHODS]) {
    int kept = 0;
    for (size_t m = 0; m < t->methods; m++) {
        lost[m] = (struct who){0, 0};
        if (!has_method(t, a, m)) continue;
        lost[m].anyone = a->anyone && !(wider && t->who[m].anyone);
        kept |= a->anyone && !lost[m].anyone;
        for (size_t i = 0; i < roles; i++) {
            if (wider && role_widens(t, m, find_text(t->role, t->roles, role[i])))
                kept = 1;
            else
                lost[m].roles |= (uint64_t)1 << i;
        }
    }
    return kept;
}

static void tell_lost(struct trials *t, struct accepted *a, int wider, void found(void *, const struct trials *, const struct gone *), void *to) {
    struct who lost[ALL_METHODS];
    uint8_t done[ALL_METHODS] = {0};
    struct gone gone = {.line = a};
    size_t roles = cut_roles(a, gone.role);
    a->used = 1;
    gone.is_all = !find_lost(t, a, wider, gone.role, roles, lost);
    while (next_fold(t, lost, done, &gone.fold)) found(to, t, &gone);
}

void find_gone(struct trials *t, struct acceptance *a, void found(void *to, const struct trials *, const struct gone *), void *to) {
    for (size_t i = 0; i < a->lines; i++) a->line[i].used = 0;
    rewind_trials(t);
    while (next_widened(t))
        for (size_t i = first_about(a, t->here); i < a->lines && same(a->line[i].path, t->here); i++) tell_lost(t, &a->line[i], 1, found, to);
    for (size_t i = 0; i < a->lines; i++)
        if (!a->line[i].used) tell_lost(t, &a->line[i], 0, found, to);
}
