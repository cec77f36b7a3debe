/* warnings.c: see warnings.h. */
#include <string.h>
#include "causes.h"
#include "warnings.h"
#include "webxml.h"

static int has_byte(struct text t, uint8_t b) { return t.len && memchr(t.at, b, t.len); }

/* The declared role that was probably meant. */
static const char *nearest_role(const struct listing *l, struct text name) {
    static char names[ROLES][65];
    const char *list[ROLES];
    size_t count = 0;
    struct text rest = {l->bytes, l->len};
    while (rest.len) {
        struct record r = record_of(take_line(&rest));
        if (r.name != ROLE) continue;
        memcpy(names[count], r.field.at, r.field.len);
        names[count][r.field.len] = 0;
        list[count] = names[count];
        count++;
    }
    return meant(name, list, count);
}

/* Whether a line with this name and field stands before a line, from 1; 0 for anywhere. */
static int stands_before(const struct listing *l, enum name name, struct text field, uint32_t before) {
    struct text rest = {l->bytes, l->len};
    for (uint32_t line = 1; rest.len && line != before; line++) {
        struct record r = record_of(take_line(&rest));
        if (r.name == name && same(r.field, field)) return 1;
    }
    return 0;
}

/* An allowed role that is not declared, once for each name. */
static const char *undeclared(struct words *w, const struct listing *l, struct record r, uint32_t line) {
    if (r.name != ALLOW || same(r.field, text_of("*")) || stands_before(l, ROLE, r.field, 0) || stands_before(l, ALLOW, r.field, line)) return NULL;
    const char *near = nearest_role(l, r.field);
    say(w, "the role %t is allowed%s and declared nowhere.", &r.field, l->is_xml ? "" : " here");
    if (near)
        say(w, " Did you mean %s?", near);
    else if (l->is_xml)
        say(w, " If there is such a role, declare it in a <security-role>.");
    else
        say(w, " If there is such a role, declare it at the top: role<tab>%t.", &r.field);
    return "undeclared role";
}

static const char *small_letters(struct words *w, struct record r) {
    uint8_t large[24];
    int small = 0;
    if (r.name != METHOD && r.name != OMIT) return NULL;
    for (size_t i = 0; i < r.field.len; i++) {
        int is_small = r.field.at[i] >= 'a' && r.field.at[i] <= 'z';
        large[i] = is_small ? r.field.at[i] - 32 : r.field.at[i];
        small |= is_small;
    }
    if (!small) return NULL;
    say(w, "%t is not the method %t: small and large letters differ. Write %t if that is meant.", &r.field, &(struct text){large, r.field.len},
        &(struct text){large, r.field.len});
    return "small letters";
}

/* The path that was probably meant as the start of others: /clock of /clock*, else what stands before the / before the first * or {. */
static struct text stem_of(struct text p) {
    size_t n = 0;
    while (n < p.len && p.at[n] != '*' && p.at[n] != '{') n++;
    if (n + 1 == p.len) return (struct text){p.at, n};
    while (n && p.at[n - 1] != '/') n--;
    return (struct text){p.at, n ? n - 1 : 0};
}

/* `*.` and an ending, as a pattern of its own has it. */
static int is_ending(struct text t) {
    return starts_with(t, "*.") && t.len > 2 && !has_byte(behind(t, 2), '.') && !has_byte(behind(t, 2), '/') && !has_byte(behind(t, 1), '*');
}

/* A * or { that stands for nothing but itself. */
static const char *no_wildcard(struct words *w, struct record r) {
    if (r.name != PATTERN) return NULL;
    enum kind kind = kind_of(r.field);
    struct text core = {r.field.at, kind == PREFIX ? r.field.len - 2 : r.field.len}, stem = stem_of(core);
    if (kind == ENDING || (!has_byte(core, '*') && !has_byte(core, '{'))) return NULL;
    const char *what = !has_byte(core, '*') ? "brace" : "star";
    if (kind == PREFIX)
        say(w, "%t fits only paths that start with %t just so, %s and all.", &r.field, &core, what);
    else
        say(w, "%t fits only the one path that is written just so, %s and all.", &r.field, what);
    struct text last = behind(core, stem.len + (stem.len < core.len));
    if (kind == EXACT && is_ending(last)) say(w, " %t fits every path with that ending, and", &last);
    say(w, " %t/* fits %s%t.", &stem, stem.len ? "everything at and below " : "every path", &stem);
    return "no wildcard";
}

static const char *last_slash(struct words *w, struct record r) {
    if (r.name != PATTERN || kind_of(r.field) != EXACT || !ends_with(r.field, "/")) return NULL;
    struct text shorter = {r.field.at, r.field.len - 1};
    say(w, "%t fits only the path that ends in /, and not %t. %t/* fits both, and everything below.", &r.field, &shorter, &shorter);
    return "last slash";
}

static size_t warn_elements(const struct listing *listing, void found(const struct listing *, const struct warning *)) {
    static struct misspelt misspelt[MOST_MISSPELT];
    size_t count = find_misspelt(listing, misspelt);
    for (size_t i = 0; i < count; i++) {
        struct warning warning = {.line = misspelt[i].line, .about = "misspelt element"};
        say(&warning.words, "<%t> has no meaning here and is passed over, with all it holds. Did you mean <%s>?", &misspelt[i].name, misspelt[i].meant);
        found(listing, &warning);
    }
    return count;
}

size_t warn(const struct listing *listing, void found(const struct listing *, const struct warning *)) {
    struct text rest = {listing->bytes, listing->len};
    size_t count = listing->is_xml ? warn_elements(listing, found) : 0;
    for (uint32_t line = 1; rest.len; line++) {
        struct record r = record_of(take_line(&rest));
        struct warning warning = {.line = listing->is_xml ? 0 : line};
        if (listing->is_xml && stands_before(listing, r.name, r.field, line)) continue; /* with no line to tell them apart, each is told once */
        warning.about = undeclared(&warning.words, listing, r, line);
        if (!warning.about) warning.about = small_letters(&warning.words, r);
        if (!warning.about) warning.about = no_wildcard(&warning.words, r);
        if (!warning.about) warning.about = last_slash(&warning.words, r);
        if (!warning.about) continue;
        found(listing, &warning);
        count++;
    }
    return count;
}

size_t warn_path(struct text path, void found(const struct listing *, const struct warning *)) {
    struct warning warning = {.about = "question mark"};
    struct text before = path;
    if (!has_byte(path, '?')) return 0;
    before.len = (size_t)((const uint8_t *)memchr(path.at, '?', path.len) - path.at);
    say(&warning.words, "a path ends before its ?, and here all of it was taken for the path. Ask about %t.", &before);
    found(NULL, &warning);
    return 1;
}

void say_warning(const struct listing *listing, const struct warning *warning) {
    if (listing) {
        show_string(stderr, shown_name(listing));
        if (warning->line) fprintf(stderr, ":%u", warning->line);
        fputs(": ", stderr);
    }
    fputs("warning: ", stderr);
    show(stderr, said(&warning->words));
    putc('\n', stderr);
}
