/* listing.c: see listing.h. */
#include <string.h>
#include "listing.h"

const char *const record_names[UNKNOWN] = {"role", "constraint", "allow", "collection", "pattern", "method", "omit", "end"};

struct text text_of(const char *s) { return (struct text){(const uint8_t *)s, strlen(s)}; }

struct text behind(struct text t, size_t skipped) { return (struct text){t.at + skipped, t.len - skipped}; }

int same(struct text a, struct text b) { return a.len == b.len && (!a.len || !memcmp(a.at, b.at, a.len)); }

int starts_with(struct text t, const char *start) { return t.len >= strlen(start) && !memcmp(t.at, start, strlen(start)); }

int ends_with(struct text t, const char *end) { return t.len >= strlen(end) && !memcmp(t.at + t.len - strlen(end), end, strlen(end)); }

int looks_like_xml(struct text file) {
    if (starts_with(file, "\xef\xbb\xbf")) file = behind(file, 3);
    while (file.len && file.at[0] && strchr(" \t\r\n", file.at[0])) file = behind(file, 1);
    return starts_with(file, "<");
}

struct text file_of(const struct listing *l) { return l->is_xml ? (struct text){l->xml, l->xml_len} : (struct text){l->bytes, l->len}; }

const char *kind_of_file(const struct listing *l) { return l->is_xml ? "web.xml" : "listing"; }

struct text take_line(struct text *rest) {
    const uint8_t *end = rest->len ? memchr(rest->at, '\n', rest->len) : NULL;
    struct text line = {rest->at, end ? (size_t)(end - rest->at) : rest->len};
    *rest = behind(*rest, line.len + (end != NULL));
    return line;
}

struct record record_of(struct text line) {
    const uint8_t *tab = line.len ? memchr(line.at, '\t', line.len) : NULL;
    struct text name = {line.at, tab ? (size_t)(tab - line.at) : line.len};
    struct record r = {UNKNOWN, behind(line, name.len + (tab != NULL))};
    for (int n = 0; n < UNKNOWN; n++)
        if (same(name, text_of(record_names[n]))) r.name = (enum name)n;
    return r;
}

enum kind kind_of(struct text pattern) {
    if (same(pattern, text_of("/"))) return DEFAULT;
    if (starts_with(pattern, "/") && ends_with(pattern, "/*")) return PREFIX;
    return starts_with(pattern, "*.") ? ENDING : EXACT;
}

struct set both(struct set a, struct set b) { return (struct set){{a.half[0] & b.half[0], a.half[1] & b.half[1]}}; }

int same_set(struct set a, struct set b) { return a.half[0] == b.half[0] && a.half[1] == b.half[1]; }

size_t find(const struct named *named, size_t count, struct text t) {
    size_t i = 0;
    while (i < count && !same(named[i].text, t)) i++;
    return i;
}

size_t find_text(const struct text *texts, size_t count, struct text t) {
    size_t i = 0;
    while (i < count && !same(texts[i], t)) i++;
    return i;
}

static void enter(struct named *named, size_t *count, struct text t, size_t collection) {
    size_t i = find(named, *count, t);
    if (i == *count) named[(*count)++] = (struct named){.text = t};
    named[i].in.half[collection / 64] |= (uint64_t)1 << collection % 64;
}

void map_listing(const struct listing *listing, struct map *map) {
    struct text rest = {listing->bytes, listing->len};
    size_t collections = 0;
    map->patterns = map->methods = map->roles = 0;
    while (rest.len) {
        struct record r = record_of(take_line(&rest));
        if (r.name == COLLECTION) collections++;
        if (r.name == PATTERN) enter(map->pattern, &map->patterns, r.field, collections - 1);
        if (r.name == METHOD || r.name == OMIT) enter(map->method, &map->methods, r.field, collections - 1);
        if (r.name == ROLE || (r.name == ALLOW && !same(r.field, text_of("*"))))
            if (find_text(map->role, map->roles, r.field) == map->roles) map->role[map->roles++] = r.field;
    }
}

static int fits(struct text pattern, struct text path) {
    struct text core = {pattern.at, pattern.len};
    switch (kind_of(pattern)) {
    case EXACT: return same(path, pattern.len ? pattern : text_of("/"));
    case PREFIX:
        core.len -= 2;
        return path.len >= core.len && !memcmp(path.at, core.at, core.len) && (path.len == core.len || path.at[core.len] == '/');
    case ENDING: /* an ending has neither dot nor slash of its own, so its dot is the path's last and no slash follows it */
        core = behind(core, 1);
        return path.len >= core.len && !memcmp(path.at + path.len - core.len, core.at, core.len);
    default: return 1;
    }
}

/* Exact before any prefix, a longer prefix before a shorter one, and so on. */
static size_t closeness(struct text pattern) {
    switch (kind_of(pattern)) {
    case EXACT: return 1000;
    case PREFIX: return 2 + pattern.len;
    case ENDING: return 1;
    default: return 0;
    }
}

size_t best_pattern(const struct map *map, struct text path) {
    size_t best = map->patterns;
    for (size_t i = 0; i < map->patterns; i++)
        if (fits(map->pattern[i].text, path) && (best == map->patterns || closeness(map->pattern[i].text) > closeness(map->pattern[best].text)))
            best = i;
    return best;
}
