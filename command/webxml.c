/* webxml.c: see webxml.h. As in markup.h, a function that meets the first fault says it and returns 0. */
#include <string.h>
#include "markup.h"
#include "webxml.h"

enum { DEEPEST = 8, CONSTRAINTS = 64, METHOD_LINES = 512 };

/* The elements that count, by where they stand; every other is passed over, and so are these in one that is. */
enum part {
    WEB_APP,
    SECURITY_ROLE,
    SECURITY_CONSTRAINT,
    WEB_RESOURCE_COLLECTION,
    AUTH_CONSTRAINT,
    URL_PATTERN,
    HTTP_METHOD,
    HTTP_METHOD_OMISSION,
    ROLE_NAME,
    USER_DATA_CONSTRAINT,
    DENY_UNCOVERED,
    PASSED_OVER
};
static const char *const part_names[PASSED_OVER] = {
    "web-app",     "security-role",        "security-constraint", "web-resource-collection", "auth-constraint",            "url-pattern",
    "http-method", "http-method-omission", "role-name",           "user-data-constraint",    "deny-uncovered-http-methods"};

struct element {
    enum part part;
    struct tag tag;
    size_t has[PASSED_OVER]; /* how many of these stand in it so far */
};

static struct walk {
    struct markup m;
    struct element open[DEEPEST];
    size_t depth;              /* how many are open */
    size_t count[PASSED_OVER]; /* in the whole file */
    struct text role[ROLES], method[METHODS];
    size_t roles, methods;
    size_t declared[ROLES];       /* the place of the tag that declares it, or 0 */
    uint8_t bytes[BUDQUARRY_XML]; /* of all texts, without their markup */
    size_t used, start;           /* the start of the one that is read */
    struct misspelt misspelt[MOST_MISSPELT];
    size_t misspelts;
} walk;

static struct element *innermost(struct walk *k) { return &k->open[k->depth - 1]; }

static int is_text(enum part part) { return part >= URL_PATTERN && part <= ROLE_NAME; }

/* A nested web-app is another element of no meaning. */
static enum part part_of(struct text name, enum part in) {
    for (int part = SECURITY_ROLE; part < PASSED_OVER; part++)
        if (same(name, text_of(part_names[part])) && (in != PASSED_OVER || part >= USER_DATA_CONSTRAINT)) return (enum part)part;
    return PASSED_OVER;
}

/* ---- arrangement */

/* Whether an element may stand directly in that one. */
static int is_home(enum part in, enum part part) {
    switch (part) {
    case SECURITY_ROLE:
    case SECURITY_CONSTRAINT: return in == WEB_APP;
    case WEB_RESOURCE_COLLECTION:
    case AUTH_CONSTRAINT: return in == SECURITY_CONSTRAINT;
    case ROLE_NAME: return in == SECURITY_ROLE || in == AUTH_CONSTRAINT;
    default: return in == WEB_RESOURCE_COLLECTION;
    }
}

static const char *home_of(enum part part) {
    switch (part) {
    case SECURITY_ROLE:
    case SECURITY_CONSTRAINT: return "directly in <web-app>";
    case WEB_RESOURCE_COLLECTION:
    case AUTH_CONSTRAINT: return "in a <security-constraint>";
    case ROLE_NAME: return "in a <security-role> or an <auth-constraint>";
    default: return "in a <web-resource-collection>";
    }
}

/* What is wrong with its turn, where its home is right. */
static const char *wrong_turn(const struct element *in, enum part part) {
    switch (part) {
    case WEB_RESOURCE_COLLECTION: return in->has[AUTH_CONSTRAINT] ? "collections stand before the <auth-constraint>. Move this one up." : NULL;
    case AUTH_CONSTRAINT:
        if (in->has[AUTH_CONSTRAINT]) return "a constraint has one <auth-constraint> at most. Put the role names into one.";
        return in->has[WEB_RESOURCE_COLLECTION] ? NULL : "the <auth-constraint> stands behind the collections. Move it down.";
    case URL_PATTERN: return in->has[HTTP_METHOD] || in->has[HTTP_METHOD_OMISSION] ? "patterns stand before the methods. Move this one up." : NULL;
    case HTTP_METHOD:
    case HTTP_METHOD_OMISSION:
        if (!in->has[URL_PATTERN]) return "methods stand behind the patterns. Move this one down.";
        if (!in->has[part == HTTP_METHOD ? HTTP_METHOD_OMISSION : HTTP_METHOD]) return NULL;
        return "a collection has <http-method> or <http-method-omission>, not both. Start another collection.";
    case ROLE_NAME: return in->part == SECURITY_ROLE && in->has[ROLE_NAME] ? "a <security-role> declares one role. Write one for each." : NULL;
    default: return NULL;
    }
}

static int stands_right(struct walk *k, enum part part, const struct tag *tag) {
    const struct element *in = innermost(k);
    if (part >= USER_DATA_CONSTRAINT) return 1;
    if (!is_home(in->part, part)) {
        say(k->m.w, "<%t> can't stand directly in <%t>: it stands %s.", &tag->name, &in->tag.name, home_of(part));
        return fault(&k->m, BUDQUARRY_BAD_XML, tag->here);
    }
    const char *why = wrong_turn(in, part);
    return !why || ill_formed(&k->m, tag->here, why);
}

/* Whether something is missing in an element that ends at a place. */
static int is_whole(struct walk *k, const struct element *e, size_t place) {
    uint32_t line = line_of(&k->m, e->tag.here);
    if (e->part == SECURITY_ROLE && !e->has[ROLE_NAME])
        say(k->m.w, "the <security-role> of line %u has no <role-name>.", line);
    else if (e->part == SECURITY_CONSTRAINT && !e->has[WEB_RESOURCE_COLLECTION])
        say(k->m.w, "the <security-constraint> of line %u has no <web-resource-collection>: it says who may, and not what.", line);
    else if (e->part == WEB_RESOURCE_COLLECTION && !e->has[URL_PATTERN])
        say(k->m.w, "the <web-resource-collection> of line %u has no <url-pattern>. For every path write <url-pattern>/*</url-pattern>.", line);
    else
        return 1;
    return fault(&k->m, BUDQUARRY_BAD_XML, place);
}

static int refused_element(struct walk *k, enum part part, size_t place) {
    if (part == USER_DATA_CONSTRAINT)
        say(k->m.w, "a <user-data-constraint> asks for a protected connection. That is not supported yet, and without it the rules would not be the "
                    "application's.");
    else
        say(k->m.w, "<deny-uncovered-http-methods> is of Servlet 3.1, and the rules here are those of 3.0, which leave such methods open. That is not "
                    "supported yet.");
    return fault(&k->m, BUDQUARRY_REFUSED_ELEMENT, place);
}

/* ---- too many */

static int past_most(struct walk *k, size_t place, const char *why) {
    say(k->m.w, "%s", why);
    return fault(&k->m, BUDQUARRY_PAST_MOST, place);
}

static int counts(struct walk *k, enum part part, size_t place) {
    if (part == PASSED_OVER) return 1;
    size_t n = ++k->count[part];
    innermost(k)->has[part]++;
    if (part == SECURITY_CONSTRAINT && n > CONSTRAINTS)
        return past_most(k, place, "this is constraint 65, and 64 are the most. Join constraints that allow the same roles: one may have many collections.");
    if (part == WEB_RESOURCE_COLLECTION && n > COLLECTIONS)
        return past_most(k, place, "this is collection 129, and 128 are the most. Join collections with the same methods: one may have many patterns.");
    return 1;
}

/* Enters a name once; its place, or `most` if there is no room. */
static size_t enter_name(struct text *names, size_t *count, size_t most, struct text name) {
    size_t i = find_text(names, *count, name);
    if (i == *count && i < most) names[(*count)++] = name;
    return i;
}

/* ---- texts */

static int several_lines(struct words *w, struct text t, const char *name) {
    if (!t.len || (!memchr(t.at, '\n', t.len) && !memchr(t.at, '\r', t.len))) return 0;
    say(w, "the text of <%s> goes over several lines. Write one line, and an element for each text.", name);
    return 1;
}

static int judge_pattern(struct walk *k, const struct tag *tag, struct text t) {
    if (!several_lines(k->m.w, t, "url-pattern")) bad_pattern(k->m.w, t);
    if (k->m.w->len) return fault(&k->m, BUDQUARRY_BAD_PATTERN, tag->here);
    if (k->count[URL_PATTERN] <= PATTERNS) return 1;
    return past_most(k, tag->here, "this is url-pattern 129, and 128 are the most. Let one pattern like /place/* stand for several.");
}

static int judge_method(struct walk *k, const struct tag *tag, struct text t) {
    size_t several = 0;
    while (several < t.len && (!t.at[several] || !strchr(" ,;/", t.at[several]))) several++;
    if (several < t.len)
        say(k->m.w, "one element holds one method, and here stand several, or more than its name. Give each method an element of its own.");
    else if (!several_lines(k->m.w, t, "http-method"))
        bad_method(k->m.w, t);
    if (k->m.w->len) return fault(&k->m, BUDQUARRY_BAD_NAME, tag->here);
    if (k->count[HTTP_METHOD] + k->count[HTTP_METHOD_OMISSION] > METHOD_LINES)
        return past_most(k, tag->here, "this is method or omission 513, and 512 are the most. Join collections with the same methods: one may have many "
                                       "patterns.");
    if (enter_name(k->method, &k->methods, METHODS, t) < METHODS) return 1;
    return past_most(k, tag->here, "this is the 32nd method that the file names, and 31 are the most. Take out methods that no rule needs by name.");
}

static void bad_role_name(struct words *w, struct text t, int declares) {
    if (!t.len)
        say(w, "the name is empty. Write it between <role-name> and </role-name>.");
    else if (same(t, text_of("*")) && declares)
        say(w, "* stands for every declared role, and only an <auth-constraint> may have it. Declare each role by its name.");
    else if (!same(t, text_of("*")) && !several_lines(w, t, "role-name"))
        bad_role(w, t);
}

static int judge_role(struct walk *k, const struct tag *tag, struct text t, int declares) {
    bad_role_name(k->m.w, t, declares);
    if (k->m.w->len) return fault(&k->m, BUDQUARRY_BAD_NAME, tag->here);
    if (same(t, text_of("*"))) return 1;
    size_t at = enter_name(k->role, &k->roles, ROLES, t);
    if (at == ROLES) return past_most(k, tag->here, "this is the 33rd role that the file names, and 32 are the most. Take out roles that no rule needs.");
    if (declares && k->declared[at]) {
        say(k->m.w, "the role %t is declared on line %u already. Take one of the two out.", &t, line_of(&k->m, k->declared[at]));
        return fault(&k->m, BUDQUARRY_ROLE_TWICE, tag->here);
    }
    if (declares) k->declared[at] = tag->here;
    return 1;
}

static int judge(struct walk *k, const struct element *e) {
    struct text t = {k->bytes + k->start, k->used - k->start};
    while (t.len && is_white(t.at[0])) t = behind(t, 1);
    while (t.len && is_white(t.at[t.len - 1])) t.len--;
    if (e->part == URL_PATTERN) return judge_pattern(k, &e->tag, t);
    if (e->part != ROLE_NAME) return judge_method(k, &e->tag, t);
    return judge_role(k, &e->tag, t, innermost(k)->part == SECURITY_ROLE);
}

/* ---- elements */

/* Takes the innermost element off, behind its end; what it lacks is at fault at its end's place. */
static int close_element(struct walk *k, size_t place) {
    struct element *e = innermost(k);
    if (!is_whole(k, e, place)) return 0;
    k->depth--;
    return !is_text(e->part) || judge(k, e);
}

static void note_misspelt(struct walk *k, const struct tag *tag) {
    struct text name = tag->name;
    while (memchr(name.at, ':', name.len)) name = behind(name, 1);
    const char *near = meant(name, part_names + SECURITY_ROLE, PASSED_OVER - SECURITY_ROLE);
    if (near && k->misspelts < MOST_MISSPELT) k->misspelt[k->misspelts++] = (struct misspelt){tag->name, near, line_of(&k->m, tag->here)};
}

static void open_element(struct walk *k, enum part part, const struct tag *tag) {
    k->open[k->depth++] = (struct element){.part = part, .tag = *tag};
    k->start = k->used;
}

static int read_element(struct walk *k) {
    struct tag tag;
    if (!read_start_tag(&k->m, &tag)) return 0;
    enum part part = part_of(tag.name, innermost(k)->part);
    if (!stands_right(k, part, &tag)) return 0;
    if (tag.is_empty && !is_whole(k, &(struct element){.part = part, .tag = tag}, tag.here)) return 0;
    if (k->depth == DEEPEST) {
        say(k->m.w, "<%t> is an element inside %u others, and 7 are the most.", &tag.name, (unsigned)DEEPEST);
        return fault(&k->m, BUDQUARRY_DEEP_XML, tag.here);
    }
    if (part == USER_DATA_CONSTRAINT || part == DENY_UNCOVERED) return refused_element(k, part, tag.here);
    if (!counts(k, part, tag.here)) return 0;
    if (part == PASSED_OVER && innermost(k)->part != PASSED_OVER) note_misspelt(k, &tag);
    open_element(k, part, &tag);
    return !tag.is_empty || close_element(k, tag.here);
}

static int stray_text(struct walk *k) {
    const struct element *in = innermost(k);
    struct text stray = behind(k->m.file, k->m.at);
    size_t n = 0;
    while (n < stray.len && n < 40 && stray.at[n] != '<' && !is_white(stray.at[n])) n++;
    stray.len = n;
    say(k->m.w, "in <%t> may stand elements and no text, and on line %u stands %t. Has a tag lost its brackets?", &in->tag.name,
        line_of(&k->m, k->m.at), &stray);
    return fault(&k->m, BUDQUARRY_BAD_XML, in->tag.here);
}

static int read_text_byte(struct walk *k) {
    const struct element *in = innermost(k);
    uint8_t meant;
    if (!is_text(in->part) && in->part != PASSED_OVER && !is_white(k->m.file.at[k->m.at])) return stray_text(k);
    if (!read_byte(&k->m, in->tag.here, &meant)) return 0;
    if (is_text(in->part)) k->bytes[k->used++] = meant;
    return 1;
}

static int tag_in_text(struct walk *k) {
    const struct text *name = &innermost(k)->tag.name;
    say(k->m.w, "<%t> holds text alone, and here a tag begins in it. Is </%t> missing?", name, name);
    return fault(&k->m, BUDQUARRY_BAD_XML, k->m.at);
}

/* The next tag, comment, byte or reference of what the innermost element holds. */
static int read_next(struct walk *k) {
    const struct element *in = innermost(k);
    size_t here = k->m.at;
    if (ended(&k->m)) {
        say(k->m.w, "<%t> of line %u is not closed: ", &in->tag.name, line_of(&k->m, in->tag.here));
        return runs_out(&k->m, "before its end tag");
    }
    if (is_at(&k->m, "</")) return read_end_tag(&k->m, &in->tag) && close_element(k, here);
    if (is_at(&k->m, "<!")) return read_comment(&k->m);
    if (!is_at(&k->m, "<")) return read_text_byte(k);
    return is_text(in->part) ? tag_in_text(k) : read_element(k);
}

/* ---- the file */

static int read_around(struct walk *k) {
    for (;;) {
        skip_white(&k->m);
        if (!is_at(&k->m, "<!")) return 1;
        if (!read_comment(&k->m)) return 0;
    }
}

static int no_root(struct walk *k) {
    if (!k->m.file.len) return ill_formed(&k->m, 0, "the file is empty. A web.xml has an element <web-app>.");
    if (ended(&k->m)) return ill_formed(&k->m, k->m.file.len - 1, "the file has no element <web-app>. Is it the right file?");
    if (starts_with(k->m.file, "constraints\t")) return ill_formed(&k->m, k->m.at, "this is a listing already, and no web.xml.");
    return ill_formed(&k->m, k->m.at, "a web.xml begins with <, and here stands something else. Is it the right file?");
}

static int is_root(struct walk *k, const struct tag *tag) {
    if (same(tag->name, text_of("web-app"))) return 1;
    if (ends_with(tag->name, ":web-app"))
        say(k->m.w, "the root element is <%t>, and prefixes are not read. Write <web-app>, and its elements without the prefix too.", &tag->name);
    else
        say(k->m.w, "the root element is <%t>, and must be <web-app>. Is it the right file?", &tag->name);
    return fault(&k->m, BUDQUARRY_BAD_XML, tag->here);
}

static int read_root(struct walk *k) {
    struct tag tag;
    if (!read_around(k)) return 0;
    if (!is_at(&k->m, "<")) return no_root(k);
    if (!read_start_tag(&k->m, &tag) || !is_root(k, &tag)) return 0;
    open_element(k, WEB_APP, &tag);
    if (tag.is_empty) k->depth = 0;
    return 1;
}

static int read_file(struct walk *k) {
    if (is_at(&k->m, "\xef\xbb\xbf")) k->m.at += 3;
    if (!read_declaration(&k->m) || !read_root(k)) return 0;
    while (k->depth)
        if (!read_next(k)) return 0;
    if (!read_around(k)) return 0;
    return ended(&k->m) || ill_formed(&k->m, k->m.at, "something stands behind the end of <web-app>, and nothing but comments may. Take it out.");
}

static void start_walk(const struct listing *l, struct words *w) {
    memset(&walk, 0, sizeof walk);
    walk.m = (struct markup){.file = file_of(l), .w = w};
}

size_t find_misspelt(const struct listing *l, struct misspelt found[MOST_MISSPELT]) {
    struct words unsaid = {.len = 0};
    start_walk(l, &unsaid);
    read_file(&walk);
    memcpy(found, walk.misspelt, walk.misspelts * sizeof *found);
    return walk.misspelts;
}

static void explain_fault(struct words *w, const struct refusal *r) {
    start_walk(r->listing, w);
    if (r->line == 1 && r->number == BUDQUARRY_BAD_XML && utf16(w, walk.m.file)) return;
    if (read_file(&walk) || walk.m.number != r->number || line_of(&walk.m, walk.m.fault) != r->line) w->len = 0;
}

void explain_web_xml(struct words *w, const struct refusal *r) {
    if (r->number == BUDQUARRY_LONG_XML)
        say(w, "a web.xml has at most 65,536 bytes, and this file has more. If it is a server's own, with its MIME types, take the application's instead.");
    else if (r->number == BUDQUARRY_LONG_LISTING)
        say(w, "the listing that the file means has more than 24,576 bytes, which are the most. Say the same with fewer patterns and methods.");
    else
        explain_fault(w, r);
}
