/* webxml.c: Item 3 of 02-change-requests.md, reading web.xml, by hand.
 *
 * The file is read from its first byte on by functions that call each other
 * as elements hold content and content holds elements; each hands back
 * whether it went well, and the first fault stops all of them.  What is wanted
 * is kept on the way and written at the end.  "Here" of a tag or comment is the
 * place of its `<`.  Sentences of 02 are quoted; where 02 leaves a choice the
 * comment says "Choice:", and docs/WEBXML.md has the reason.
 */
#include "second.h"

#include <stdlib.h>

enum {
    WORK_NUMBERS = 4096,
    MOST_FILE = 65536,
    MOST_LISTING = 24576,
    DEEPEST = 8,
    /* 01's most-numbers */
    MOST_CONSTRAINTS = 64,
    MOST_COLLECTIONS = 128,
    MOST_PATTERNS = 128,
    MOST_METHOD_LINES = 512,
    MOST_ROLE_NAMES = 32,
    MOST_METHODS = 31,
    /* 02 has no most-number of allowed names; each takes 24 bytes or more. */
    MOST_ALLOWS = MOST_FILE / 24 + 1
};

/* ------------------------------------------------------------------ texts */

struct text {
    const uint8_t *at;
    size_t length;
};

static struct text piece(const uint8_t *at, size_t length)
{
    struct text t = { at, length };
    return t;
}

static int same(struct text a, struct text b)
{
    if (a.length != b.length)
        return 0;
    for (size_t i = 0; i < a.length; i++)
        if (a.at[i] != b.at[i])
            return 0;
    return 1;
}

static int is(struct text t, const char *s)
{
    size_t n = 0;
    while (s[n] != 0)
        n++;
    return same(t, piece((const uint8_t *)s, n));
}

static int among(struct text t, const struct text *list, size_t count)
{
    for (size_t i = 0; i < count; i++)
        if (same(t, list[i]))
            return 1;
    return 0;
}

/* ------------------------------------------------------------------ bytes */

/* Choice: white space is XML's. */
static int is_white(uint8_t b)
{
    return b == 9 || b == 10 || b == 13 || b == 32;
}

/* Choice: the bytes that may stand in a file; "bytes above 127 pass". */
static int may_stand(uint8_t b)
{
    return is_white(b) || b >= 32;
}

static int starts_name(uint8_t b)
{
    return (b >= 'A' && b <= 'Z') || (b >= 'a' && b <= 'z') || b == '_' || b == ':' || b >= 128;
}

static int in_name(uint8_t b)
{
    return starts_name(b) || (b >= '0' && b <= '9') || b == '-' || b == '.';
}

/* ------------------------------------------------- 01's names and patterns */

/* "Text bytes: 32 to 126 and 128 to 255." */
static int all_text_bytes(struct text t)
{
    for (size_t i = 0; i < t.length; i++)
        if (t.at[i] < 32 || t.at[i] == 127)
            return 0;
    return 1;
}

static int is_token_byte(uint8_t b)
{
    static const char marks[] = "!#$%&'*+-.^_`|~";
    for (size_t i = 0; marks[i] != 0; i++)
        if (b == (uint8_t)marks[i])
            return 1;
    return (b >= 'A' && b <= 'Z') || (b >= 'a' && b <= 'z') || (b >= '0' && b <= '9');
}

/* "Role names: 1 to 64 text bytes, no space first or last", `*` among them. */
static int is_allowed_name(struct text t)
{
    if (t.length < 1 || t.length > 64)
        return 0;
    return all_text_bytes(t) && t.at[0] != ' ' && t.at[t.length - 1] != ' ';
}

/* "`*` is only for `allow`." */
static int is_role_name(struct text t)
{
    return is_allowed_name(t) && !is(t, "*");
}

/* "Methods: 1 to 24 token bytes, case kept." */
static int is_method(struct text t)
{
    if (t.length < 1 || t.length > 24)
        return 0;
    for (size_t i = 0; i < t.length; i++)
        if (!is_token_byte(t.at[i]))
            return 0;
    return 1;
}

/* "Patterns: 0 to 255 text bytes, no space last", of a kind that 01 has; Item
 *  1: "no pattern may hold a `;` now". */
static int is_pattern(struct text t)
{
    if (t.length > 255 || !all_text_bytes(t))
        return 0;
    if (t.length == 0)
        return 1;
    if (t.at[t.length - 1] == ' ')
        return 0;
    for (size_t i = 0; i < t.length; i++)
        if (t.at[i] == ';')
            return 0;
    /* the default, prefixes and exact ones all start with `/` */
    if (t.at[0] == '/')
        return 1;
    /* "`*.` then E, where E is at least one byte and has no `.`, `/` or `*`" */
    if (t.length < 3 || t.at[0] != '*' || t.at[1] != '.')
        return 0;
    for (size_t i = 2; i < t.length; i++)
        if (t.at[i] == '.' || t.at[i] == '/' || t.at[i] == '*')
            return 0;
    return 1;
}

/* -------------------------------------------------------- what is wanted */

struct allow { size_t constraint; struct text name; };
struct pattern { size_t collection; struct text text; };
struct method { size_t collection; int omission; struct text name; };

struct portal {
    struct text declared[MOST_ROLE_NAMES];
    size_t declareds;
    struct text role[MOST_ROLE_NAMES];       /* declared or allowed, each once */
    size_t roles;
    int has_auth[MOST_CONSTRAINTS];          /* an `auth-constraint` stands in it */
    size_t constraints;
    struct allow allow[MOST_ALLOWS];
    size_t allows;
    size_t constraint_of[MOST_COLLECTIONS];
    size_t collections;
    struct pattern pattern[MOST_PATTERNS];
    size_t patterns;
    struct method method[MOST_METHOD_LINES];
    size_t method_lines;
    struct text method_name[MOST_METHODS];   /* of either kind, each once */
    size_t methods;
    uint8_t bytes[MOST_FILE];                /* of all these texts */
    size_t used;
};

/* ------------------------------------------------------------- the reader */

struct reader {
    const uint8_t *at;
    size_t length, place;
    uint32_t number;                         /* of the fault, and its place */
    size_t fault;
    struct portal *p;
};

static int fault(struct reader *r, uint32_t number, size_t place)
{
    r->number = number;
    r->fault = place;
    return 0;
}

/* "or the last [line] where the file runs out" */
static int runs_out(struct reader *r)
{
    return fault(r, 17, r->length == 0 ? 0 : r->length - 1);
}

/* Lines count from 1. */
static uint32_t line_of(const struct reader *r, size_t place)
{
    uint32_t line = 1;
    for (size_t i = 0; i < place; i++)
        if (r->at[i] == 10)
            line++;
    return line;
}

static int ended(const struct reader *r)
{
    return r->place == r->length;
}

static uint8_t byte(const struct reader *r)
{
    return r->at[r->place];
}

/* Whether the bytes from the place on are these. */
static int starts(const struct reader *r, const char *s)
{
    for (size_t i = 0; s[i] != 0; i++)
        if (r->length - r->place <= i || r->at[r->place + i] != (uint8_t)s[i])
            return 0;
    return 1;
}

static void skip_white(struct reader *r)
{
    while (!ended(r) && is_white(byte(r)))
        r->place++;
}

/* ------------------------------------------------------------------ markup */

/* This byte and no other; `here` is the markup's that it belongs to. */
static int expect(struct reader *r, size_t here, uint8_t b)
{
    if (ended(r))
        return runs_out(r);
    if (byte(r) != b)
        return fault(r, 17, here);
    r->place++;
    return 1;
}

static int read_name(struct reader *r, size_t here, struct text *name)
{
    if (ended(r))
        return runs_out(r);
    if (!starts_name(byte(r)))
        return fault(r, 17, here);
    size_t start = r->place;
    while (!ended(r) && in_name(byte(r)))
        r->place++;
    *name = piece(r->at + start, r->place - start);
    return 1;
}

/* "The five named entities are resolved; no numeric references."  One that is
 * cut off by the file's end is a fault and no running out. */
static int read_reference(struct reader *r, size_t here, uint8_t *meant)
{
    static const struct { const char *spelt; size_t length; uint8_t meant; } five[] = {
        { "&lt;", 4, '<' }, { "&gt;", 4, '>' }, { "&amp;", 5, '&' },
        { "&quot;", 6, '"' }, { "&apos;", 6, '\'' }
    };
    for (size_t i = 0; i < 5; i++)
        if (starts(r, five[i].spelt)) {
            r->place += five[i].length;
            *meant = five[i].meant;
            return 1;
        }
    return fault(r, 17, here);
}

static int read_value(struct reader *r, size_t here)
{
    if (ended(r))
        return runs_out(r);
    uint8_t quote = byte(r), meant;
    if (quote != '"' && quote != '\'')
        return fault(r, 17, here);
    r->place++;
    for (;;) {
        if (ended(r))
            return runs_out(r);
        if (byte(r) == quote) {
            r->place++;
            return 1;
        }
        if (byte(r) == '&') {
            if (!read_reference(r, here, &meant))
                return 0;
        } else if (byte(r) == '<' || !may_stand(byte(r))) {
            return fault(r, 17, here);
        } else {
            r->place++;
        }
    }
}

/* Attributes, and white space or none behind them.  Choice: two of one name
 * are not looked for. */
static int read_attributes(struct reader *r, size_t here)
{
    for (;;) {
        size_t before = r->place;
        struct text name;
        skip_white(r);
        if (ended(r) || !starts_name(byte(r)))
            return 1;
        if (r->place == before)
            return fault(r, 17, here);
        if (!read_name(r, here, &name))
            return 0;
        skip_white(r);
        if (!expect(r, here, '='))
            return 0;
        skip_white(r);
        if (!read_value(r, here))
            return 0;
    }
}

struct tag {
    size_t here;
    struct text name;
    int empty;                               /* `<a/>` */
};

static int read_start_tag(struct reader *r, struct tag *t)
{
    t->here = r->place++;
    t->empty = 0;
    if (!read_name(r, t->here, &t->name))
        return 0;
    if (!read_attributes(r, t->here))
        return 0;
    if (!ended(r) && byte(r) == '/') {
        t->empty = 1;
        r->place++;
    }
    return expect(r, t->here, '>');
}

static int read_end_tag(struct reader *r, struct text name)
{
    size_t here = r->place;
    r->place += 2;
    for (size_t i = 0; i < name.length; i++)
        if (!expect(r, here, name.at[i]))
            return 0;
    skip_white(r);
    return expect(r, here, '>');
}

/* At `<!`: a comment, or a fault.  Choice: as in XML no `--` stands inside. */
static int read_comment(struct reader *r)
{
    size_t here = r->place;
    if (!starts(r, "<!--"))
        return fault(r, 17, here);
    r->place += 4;
    for (;;) {
        if (ended(r))
            return runs_out(r);
        if (starts(r, "--")) {
            r->place += 2;
            return expect(r, here, '>');
        }
        if (!may_stand(byte(r)))
            return fault(r, 17, here);
        r->place++;
    }
}

/* ------------------------------------------------------------------- texts */

static void keep(struct reader *r, uint8_t b)
{
    if (r->p->used == sizeof r->p->bytes)
        abort();
    r->p->bytes[r->p->used++] = b;
}

/* "White space round a text is dropped." */
static struct text trimmed(struct text t)
{
    while (t.length > 0 && is_white(t.at[t.length - 1]))
        t.length--;
    while (t.length > 0 && is_white(t.at[0])) {
        t.at++;
        t.length--;
    }
    return t;
}

/* What stands in a `role-name`, `url-pattern`, `http-method` or
 * `http-method-omission`, up to and with its end tag.  Choice: a comment in it
 * adds nothing, and no element stands in it. */
static int read_text(struct reader *r, const struct tag *tag, struct text *value)
{
    size_t start = r->p->used;
    while (!tag->empty) {
        if (ended(r))
            return runs_out(r);
        uint8_t b = byte(r);
        if (b == '<') {
            if (starts(r, "</"))
                break;
            if (!starts(r, "<!"))
                return fault(r, 17, r->place);
            if (!read_comment(r))
                return 0;
            continue;
        }
        if (b == '&') {
            if (!read_reference(r, tag->here, &b))
                return 0;
        } else if (!may_stand(b)) {
            return fault(r, 17, tag->here);
        } else {
            r->place++;
        }
        keep(r, b);
    }
    if (!tag->empty && !read_end_tag(r, tag->name))
        return 0;
    *value = trimmed(piece(r->p->bytes + start, r->p->used - start));
    return 1;
}

/* ---------------------------------------------------------------- elements */

enum kind {
    WEB_APP, SECURITY_ROLE, SECURITY_CONSTRAINT, COLLECTION, AUTH_CONSTRAINT,
    URL_PATTERN, METHOD, OMISSION, ROLE_NAME,
    REFUSED, PASSED_OVER
};

static enum kind kind_named(struct text name)
{
    if (is(name, "security-role"))
        return SECURITY_ROLE;
    if (is(name, "security-constraint"))
        return SECURITY_CONSTRAINT;
    if (is(name, "web-resource-collection"))
        return COLLECTION;
    if (is(name, "auth-constraint"))
        return AUTH_CONSTRAINT;
    if (is(name, "url-pattern"))
        return URL_PATTERN;
    if (is(name, "http-method"))
        return METHOD;
    if (is(name, "http-method-omission"))
        return OMISSION;
    if (is(name, "role-name"))
        return ROLE_NAME;
    /* "`user-data-constraint` and `deny-uncovered-http-methods` are refused
     *  anywhere" */
    if (is(name, "user-data-constraint") || is(name, "deny-uncovered-http-methods"))
        return REFUSED;
    /* "other well-nested elements are passed over"; a `web-app` inside too */
    return PASSED_OVER;
}

/* What stood in an element so far. */
struct seen {
    size_t collections, auths, patterns, methods, omissions, role_names;
};

/* Whether a wanted element may stand in that one, behind what was seen. */
static int in_place(enum kind in, enum kind child, const struct seen *s)
{
    switch (in) {
    case WEB_APP:
        /* "Its children `security-role` and `security-constraint` are wanted" */
        return child == SECURITY_ROLE || child == SECURITY_CONSTRAINT;
    case SECURITY_CONSTRAINT:
        /* "In a constraint stand one or more collections, then at most one
         *  `auth-constraint`" */
        if (child == COLLECTION)
            return s->auths == 0;
        return child == AUTH_CONSTRAINT && s->collections > 0 && s->auths == 0;
    case COLLECTION:
        /* "in a collection one or more `url-pattern`, then only `http-method`
         *  or only `http-method-omission`" */
        if (child == URL_PATTERN)
            return s->methods == 0 && s->omissions == 0;
        if (child == METHOD)
            return s->patterns > 0 && s->omissions == 0;
        return child == OMISSION && s->patterns > 0 && s->methods == 0;
    case SECURITY_ROLE:
        /* "in a `security-role` one `role-name`" */
        return child == ROLE_NAME && s->role_names == 0;
    case AUTH_CONSTRAINT:
        /* "in an `auth-constraint` any number" */
        return child == ROLE_NAME;
    default:
        return 1;
    }
}

/* Whether an element ends with something missing. */
static int lacks(enum kind kind, const struct seen *s)
{
    if (kind == SECURITY_ROLE)
        return s->role_names == 0;
    if (kind == SECURITY_CONSTRAINT)
        return s->collections == 0;
    if (kind == COLLECTION)
        return s->patterns == 0;
    return 0;
}

/* "32 distinct role names (declared or allowed, `*` not counted)"; gives
 *  whether there is room for this one. */
static int count_role(struct portal *p, struct text name)
{
    if (is(name, "*") || among(name, p->role, p->roles))
        return 1;
    if (p->roles == MOST_ROLE_NAMES)
        return 0;
    p->role[p->roles++] = name;
    return 1;
}

/* The texts, each with 01's refusals: 6, 7, 9, 8. */
static uint32_t take_declared(struct portal *p, struct text name)
{
    if (!is_role_name(name))
        return 6;
    if (among(name, p->declared, p->declareds))
        return 9;
    if (!count_role(p, name))
        return 8;
    p->declared[p->declareds++] = name;
    return 0;
}

static uint32_t take_allowed(struct portal *p, struct text name)
{
    if (!is_allowed_name(name))
        return 6;
    if (!count_role(p, name))
        return 8;
    struct allow a = { p->constraints - 1, name };
    p->allow[p->allows++] = a;
    return 0;
}

static uint32_t take_pattern(struct portal *p, struct text text)
{
    if (!is_pattern(text))
        return 7;
    if (p->patterns == MOST_PATTERNS)
        return 8;
    struct pattern a = { p->collections - 1, text };
    p->pattern[p->patterns++] = a;
    return 0;
}

static uint32_t take_method(struct portal *p, struct text name, int omission)
{
    if (!is_method(name))
        return 6;
    if (p->method_lines == MOST_METHOD_LINES)
        return 8;
    if (!among(name, p->method_name, p->methods)) {
        if (p->methods == MOST_METHODS)
            return 8;
        p->method_name[p->methods++] = name;
    }
    struct method a = { p->collections - 1, omission, name };
    p->method[p->method_lines++] = a;
    return 0;
}

/* A text: "A line is that of the `<` of the tag at fault or round the text".
 * Choice: it is judged behind its end tag. */
static int read_wanted_text(struct reader *r, enum kind in, enum kind kind,
                            const struct tag *tag)
{
    struct text value;
    uint32_t number = 0;
    if (!read_text(r, tag, &value))
        return 0;
    if (kind == URL_PATTERN)
        number = take_pattern(r->p, value);
    else if (kind == METHOD || kind == OMISSION)
        number = take_method(r->p, value, kind == OMISSION);
    else if (in == SECURITY_ROLE)
        number = take_declared(r->p, value);
    else
        number = take_allowed(r->p, value);
    if (number != 0)
        return fault(r, number, tag->here);
    return 1;
}

static void see(struct seen *s, enum kind kind)
{
    if (kind == COLLECTION)
        s->collections++;
    if (kind == AUTH_CONSTRAINT)
        s->auths++;
    if (kind == URL_PATTERN)
        s->patterns++;
    if (kind == METHOD)
        s->methods++;
    if (kind == OMISSION)
        s->omissions++;
    if (kind == ROLE_NAME)
        s->role_names++;
}

/* Enters a constraint, a collection or an `auth-constraint`; gives the refusal
 * 8 or 0. */
static uint32_t take_start(struct portal *p, enum kind kind)
{
    if (kind == SECURITY_CONSTRAINT) {
        if (p->constraints == MOST_CONSTRAINTS)
            return 8;
        p->has_auth[p->constraints++] = 0;
    }
    if (kind == COLLECTION) {
        if (p->collections == MOST_COLLECTIONS)
            return 8;
        p->constraint_of[p->collections++] = p->constraints - 1;
    }
    if (kind == AUTH_CONSTRAINT)
        p->has_auth[p->constraints - 1] = 1;
    return 0;
}

static int read_content(struct reader *r, enum kind kind, const struct tag *tag, size_t depth);

/* An element in a content: `in` is what it stands in, `s` what stood there
 * before it.  For one start tag: not well formed, out of place, 18, 19, 8. */
static int read_element(struct reader *r, enum kind in, struct seen *s, size_t depth)
{
    struct tag tag;
    static const struct seen nothing;
    if (!read_start_tag(r, &tag))
        return 0;
    enum kind kind = kind_named(tag.name);
    /* in what is passed over every name is passed over but the refused ones */
    if (in == PASSED_OVER && kind != REFUSED)
        kind = PASSED_OVER;
    /* "or such a name out of place, is 17" */
    if (kind != REFUSED && kind != PASSED_OVER && !in_place(in, kind, s))
        return fault(r, 17, tag.here);
    /* `<security-role/>` and the like: something is missing, at the same place
     * and so, by 02's order, before 8 */
    if (tag.empty && lacks(kind, &nothing))
        return fault(r, 17, tag.here);
    /* "18 deeper than 8" */
    if (depth > DEEPEST)
        return fault(r, 18, tag.here);
    /* "19 a refused element" */
    if (kind == REFUSED)
        return fault(r, 19, tag.here);
    see(s, kind);
    if (take_start(r->p, kind) != 0)
        return fault(r, 8, tag.here);
    if (kind == URL_PATTERN || kind == METHOD || kind == OMISSION || kind == ROLE_NAME)
        return read_wanted_text(r, in, kind, &tag);
    return read_content(r, kind, &tag, depth);
}

/* A byte of text, or a reference, directly in an element that is no text. */
static int read_byte(struct reader *r, enum kind kind, const struct tag *tag)
{
    uint8_t meant;
    /* "Stray text there .. is 17" */
    if (kind != PASSED_OVER && !is_white(byte(r)))
        return fault(r, 17, tag->here);
    if (byte(r) == '&')
        return read_reference(r, tag->here, &meant);
    if (!may_stand(byte(r)))
        return fault(r, 17, tag->here);
    r->place++;
    return 1;
}

/* All of an element behind its start tag, its end tag too. */
static int read_content(struct reader *r, enum kind kind, const struct tag *tag, size_t depth)
{
    struct seen seen = { 0, 0, 0, 0, 0, 0 };
    if (tag->empty)
        return 1;
    for (;;) {
        if (ended(r))
            return runs_out(r);
        if (starts(r, "</"))
            break;
        int well;
        if (starts(r, "<!"))
            well = read_comment(r);
        else if (byte(r) == '<')
            well = read_element(r, kind, &seen, depth + 1);
        else
            well = read_byte(r, kind, tag);
        if (!well)
            return 0;
    }
    size_t here = r->place;
    if (!read_end_tag(r, tag->name))
        return 0;
    if (lacks(kind, &seen))
        return fault(r, 17, here);
    return 1;
}

/* ---------------------------------------------------------------- the file */

/* White space and comments outside the root, up to something else. */
static int read_around(struct reader *r)
{
    for (;;) {
        skip_white(r);
        if (!starts(r, "<!"))
            return 1;
        if (!read_comment(r))
            return 0;
    }
}

/* The XML declaration, at the start alone; what it says is not looked at. */
static int read_declaration(struct reader *r)
{
    size_t here = r->place;
    if (!starts(r, "<?xml"))
        return 1;
    r->place += 5;
    return read_attributes(r, here) && expect(r, here, '?') && expect(r, here, '>');
}

static int read_file(struct reader *r)
{
    struct tag root;
    if (starts(r, "\xef\xbb\xbf"))
        r->place += 3;
    if (!read_declaration(r))
        return 0;
    if (!read_around(r))
        return 0;
    if (ended(r))
        return runs_out(r);
    if (byte(r) != '<')
        return fault(r, 17, r->place);
    if (!read_start_tag(r, &root))
        return 0;
    /* "the root `web-app` being 1" */
    if (!is(root.name, "web-app"))
        return fault(r, 17, root.here);
    if (!read_content(r, WEB_APP, &root, 1))
        return 0;
    if (!read_around(r))
        return 0;
    if (!ended(r))
        return fault(r, 17, r->place);
    return 1;
}

/* ------------------------------------------------------------- the listing */

struct out {
    uint8_t bytes[MOST_FILE + 64];           /* a record is shorter than its element */
    size_t length;
};

static void put(struct out *o, struct text t)
{
    if (t.length > sizeof o->bytes - o->length)
        abort();
    for (size_t i = 0; i < t.length; i++)
        o->bytes[o->length++] = t.at[i];
}

static void put_line(struct out *o, const char *record, struct text field)
{
    size_t n = 0;
    while (record[n] != 0)
        n++;
    put(o, piece((const uint8_t *)record, n));
    put(o, field);
    put(o, piece((const uint8_t *)"\n", 1));
}

static void put_collection(struct out *o, const struct portal *p, size_t collection)
{
    put_line(o, "collection", piece(NULL, 0));
    for (size_t i = 0; i < p->patterns; i++)
        if (p->pattern[i].collection == collection)
            put_line(o, "pattern\t", p->pattern[i].text);
    for (size_t i = 0; i < p->method_lines; i++)
        if (p->method[i].collection == collection)
            put_line(o, p->method[i].omission ? "omit\t" : "method\t", p->method[i].name);
}

static void put_constraint(struct out *o, const struct portal *p, size_t constraint)
{
    /* "`open` means no authorization constraint.  `auth` without `allow` closes
     *  to everyone." */
    put_line(o, p->has_auth[constraint] ? "constraint\tauth" : "constraint\topen", piece(NULL, 0));
    for (size_t i = 0; i < p->allows; i++)
        if (p->allow[i].constraint == constraint)
            put_line(o, "allow\t", p->allow[i].name);
    for (size_t i = 0; i < p->collections; i++)
        if (p->constraint_of[i] == constraint)
            put_collection(o, p, i);
}

static void put_listing(struct out *o, const struct portal *p)
{
    o->length = 0;
    put_line(o, "constraints\t1", piece(NULL, 0));
    /* "Roles go first in the listing." */
    for (size_t i = 0; i < p->declareds; i++)
        put_line(o, "role\t", p->declared[i]);
    for (size_t i = 0; i < p->constraints; i++)
        put_constraint(o, p, i);
    put_line(o, "end", piece(NULL, 0));
}

/* ---------------------------------------------------------------- the call */

static struct second_written written(uint32_t number, uint32_t side, uint32_t line, size_t length)
{
    struct second_written w = { number, side, line, length };
    return w;
}

/* Everything behind 1 and 16. */
static struct second_written convert(struct reader *r, struct out *o,
                                     uint8_t *listing, size_t listing_len)
{
    if (!read_file(r))
        return written(r->number, 1, line_of(r, r->fault), 0);
    put_listing(o, r->p);
    /* "2 where the listing made passes 24,576 bytes; 15" */
    if (o->length > MOST_LISTING)
        return written(2, 1, 0, 0);
    /* Item 2: "15, room short, .. with side and line 0, the length needed
     *  handed back and the buffer unchanged" */
    if (listing_len < o->length)
        return written(15, 0, 0, o->length);
    for (size_t i = 0; i < o->length; i++)
        listing[i] = o->bytes[i];
    return written(0, 0, 0, o->length);
}

struct second_written second_from_web_xml(const uint8_t *xml, size_t xml_len,
                                          uint8_t *listing, size_t listing_len,
                                          uint32_t *work, size_t work_len)
{
    /* 1: "work table below 4,096 numbers" */
    if (work_len < WORK_NUMBERS)
        return written(1, 0, 0, 0);
    for (size_t i = 0; i < WORK_NUMBERS; i++)
        work[i] = 0;
    /* "16 over 65,536 bytes", "16 comes right after 1" */
    if (xml_len > MOST_FILE)
        return written(16, 1, 0, 0);
    struct portal *p = malloc(sizeof *p);
    struct out *o = malloc(sizeof *o);
    if (p == NULL || o == NULL)
        abort();
    p->declareds = p->roles = p->constraints = p->allows = p->collections = 0;
    p->patterns = p->method_lines = p->methods = p->used = 0;
    struct reader r = { xml, xml_len, 0, 0, 0, p };
    struct second_written w = convert(&r, o, listing, listing_len);
    free(p);
    free(o);
    return w;
}
