/* second.c: 01-scope.md, sentence by sentence, with Item 1 of
 * 02-change-requests.md.
 *
 * Every rule stands under the sentence of 01 it follows, quoted; one of 02
 * says so.  Where 01 leaves a choice the comment says "Choice:".  ("=>" stands
 * for the tab that 01 prints as an arrow.)
 */
#include "second.h"

#include <stdlib.h>

/* ------------------------------------------------------------------ texts */

/* A piece of somebody else's bytes. */
struct text {
    const uint8_t *at;
    size_t length;
};

static struct text piece(const uint8_t *at, size_t length)
{
    struct text t = { at, length };
    return t;
}

/* A text of this program's own. */
static struct text literal(const char *s)
{
    size_t n = 0;
    while (s[n] != 0)
        n++;
    return piece((const uint8_t *)s, n);
}

/* The text without its first `skip` bytes. */
static struct text after(struct text t, size_t skip)
{
    if (skip == 0)
        return t;
    return piece(t.at + skip, t.length - skip);
}

/* "Everything is compared byte for byte." */
static int same(struct text a, struct text b)
{
    if (a.length != b.length)
        return 0;
    for (size_t i = 0; i < a.length; i++)
        if (a.at[i] != b.at[i])
            return 0;
    return 1;
}

static int starts_with(struct text t, struct text start)
{
    if (t.length < start.length)
        return 0;
    return same(piece(t.at, start.length), start);
}

static int ends_with(struct text t, struct text tail)
{
    if (t.length < tail.length)
        return 0;
    return same(after(t, t.length - tail.length), tail);
}

static int occurs_inside(struct text inner, struct text t)
{
    for (size_t i = 0; i + inner.length <= t.length; i++)
        if (same(piece(t.at + i, inner.length), inner))
            return 1;
    return 0;
}

/* ---------------------------------------------------------------- classes */

/* "Text bytes: 32 to 126 and 128 to 255." */
static int is_text_byte(uint8_t b)
{
    return (b >= 32 && b <= 126) || b >= 128;
}

/* "Token bytes: letters, digits and !#$%&'*+-.^_`|~ (RFC 9110)." */
static int is_token_byte(uint8_t b)
{
    if (b >= 'A' && b <= 'Z')
        return 1;
    if (b >= 'a' && b <= 'z')
        return 1;
    if (b >= '0' && b <= '9')
        return 1;
    struct text marks = literal("!#$%&'*+-.^_`|~");
    for (size_t i = 0; i < marks.length; i++)
        if (b == marks.at[i])
            return 1;
    return 0;
}

static int all_text_bytes(struct text t)
{
    for (size_t i = 0; i < t.length; i++)
        if (!is_text_byte(t.at[i]))
            return 0;
    return 1;
}

static int all_token_bytes(struct text t)
{
    for (size_t i = 0; i < t.length; i++)
        if (!is_token_byte(t.at[i]))
            return 0;
    return 1;
}

/* "Role names: 1 to 64 text bytes, no space first or last;
 *  `*` is only for `allow`." */
static int is_role_name(struct text t)
{
    if (t.length < 1 || t.length > 64)
        return 0;
    if (!all_text_bytes(t))
        return 0;
    if (t.at[0] == ' ' || t.at[t.length - 1] == ' ')
        return 0;
    if (same(t, literal("*")))
        return 0;
    return 1;
}

/* "Methods: 1 to 24 token bytes, case kept." */
static int is_method_name(struct text t)
{
    if (t.length < 1 || t.length > 24)
        return 0;
    return all_token_bytes(t);
}

/* --------------------------------------------------------------- patterns */

enum pattern_kind { BAD_PATTERN, EXACT, PREFIX, EXTENSION, DEFAULT };

/* "`*.` then E, where E is at least one byte and has no `.`, `/` or `*`" */
static int is_extension_text(struct text t)
{
    if (!starts_with(t, literal("*.")))
        return 0;
    struct text e = after(t, 2);
    if (e.length < 1)
        return 0;
    for (size_t i = 0; i < e.length; i++)
        if (e.at[i] == '.' || e.at[i] == '/' || e.at[i] == '*')
            return 0;
    return 1;
}

static enum pattern_kind kind_of(struct text t)
{
    /* "Patterns: 0 to 255 text bytes, no space last." */
    if (t.length > 255)
        return BAD_PATTERN;
    if (!all_text_bytes(t))
        return BAD_PATTERN;
    if (t.length > 0 && t.at[t.length - 1] == ' ')
        return BAD_PATTERN;
    /* 02, Item 1: "no pattern may hold a `;` now.  Refusals: a pattern with
     *  `;` gives 7." */
    if (occurs_inside(literal(";"), t))
        return BAD_PATTERN;
    /* "empty: matches the path `/` only, as an exact match." */
    if (t.length == 0)
        return EXACT;
    /* "`/` alone: default, matches every path." */
    if (same(t, literal("/")))
        return DEFAULT;
    /* "starts with `/` and ends with `/ *`: a prefix" (without the blank) */
    if (starts_with(t, literal("/")) && ends_with(t, literal("/*")))
        return PREFIX;
    /* "`*.` then E" */
    if (is_extension_text(t))
        return EXTENSION;
    /* "anything else starting with `/`: exact." */
    if (starts_with(t, literal("/")))
        return EXACT;
    /* "all other text is refused." */
    return BAD_PATTERN;
}

/* "with P the text before `/ *`" (without the blank) */
static struct text p_of(struct text prefix_pattern)
{
    return piece(prefix_pattern.at, prefix_pattern.length - 2);
}

/* "`*.` then E" */
static struct text e_of(struct text extension_pattern)
{
    return after(extension_pattern, 2);
}

/* Whether a pattern, of the kind given, matches the path. */
static int matches(enum pattern_kind kind, struct text pattern, struct text path)
{
    switch (kind) {
    case EXACT:
        /* "empty: matches the path `/` only, as an exact match." */
        if (pattern.length == 0)
            return same(path, literal("/"));
        /* "anything else starting with `/`: exact." */
        return same(path, pattern);
    case PREFIX: {
        /* "it matches P itself and every path that starts with P followed
         *  by `/`.  `/ *` matches everything." */
        struct text p = p_of(pattern);
        if (same(path, p))
            return 1;
        return starts_with(path, p) && starts_with(after(path, p.length), literal("/"));
    }
    case EXTENSION: {
        /* "matches when the last segment (after the last `/`) has a `.` and E
         *  is what follows the last one." */
        size_t segment = 0;
        for (size_t i = 0; i < path.length; i++)
            if (path.at[i] == '/')
                segment = i + 1;
        size_t dots = 0, follows = 0;
        for (size_t i = segment; i < path.length; i++)
            if (path.at[i] == '.') {
                dots++;
                follows = i + 1;
            }
        return dots > 0 && same(after(path, follows), e_of(pattern));
    }
    case DEFAULT:
        /* "`/` alone: default, matches every path." */
        return 1;
    case BAD_PATTERN:
        break;
    }
    return 0;
}

/* ---------------------------------------------------------------- listing */

/* "Most per listing: 24,576 bytes, 64 constraints, 128 collections, 128
 *  `pattern` lines, 512 `method` and `omit` lines together, 32 distinct role
 *  names (declared or allowed, `*` not counted), 31 distinct methods." */
enum {
    MOST_BYTES = 24576,
    MOST_CONSTRAINTS = 64,
    MOST_COLLECTIONS = 128,
    MOST_PATTERN_LINES = 128,
    MOST_METHOD_LINES = 512,
    MOST_ROLE_NAMES = 32,
    MOST_METHODS = 31,
    /* 01 has no most-number of `allow` lines; each takes 8 bytes or more. */
    MOST_ALLOW_LINES = MOST_BYTES / 8
};

struct constraint {
    int open;                  /* `constraint=>open`, else `constraint=>auth` */
};

struct allow_line {
    size_t constraint;
    struct text name;
};

struct collection {
    size_t constraint;
};

struct pattern_line {
    size_t collection;
    struct text text;
    enum pattern_kind kind;    /* kind_of(text), kept */
};

struct method_line {
    size_t collection;
    int omit;
    struct text name;
};

struct listing {
    struct text declared[MOST_ROLE_NAMES];
    size_t declareds;
    struct text role[MOST_ROLE_NAMES];     /* declared or allowed, by first appearance */
    size_t roles;
    struct text method[MOST_METHODS];      /* named by method or omit, by first appearance */
    size_t methods;
    struct constraint constraint[MOST_CONSTRAINTS];
    size_t constraints;
    struct allow_line allow[MOST_ALLOW_LINES];
    size_t allows;
    struct collection collection[MOST_COLLECTIONS];
    size_t collections;
    struct pattern_line pattern[MOST_PATTERN_LINES];
    size_t patterns;
    struct method_line method_line[MOST_METHOD_LINES];
    size_t method_lines;
};

static int among(struct text t, const struct text *list, size_t count)
{
    for (size_t i = 0; i < count; i++)
        if (same(t, list[i]))
            return 1;
    return 0;
}

/* The records, and the first line. */
enum record {
    FIRST_LINE, ROLE, CONSTRAINT_OPEN, CONSTRAINT_AUTH, ALLOW, COLLECTION,
    PATTERN, METHOD, OMIT, END,
    CONSTRAINT,                /* of a kind not looked at yet */
    UNKNOWN
};

static enum record record_named(struct text name)
{
    if (same(name, literal("role")))
        return ROLE;
    if (same(name, literal("constraint")))
        return CONSTRAINT;
    if (same(name, literal("allow")))
        return ALLOW;
    if (same(name, literal("collection")))
        return COLLECTION;
    if (same(name, literal("pattern")))
        return PATTERN;
    if (same(name, literal("method")))
        return METHOD;
    if (same(name, literal("omit")))
        return OMIT;
    if (same(name, literal("end")))
        return END;
    return UNKNOWN;
}

/* The table "record | may follow". */
static int may_follow(enum record r, enum record last)
{
    switch (r) {
    case ROLE:
        /* "first line, `role`" */
        return last == FIRST_LINE || last == ROLE;
    case CONSTRAINT:
        /* "first line, `role`, `pattern`, `method`, `omit`" */
        return last == FIRST_LINE || last == ROLE || last == PATTERN ||
               last == METHOD || last == OMIT;
    case ALLOW:
        /* "`constraint=>auth`, `allow`" */
        return last == CONSTRAINT_AUTH || last == ALLOW;
    case COLLECTION:
        /* "any `constraint`, `allow`, `pattern`, `method`, `omit`" */
        return last == CONSTRAINT_OPEN || last == CONSTRAINT_AUTH || last == ALLOW ||
               last == PATTERN || last == METHOD || last == OMIT;
    case PATTERN:
        /* "`collection`, `pattern`" */
        return last == COLLECTION || last == PATTERN;
    case METHOD:
        /* "`pattern`, `method`" */
        return last == PATTERN || last == METHOD;
    case OMIT:
        /* "`pattern`, `omit`" */
        return last == PATTERN || last == OMIT;
    case END:
        /* "first line, `role`, `pattern`, `method`, `omit`" */
        return last == FIRST_LINE || last == ROLE || last == PATTERN ||
               last == METHOD || last == OMIT;
    default:
        return 0;
    }
}

/* One later line, without its byte 10.  Gives the refusal number or 0, and
 * enters the line into the listing.  "within a line 4, 5, 6, 7, 9, 8" */
static uint32_t take_line(struct listing *l, struct text line, enum record *last)
{
    /* "fields parted by one tab".  Choice: as many fields as tabs and one
     * more, and an empty field counts. */
    size_t fields = 1;
    size_t name_length = line.length;
    for (size_t i = 0; i < line.length; i++)
        if (line.at[i] == 9) {
            if (fields == 1)
                name_length = i;
            fields++;
        }
    enum record r = record_named(piece(line.at, name_length));

    /* 4: "unknown record name, wrong number of fields" */
    if (r == UNKNOWN)
        return 4;
    if (fields != (size_t)(r == COLLECTION || r == END ? 1 : 2))
        return 4;
    struct text field = piece(line.at, 0);
    if (fields == 2)
        field = after(line, name_length + 1);

    /* 5: "record in a wrong place".  Choice: the place is looked at before a
     * constraint's kind; both kinds may follow the same records. */
    if (!may_follow(r, *last))
        return 5;

    /* 6: "bad role or method name, or constraint kind" */
    if (r == ROLE && !is_role_name(field))
        return 6;
    /* "`*` is only for `allow`." */
    if (r == ALLOW && !is_role_name(field) && !same(field, literal("*")))
        return 6;
    if ((r == METHOD || r == OMIT) && !is_method_name(field))
        return 6;
    if (r == CONSTRAINT) {
        if (same(field, literal("open")))
            r = CONSTRAINT_OPEN;
        else if (same(field, literal("auth")))
            r = CONSTRAINT_AUTH;
        else
            return 6;
    }

    /* 7: "bad pattern" */
    if (r == PATTERN && kind_of(field) == BAD_PATTERN)
        return 7;

    /* 9: "role declared twice" */
    if (r == ROLE && among(field, l->declared, l->declareds))
        return 9;

    /* 8: "a most-number other than 2's passed by this line" */
    switch (r) {
    case ROLE:
    case ALLOW:
        /* "32 distinct role names (declared or allowed, `*` not counted)" */
        if (!same(field, literal("*")) && !among(field, l->role, l->roles)) {
            if (l->roles == MOST_ROLE_NAMES)
                return 8;
            l->role[l->roles++] = field;
        }
        if (r == ROLE) {
            l->declared[l->declareds++] = field;
        } else {
            l->allow[l->allows].constraint = l->constraints - 1;
            l->allow[l->allows].name = field;
            l->allows++;
        }
        break;
    case CONSTRAINT_OPEN:
    case CONSTRAINT_AUTH:
        /* "64 constraints" */
        if (l->constraints == MOST_CONSTRAINTS)
            return 8;
        l->constraint[l->constraints].open = (r == CONSTRAINT_OPEN);
        l->constraints++;
        break;
    case COLLECTION:
        /* "128 collections" */
        if (l->collections == MOST_COLLECTIONS)
            return 8;
        l->collection[l->collections].constraint = l->constraints - 1;
        l->collections++;
        break;
    case PATTERN:
        /* "128 `pattern` lines" */
        if (l->patterns == MOST_PATTERN_LINES)
            return 8;
        l->pattern[l->patterns].collection = l->collections - 1;
        l->pattern[l->patterns].text = field;
        l->pattern[l->patterns].kind = kind_of(field);
        l->patterns++;
        break;
    case METHOD:
    case OMIT:
        /* "512 `method` and `omit` lines together" */
        if (l->method_lines == MOST_METHOD_LINES)
            return 8;
        /* "31 distinct methods".  Choice: those named by `omit` count too. */
        if (!among(field, l->method, l->methods)) {
            if (l->methods == MOST_METHODS)
                return 8;
            l->method[l->methods++] = field;
        }
        l->method_line[l->method_lines].collection = l->collections - 1;
        l->method_line[l->method_lines].omit = (r == OMIT);
        l->method_line[l->method_lines].name = field;
        l->method_lines++;
        break;
    default:
        break;
    }
    *last = r;
    return 0;
}

static struct second_report refuse(uint32_t number, uint32_t side, uint32_t line)
{
    struct second_report r = { number, side, line };
    return r;
}

/* "The reader walks the listing line by line, holding the lent text and its
 *  place in it." */
static struct second_report parse(struct text lent, uint32_t side, struct listing *l)
{
    l->declareds = l->roles = l->methods = l->constraints = 0;
    l->allows = l->collections = l->patterns = l->method_lines = 0;

    /* 2: "listing over 24,576 bytes", line 0 */
    if (lent.length > MOST_BYTES)
        return refuse(2, side, 0);

    enum record last = FIRST_LINE;
    size_t place = 0;
    uint32_t line = 1;
    for (;;) {
        /* The line at the place: up to the next byte 10, if there is one. */
        size_t stop = place;
        while (stop < lent.length && lent.at[stop] != 10)
            stop++;
        int ended = stop < lent.length;
        struct text here = piece(lent.at, 0);
        if (place < lent.length)
            here = piece(lent.at + place, stop - place);

        if (line == 1) {
            /* "The first line is exactly `constraints=>1`."  3: "first line
             *  isn't as above, or lacks its byte 10, or no bytes" */
            if (!ended || !same(here, literal("constraints\t1")))
                return refuse(3, side, 1);
        } else if (last == END) {
            /* "After the `end` line any byte gives 10 at the next line,
             *  nothing else" */
            if (place < lent.length)
                return refuse(10, side, line);
            return refuse(0, 0, 0);
        } else {
            /* "running out gives 10 at the line after the last" */
            if (place == lent.length)
                return refuse(10, side, line);
            /* 4: "on a later line: .. or no byte 10" */
            if (!ended)
                return refuse(4, side, line);
            uint32_t number = take_line(l, here, &last);
            if (number != 0)
                return refuse(number, side, line);
        }
        place = stop + 1;
        line++;
    }
}

/* --------------------------------------------------------------- deciding */

/* "a caller: not logged in (0), or logged in (1) with 0 to 32 role names" */
struct caller {
    int logged_in;
    struct text name[32];
    size_t names;
};

/* "Best match: exact; else the longest P; else extension; else default; else
 *  none.  At most one pattern text is best."
 * Gives whether there is one. */
static int best_pattern(const struct listing *l, struct text path, struct text *best)
{
    const struct pattern_line *line;
    const struct pattern_line *stop = l->pattern + l->patterns;
    /* "exact" */
    for (line = l->pattern; line < stop; line++)
        if (line->kind == EXACT && matches(EXACT, line->text, path)) {
            *best = line->text;
            return 1;
        }
    /* "else the longest P" */
    int found = 0;
    for (line = l->pattern; line < stop; line++)
        if (line->kind == PREFIX && matches(PREFIX, line->text, path))
            if (!found || p_of(line->text).length > p_of(*best).length) {
                *best = line->text;
                found = 1;
            }
    if (found)
        return 1;
    /* "else extension" */
    for (line = l->pattern; line < stop; line++)
        if (line->kind == EXTENSION && matches(EXTENSION, line->text, path)) {
            *best = line->text;
            return 1;
        }
    /* "else default" */
    for (line = l->pattern; line < stop; line++)
        if (line->kind == DEFAULT && matches(DEFAULT, line->text, path)) {
            *best = line->text;
            return 1;
        }
    /* "else none" */
    return 0;
}

/* "A collection without `method` and `omit` covers all methods; with `method`,
 *  those; with `omit`, all but those." */
static int covers(const struct listing *l, size_t collection, struct text method)
{
    int has_method = 0, has_omit = 0, named = 0;
    for (size_t i = 0; i < l->method_lines; i++) {
        if (l->method_line[i].collection != collection)
            continue;
        if (l->method_line[i].omit)
            has_omit = 1;
        else
            has_method = 1;
        if (same(l->method_line[i].name, method))
            named = 1;
    }
    if (has_method)
        return named;
    if (has_omit)
        return !named;
    return 1;
}

enum combined_kind { COMBINED_OPEN, COMBINED_CLOSED, COMBINED_UNION };

struct combined {
    enum combined_kind kind;
    int in_union[MOST_ROLE_NAMES];         /* of listing.role */
};

/* "auth without allow" */
static int has_allow(const struct listing *l, size_t constraint)
{
    for (size_t i = 0; i < l->allows; i++)
        if (l->allow[i].constraint == constraint)
            return 1;
    return 0;
}

static struct combined combine(const struct listing *l, int has_best, struct text best,
                               struct text method)
{
    struct combined c;
    c.kind = COMBINED_OPEN;
    for (size_t i = 0; i < MOST_ROLE_NAMES; i++)
        c.in_union[i] = 0;

    /* "No best pattern: open." */
    if (!has_best)
        return c;

    /* "Otherwise take the constraints with a collection that has that exact
     *  pattern text and covers the method." */
    int taken[MOST_CONSTRAINTS] = { 0 };
    int any = 0;
    for (size_t i = 0; i < l->patterns; i++) {
        size_t collection = l->pattern[i].collection;
        if (same(l->pattern[i].text, best) && covers(l, collection, method)) {
            taken[l->collection[collection].constraint] = 1;
            any = 1;
        }
    }

    /* "None: open." */
    if (!any)
        return c;

    /* "Combine them: if any is `auth` without `allow`, closed." */
    for (size_t k = 0; k < l->constraints; k++)
        if (taken[k] && !l->constraint[k].open && !has_allow(l, k)) {
            c.kind = COMBINED_CLOSED;
            return c;
        }

    /* "Else if any is `open`, open." */
    for (size_t k = 0; k < l->constraints; k++)
        if (taken[k] && l->constraint[k].open)
            return c;

    /* "Else the union of the allowed roles, `*` adding all declared ones.  A
     *  `*` with no declared role adds nothing and closes nothing." */
    c.kind = COMBINED_UNION;
    for (size_t i = 0; i < l->allows; i++) {
        if (!taken[l->allow[i].constraint])
            continue;
        /* "`allow=>*` stands for every declared role." */
        int star = same(l->allow[i].name, literal("*"));
        for (size_t r = 0; r < l->roles; r++) {
            if (star && among(l->role[r], l->declared, l->declareds))
                c.in_union[r] = 1;
            if (!star && same(l->allow[i].name, l->role[r]))
                c.in_union[r] = 1;
        }
    }
    return c;
}

/* The table "answer | when". */
static uint32_t answer_for(const struct listing *l, const struct combined *c,
                           const struct caller *who)
{
    /* "open: combined open" */
    if (c->kind == COMBINED_OPEN)
        return SECOND_OPEN;
    /* "closed: combined closed, any caller" */
    if (c->kind == COMBINED_CLOSED)
        return SECOND_CLOSED;
    /* "login wanted: a union, caller not logged in" */
    if (!who->logged_in)
        return SECOND_LOGIN_WANTED;
    /* "by role: caller holds a role of the union" */
    for (size_t r = 0; r < l->roles; r++)
        if (c->in_union[r] && among(l->role[r], who->name, who->names))
            return SECOND_BY_ROLE;
    /* "role lacking: a union, caller logged in, none held" */
    return SECOND_ROLE_LACKING;
}

/* "1 to 1,024 text bytes" */
enum { MOST_PATH_BYTES = 1024 };

/* 11: "A request is a path (1 to 1,024 text bytes, first `/`)".  02, Item 1:
 * "the 1,024 limit counts the bytes before dropping".  Choice: the text bytes
 * and the first `/` are looked at before dropping too. */
static int is_path(struct text path)
{
    if (path.length < 1 || path.length > MOST_PATH_BYTES)
        return 0;
    if (path.at[0] != '/')
        return 0;
    return all_text_bytes(path);
}

/* 02, Item 1: "In every segment drop the bytes from the first `;` up to the
 *  next `/` or the end, then match".  The path without them, in a place of
 * MOST_PATH_BYTES; it may be shorter. */
static struct text without_parameters(struct text path, uint8_t *place)
{
    size_t length = 0;
    int dropping = 0;
    for (size_t i = 0; i < path.length; i++) {
        if (path.at[i] == ';')
            dropping = 1;
        if (path.at[i] == '/')
            dropping = 0;
        if (!dropping)
            place[length++] = path.at[i];
    }
    return piece(place, length);
}

/* 13: "bad caller (bad name, `*`, over 32 names, a last name unended, names
 *  though not logged in, a login number above 1)"; gives whether it is good. */
static int take_caller(uint32_t login, struct text names, struct caller *who)
{
    who->names = 0;
    who->logged_in = (login == 1);
    /* "a login number above 1" */
    if (login > 1)
        return 0;
    /* "names though not logged in" */
    if (login == 0 && names.length > 0)
        return 0;
    /* "0 to 32 role names, each ended by byte 10 in one lent text" */
    size_t place = 0;
    while (place < names.length) {
        size_t stop = place;
        while (stop < names.length && names.at[stop] != 10)
            stop++;
        /* "a last name unended" */
        if (stop == names.length)
            return 0;
        struct text name = piece(names.at + place, stop - place);
        /* "bad name, `*`" */
        if (!is_role_name(name))
            return 0;
        /* "over 32 names".  "A repeated name counts towards the 32 each time
         *  and changes nothing else." */
        if (who->names == 32)
            return 0;
        who->name[who->names++] = name;
        place = stop + 1;
    }
    return 1;
}

/* ------------------------------------------------------------ work tables */

enum { WORK_NUMBERS = 4096, LEAST_ANSWER = 1024 };

/* "After every call the first 4,096 work numbers are zero and the rest as
 *  before; with refusal 1 none changes." */
static void zero_work(uint32_t *work)
{
    for (size_t i = 0; i < WORK_NUMBERS; i++)
        work[i] = 0;
}

/* -------------------------------------------------------- the three calls */

struct second_report second_read(const uint8_t *listing, size_t listing_len,
                                 uint32_t *work, size_t work_len)
{
    /* 1: "work table below 4,096 numbers", side 0, line 0 */
    if (work_len < WORK_NUMBERS)
        return refuse(1, 0, 0);
    zero_work(work);
    /* "Reading alone answers `accepted` or a refusal."  side: "1 old or only" */
    struct listing l;
    return parse(piece(listing, listing_len), 1, &l);
}

static struct second_decision decision(uint32_t number, uint32_t side, uint32_t line,
                                       uint32_t answer)
{
    struct second_decision d = { number, side, line, answer };
    return d;
}

struct second_decision second_decide(const uint8_t *listing, size_t listing_len,
                                     const uint8_t *path, size_t path_len,
                                     const uint8_t *method, size_t method_len,
                                     uint32_t login,
                                     const uint8_t *roles, size_t roles_len,
                                     uint32_t *work, size_t work_len)
{
    if (work_len < WORK_NUMBERS)
        return decision(1, 0, 0, 0);
    zero_work(work);

    struct listing l;
    struct second_report r = parse(piece(listing, listing_len), 1, &l);
    if (r.number != 0)
        return decision(r.number, r.side, r.line, 0);

    /* "then 11, 12, 13" */
    struct text request_path = piece(path, path_len);
    struct text request_method = piece(method, method_len);
    struct caller who;
    if (!is_path(request_path))
        return decision(11, 0, 0, 0);
    if (!is_method_name(request_method))
        return decision(12, 0, 0, 0);
    if (!take_caller(login, piece(roles, roles_len), &who))
        return decision(13, 0, 0, 0);

    uint8_t place[MOST_PATH_BYTES];
    struct text matched_path = without_parameters(request_path, place);
    struct text best = piece(path, 0);
    int has_best = best_pattern(&l, matched_path, &best);
    struct combined c = combine(&l, has_best, best, request_method);
    /* "Without a refusal number, side and line are 0." */
    return decision(0, 0, 0, answer_for(&l, &c, &who));
}

/* -------------------------------------------------------------- comparing */

enum {
    MOST_FILLER = 16,                              /* `q` and a number */
    MOST_PATH = 255 + 1 + MOST_FILLER + 1 + 255,
    MOST_TRIAL_METHODS = 2 * MOST_METHODS + 1,
    MOST_TRIAL_CALLERS = 1 + 2 * MOST_ROLE_NAMES
};

struct written {
    uint8_t bytes[MOST_PATH];
    size_t length;
};

static void put(struct written *w, struct text t)
{
    if (t.length > sizeof w->bytes - w->length)
        abort();
    for (size_t i = 0; i < t.length; i++)
        w->bytes[w->length++] = t.at[i];
}

static struct text text_of(const struct written *w)
{
    return piece(w->bytes, w->length);
}

/* A letter and a number in decimal. */
static struct written numbered(const char *letter, size_t number)
{
    struct written w;
    char digits[24];
    size_t n = sizeof digits - 1;
    digits[n] = 0;
    do {
        digits[--n] = (char)('0' + number % 10);
        number /= 10;
    } while (number > 0);
    w.length = 0;
    put(&w, literal(letter));
    put(&w, literal(digits + n));
    return w;
}

static int in_a_pattern(const struct listing *l, struct text t)
{
    for (size_t i = 0; i < l->patterns; i++)
        if (occurs_inside(t, l->pattern[i].text))
            return 1;
    return 0;
}

/* "Filler: the first of `q0`, `q1`, `q2`.. that occurs inside no pattern text
 *  of either listing." */
static struct written filler_of(const struct listing *old_l, const struct listing *new_l)
{
    for (size_t n = 0;; n++) {
        struct written w = numbered("q", n);
        if (!in_a_pattern(old_l, text_of(&w)) && !in_a_pattern(new_l, text_of(&w)))
            return w;
    }
}

/* "Filler method: the first of `Q0`, `Q1`.. named in neither."  Choice: named
 * by `method` or `omit`. */
static struct written filler_method_of(const struct listing *old_l,
                                       const struct listing *new_l)
{
    for (size_t n = 0;; n++) {
        struct written w = numbered("Q", n);
        if (!among(text_of(&w), old_l->method, old_l->methods) &&
            !among(text_of(&w), new_l->method, new_l->methods))
            return w;
    }
}

struct trials {
    struct written *path;
    size_t paths, room;
    struct text method[MOST_TRIAL_METHODS];
    size_t methods;
    struct caller caller[MOST_TRIAL_CALLERS];
    size_t callers;
};

static void add_path(struct trials *t, struct text a, struct text b, struct text c,
                     struct text d)
{
    if (t->paths == t->room) {
        t->room = t->room == 0 ? 64 : 2 * t->room;
        t->path = realloc(t->path, t->room * sizeof *t->path);
        if (t->path == NULL)
            abort();
    }
    struct written *w = &t->path[t->paths++];
    w->length = 0;
    put(w, a);
    put(w, b);
    put(w, c);
    put(w, d);
}

/* "P`/`filler`.`E for each extension pattern" of one listing, in order */
static void add_extended(struct trials *t, struct text p, struct text slash_filler,
                         const struct listing *l)
{
    for (size_t i = 0; i < l->patterns; i++) {
        if (l->pattern[i].kind == EXTENSION)
            add_path(t, p, slash_filler, literal("."), e_of(l->pattern[i].text));
    }
}

static void add_paths_of(struct trials *t, const struct listing *l,
                         struct text slash_filler,
                         const struct listing *old_l, const struct listing *new_l)
{
    struct text nothing = literal("");
    for (size_t i = 0; i < l->patterns; i++) {
        struct text text = l->pattern[i].text;
        switch (l->pattern[i].kind) {
        case EXACT:
            /* "exact, the text itself (empty: `/`)" */
            if (text.length == 0)
                add_path(t, literal("/"), nothing, nothing, nothing);
            else
                add_path(t, text, nothing, nothing, nothing);
            break;
        case PREFIX:
            /* "prefix, P`/`filler, then P`/`filler`.`E for each extension
             *  pattern of new, then old" */
            add_path(t, p_of(text), slash_filler, nothing, nothing);
            add_extended(t, p_of(text), slash_filler, new_l);
            add_extended(t, p_of(text), slash_filler, old_l);
            break;
        case EXTENSION:
            /* "extension, `/`filler`.`E" */
            add_path(t, slash_filler, literal("."), e_of(text), nothing);
            break;
        case DEFAULT:
            /* "default, `/`filler" */
            add_path(t, slash_filler, nothing, nothing, nothing);
            break;
        case BAD_PATTERN:
            break;
        }
    }
}

static void add_role_callers(struct trials *t, const struct listing *l)
{
    for (size_t i = 0; i < l->roles; i++) {
        int known = 0;
        for (size_t k = 1; k < t->callers; k++)
            if (same(t->caller[k].name[0], l->role[i]))
                known = 1;
        if (known)
            continue;
        struct caller *who = &t->caller[t->callers++];
        who->logged_in = 1;
        who->names = 1;
        who->name[0] = l->role[i];
    }
}

/* "The first two are grants." */
static int is_grant(uint32_t answer)
{
    return answer == SECOND_OPEN || answer == SECOND_BY_ROLE;
}

/* The answer's text, written elsewhere first. */
struct answer_text {
    uint8_t bytes[LEAST_ANSWER];
    size_t length;
};

static void say(struct answer_text *a, struct text t)
{
    if (t.length > sizeof a->bytes - a->length)
        abort();
    for (size_t i = 0; i < t.length; i++)
        a->bytes[a->length++] = t.at[i];
}

static void compare_listings(const struct listing *old_l, const struct listing *new_l,
                             struct answer_text *a)
{
    struct written filler = filler_of(old_l, new_l);
    struct written filler_method = filler_method_of(old_l, new_l);
    struct written slash_filler;
    slash_filler.length = 0;
    put(&slash_filler, literal("/"));
    put(&slash_filler, text_of(&filler));

    struct trials t;
    t.path = NULL;
    t.paths = t.room = t.methods = t.callers = 0;

    /* "Trial paths, taking the `pattern` lines of the new listing and then the
     *  old in order: ..  Last of all, `/`filler." */
    add_paths_of(&t, new_l, text_of(&slash_filler), old_l, new_l);
    add_paths_of(&t, old_l, text_of(&slash_filler), old_l, new_l);
    add_path(&t, text_of(&slash_filler), literal(""), literal(""), literal(""));

    /* "Trial methods: those of new by first appearance, then further ones of
     *  old, then the filler method." */
    for (size_t i = 0; i < new_l->methods; i++)
        t.method[t.methods++] = new_l->method[i];
    for (size_t i = 0; i < old_l->methods; i++)
        if (!among(old_l->method[i], new_l->method, new_l->methods))
            t.method[t.methods++] = old_l->method[i];
    t.method[t.methods++] = text_of(&filler_method);

    /* "Trial callers: not logged in; then logged in with one role, over names
     *  by first appearance in new (declared or allowed), then further ones of
     *  old." */
    t.caller[0].logged_in = 0;
    t.caller[0].names = 0;
    t.callers = 1;
    add_role_callers(&t, new_l);
    add_role_callers(&t, old_l);

    /* "Paths vary slowest, callers fastest."  02, Item 1: "Trial paths stay: no
     *  pattern may hold a `;` now", so there is nothing to drop.  Each trial is
     * decided on both listings by the last three steps of second_decide; the
     * best pattern depends on the path alone and the combined rule on path and
     * method alone, so those two steps stand outside the inner loops.  A trial
     * that new grants and old doesn't makes new wider; the first one is shown. */
    for (size_t p = 0; p < t.paths; p++) {
        struct text path = text_of(&t.path[p]);
        struct text old_best = piece(path.at, 0), new_best = piece(path.at, 0);
        int old_has = best_pattern(old_l, path, &old_best);
        int new_has = best_pattern(new_l, path, &new_best);
        for (size_t m = 0; m < t.methods; m++) {
            struct combined old_c = combine(old_l, old_has, old_best, t.method[m]);
            struct combined new_c = combine(new_l, new_has, new_best, t.method[m]);
            for (size_t k = 0; k < t.callers; k++) {
                const struct caller *who = &t.caller[k];
                uint32_t old_answer = answer_for(old_l, &old_c, who);
                uint32_t new_answer = answer_for(new_l, &new_c, who);
                if (!is_grant(new_answer) || is_grant(old_answer))
                    continue;
                /* "Wider: four lines, verdict, path, method, caller, the last
                 *  `caller=>none` or `caller=>role=>NAME`."  Choice: each
                 *  line, the last too, ends with byte 10. */
                say(a, literal("verdict\twider\n"));
                say(a, literal("path\t"));
                say(a, path);
                say(a, literal("\n"));
                say(a, literal("method\t"));
                say(a, t.method[m]);
                say(a, literal("\n"));
                if (!who->logged_in) {
                    say(a, literal("caller\tnone\n"));
                } else {
                    say(a, literal("caller\trole\t"));
                    say(a, who->name[0]);
                    say(a, literal("\n"));
                }
                free(t.path);
                return;
            }
        }
    }
    /* "No wider: one line `verdict=>no wider`." */
    say(a, literal("verdict\tno wider\n"));
    free(t.path);
}

static struct second_comparison comparison(uint32_t number, uint32_t side, uint32_t line,
                                           size_t length)
{
    struct second_comparison c = { number, side, line, length };
    return c;
}

struct second_comparison second_compare(const uint8_t *old_listing, size_t old_len,
                                        const uint8_t *new_listing, size_t new_len,
                                        uint8_t *answer, size_t answer_len,
                                        uint32_t *work, size_t work_len)
{
    /* 1: "work table below 4,096 numbers" */
    if (work_len < WORK_NUMBERS)
        return comparison(1, 0, 0, 0);
    zero_work(work);
    /* 14: "answer buffer below 1,024 bytes (comparing)" */
    if (answer_len < LEAST_ANSWER)
        return comparison(14, 0, 0, 0);

    /* "all of the old listing's, its 2 included, before the new one's" */
    struct listing old_l, new_l;
    struct second_report r = parse(piece(old_listing, old_len), 1, &old_l);
    if (r.number != 0)
        return comparison(r.number, r.side, r.line, 0);
    r = parse(piece(new_listing, new_len), 2, &new_l);
    if (r.number != 0)
        return comparison(r.number, r.side, r.line, 0);

    /* "The answer goes to a lent buffer as text; bytes past it don't change.
     *  The number handed back is its length." */
    struct answer_text a;
    a.length = 0;
    compare_listings(&old_l, &new_l, &a);
    for (size_t i = 0; i < a.length; i++)
        answer[i] = a.bytes[i];
    return comparison(0, 0, 0, a.length);
}
