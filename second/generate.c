/* generate.c: test cases from a seed.  See generate.h. */
#include "generate.h"

#include <stdio.h>
#include <string.h>

/* ----------------------------------------------------------------- chance */

struct rng { uint64_t state; };

static uint64_t mix(uint64_t z)
{
    z = (z ^ (z >> 30)) * 0xbf58476d1ce4e5b9u;
    z = (z ^ (z >> 27)) * 0x94d049bb133111ebu;
    return z ^ (z >> 31);
}

static uint64_t next(struct rng *r)
{
    r->state += 0x9e3779b97f4a7c15u;
    return mix(r->state);
}

static unsigned below(struct rng *r, unsigned n)
{
    return (unsigned)((next(r) >> 32) * n >> 32);
}

/* p out of a hundred */
static int chance(struct rng *r, unsigned p)
{
    return below(r, 100) < p;
}

uint8_t generate_garbage_byte(uint64_t garbage, size_t place)
{
    return (uint8_t)((garbage + place * 0x9e3779b1u) >> 8 | 1);
}

uint32_t generate_garbage_number(uint64_t garbage, size_t place)
{
    return (uint32_t)(garbage + place * 0x9e3779b1u) | 1;
}

/* ------------------------------------------------------------------ texts */

struct bytes { const char *at; size_t length; };
#define BYTES(s) { s, sizeof s - 1 }
#define COUNT(a) (sizeof (a) / sizeof (a)[0])

#define X16 "xxxxxxxxxxxxxxxx"
#define X64 X16 X16 X16 X16
#define X256 X64 X64 X64 X64

struct out { uint8_t *at; size_t length, room; };

static void put(struct out *o, const void *from, size_t n)
{
    if (n > o->room - o->length)
        n = o->room - o->length;
    if (n > 0)
        memcpy(o->at + o->length, from, n);
    o->length += n;
}

static void puts_(struct out *o, const char *s) { put(o, s, strlen(s)); }
static void putb(struct out *o, struct bytes b) { put(o, b.at, b.length); }
static void put1(struct out *o, unsigned b)
{
    uint8_t c = (uint8_t)b;
    put(o, &c, 1);
}

static void putn(struct out *o, const char *before, unsigned number, const char *behind)
{
    char s[128];
    snprintf(s, sizeof s, "%s%u%s", before, number, behind);
    puts_(o, s);
}

/* ------------------------------------------------------------------ pools */

static const struct bytes ROLES[] = {
    BYTES("a"), BYTES("b"), BYTES("c"), BYTES("ab"), BYTES("**"), BYTES("*a"),
    BYTES("a b"), BYTES("\xc3\xa9"), BYTES("\xff"), BYTES("q0"), BYTES("Q0"),
    BYTES("owner"), BYTES("assessor"), BYTES("adjuster"), BYTES("abcdefgh"),
    BYTES("abcdefghi"), BYTES("abcdefghabcdefgh"), BYTES("abcdefghXabcdefgh"),
    BYTES("longpref-A-longsuff"), BYTES("longpref-B-longsuff"),
    BYTES("longpref-A-middle-longsuff"), BYTES("longpref-A-muddle-longsuff"),
    BYTES("role"), BYTES("allow"), BYTES("none"), BYTES("A"),
    BYTES(X16 X16 X16 "xxxxxxxxxxxxxxxA"), BYTES(X16 X16 X16 "xxxxxxxxxxxxxxxB"),
    BYTES(";"), BYTES("a;b")
};

static const struct bytes BAD_ROLES[] = {
    BYTES(""), BYTES(" a"), BYTES("a "), BYTES(" "), BYTES("*"), BYTES(X64 "x"),
    BYTES("a\tb"), BYTES("a\x7f"), BYTES("\x01"), BYTES("a\r"), BYTES("\0"),
    BYTES("a\0"), BYTES("a\x1f" "b"), BYTES("\t"), BYTES("a\t"), BYTES(X64 X16)
};

static const struct bytes METHODS[] = {
    BYTES("GET"), BYTES("PUT"), BYTES("DELETE"), BYTES("Q0"), BYTES("Q1"), BYTES("Q2"),
    BYTES("Q3"), BYTES("Q4"), BYTES("Q5"), BYTES("Q6"), BYTES("Q7"), BYTES("Q8"),
    BYTES("Q9"), BYTES("Q10"), BYTES("Q11"), BYTES("Q12"), BYTES("*"), BYTES("get"),
    BYTES("!#$%&'*+-.^_`|~"), BYTES("q0"), BYTES("PROPFIND"), BYTES("PROPFINDX"),
    BYTES("LONGMETH-A-LONGMETH"), BYTES("LONGMETH-B-LONGMETH"),
    BYTES("xxxxxxxxxxxxxxxxxxxxxxxA"), BYTES("xxxxxxxxAxxxxxxxxxxxxxxx"), BYTES("G")
};

static const struct bytes BAD_METHODS[] = {
    BYTES(""), BYTES("a b"), BYTES("xxxxxxxxxxxxxxxxxxxxxxxxx"), BYTES("("), BYTES("\xe9"),
    BYTES("/"), BYTES("GET\r"), BYTES("GET "), BYTES(" GET"), BYTES("G\tT"), BYTES("G,"),
    BYTES("\x7f"), BYTES("\0"), BYTES("GET\0"), BYTES("\t"), BYTES("{"), BYTES("["),
    BYTES(";"), BYTES("GET;")
};

static const struct bytes SEGMENTS[] = {
    BYTES("a"), BYTES("b"), BYTES("ab"), BYTES("a.b"), BYTES("x.a"), BYTES("x.csv"),
    BYTES("q0"), BYTES("q1"), BYTES("q12"), BYTES("q0.a"), BYTES("*"), BYTES("a*"), BYTES(""),
    BYTES(".a"), BYTES("a."), BYTES(".."), BYTES("\xe9"), BYTES("\xff\x80"), BYTES("a b"),
    BYTES("a=b"), BYTES("longsegm-A-x"), BYTES("longsegm-B-x"), BYTES("*.a"), BYTES("aq2"),
    BYTES("x.longextension-1"), BYTES(".sevenby"), BYTES("q"), BYTES("q01"), BYTES("Q0")
};

static const struct bytes EXTENSIONS[] = {
    BYTES("a"), BYTES("b"), BYTES("csv"), BYTES("q0"), BYTES("q1"), BYTES("ab"),
    BYTES("\xe9"), BYTES("longextension-1"), BYTES("longextension-2"), BYTES("a b"),
    BYTES(" a"), BYTES("sevenby"), BYTES("eightbyt"), BYTES("sixbyt"), BYTES("+"), BYTES("a+b"),
    BYTES("q2q3"), BYTES("A")
};

static const struct bytes BAD_PATTERNS[] = {
    BYTES("a"), BYTES("*"), BYTES("*."), BYTES("*.a.b"), BYTES("*.a/b"), BYTES("*.*"),
    BYTES("/a "), BYTES(" /a"), BYTES("**"), BYTES("*a"), BYTES("/\x7f"), BYTES("/\0"),
    BYTES("*./"), BYTES(" "), BYTES("*.a "), BYTES("a/*"), BYTES("*/"), BYTES("*/*"),
    BYTES("/\t"), BYTES("/a\r"), BYTES("*.a*"), BYTES("*.longextension.x"),
    BYTES("*.longextension/*"), BYTES("/" X64 X64 X64 X16 X16 X16 "xxxxxxxxxxxxxxx"),
    BYTES("*.abcdefgh*"), BYTES("*.abcdefg*"), BYTES("*.abcdef*"), BYTES("/* "),
    BYTES("/" X256), BYTES("/a\x01"), BYTES(".a"), BYTES("\xe9"), BYTES("*..a"), BYTES("*.a."),
    /* a `;` in every place, of every kind but for it */
    BYTES(";"), BYTES("/;"), BYTES("/a;b"), BYTES("/a;/b"), BYTES("/a/b;"), BYTES("/;/*"),
    BYTES("/a;s=1/*"), BYTES("/;*"), BYTES(";/*"), BYTES("*.;"), BYTES("*.a;b"), BYTES("*;.a"),
    BYTES("/" X64 X64 X64 X16 X16 X16 "xxxxxxxxxxxxx;")
};

/* What a path may hold and matching drops. */
static const struct bytes PARAMETERS[] = {
    BYTES(";s=12"), BYTES(";"), BYTES(";x"), BYTES(";a;b"), BYTES(";;"), BYTES(";.a"),
    BYTES(";x.csv"), BYTES(";v=1.b"), BYTES("; "), BYTES(";*"), BYTES(";\xe9\xff"), BYTES(";q0"),
    BYTES(";..;."), BYTES(";a=%2Fb")
};

/* Lines to throw in at any place. */
static const struct bytes LINES[] = {
    BYTES("constraints\t1"), BYTES("role\ta"), BYTES("role\tzz"), BYTES("constraint\topen"),
    BYTES("constraint\tauth"), BYTES("constraint\tbogus"), BYTES("allow\ta"), BYTES("allow\t*"),
    BYTES("collection"), BYTES("pattern\t/a"), BYTES("pattern\t"), BYTES("pattern\t/*"),
    BYTES("method\tGET"), BYTES("omit\tGET"), BYTES("end"), BYTES(""), BYTES("\t"),
    BYTES("role"), BYTES("role\t"), BYTES("role\ta\tb"), BYTES("allow"), BYTES("collection\t"),
    BYTES("pattern"), BYTES("pattern\t/a\t"), BYTES("method"), BYTES("omit"), BYTES("end\t"),
    BYTES("constraint"), BYTES("constraint\t"), BYTES("END"), BYTES("end "), BYTES(" end"),
    BYTES("roles\ta"), BYTES("\trole"), BYTES("constraint\topen\t"), BYTES("constraint\tOPEN"),
    BYTES("collections"), BYTES("collectio"), BYTES("end\r"), BYTES("\r"), BYTES("#"),
    BYTES("role\t*"), BYTES("allow\t**"), BYTES("method\t*"), BYTES("omit\t*"), BYTES("pattern\t*"),
    BYTES("pattern\t/a;b"), BYTES("pattern\t;"), BYTES("role\ta;b"), BYTES("allow\t;"), BYTES("method\tG;T")
};

static const uint8_t ODD_BYTES[] = {
    0, 1, 8, 9, 10, 11, 12, 13, 31, 32, 33, 42, 46, 47, 48, 65, 97, 113, 126, 127, 128, 129,
    159, 160, 254, 255, 239, 187, 191, 10, 9, 32, 59
};

/* ----------------------------------------------------------------- a tree */

enum { MOST_C = 10, MOST_L = 4, MOST_P = 6, MOST_M = 8, MOST_A = 6, MOST_R = 12 };

struct some { uint8_t at[272]; size_t length; };

static void set_some(struct some *s, struct bytes b)
{
    s->length = b.length < sizeof s->at ? b.length : sizeof s->at;
    memcpy(s->at, b.at, s->length);
}

struct coll {
    unsigned patterns, names, mode;            /* mode 0 all, 1 method, 2 omit */
    struct some pattern[MOST_P];
    unsigned name[MOST_M];
};

enum { STAR = 1000, BADNAME = 2000 };

struct cons {
    unsigned open, allows, colls;
    unsigned allow[MOST_A];
    struct coll coll[MOST_L];
};

struct tree {
    unsigned declared[MOST_R], declareds;
    unsigned cons_count;
    struct cons cons[MOST_C];
};

/* The part of the pools that one case draws from. */
struct taste {
    unsigned role[5], roles;
    unsigned method[5], methods;
    unsigned segment[4], segments;
    unsigned extension[3], extensions;
    unsigned faulty;                           /* bad texts, in percent */
    unsigned size;                             /* about so many constraints */
};

static void make_taste(struct rng *r, struct taste *t)
{
    t->roles = 1 + below(r, 5);
    for (unsigned i = 0; i < t->roles; i++)
        t->role[i] = chance(r, 60) ? below(r, 5) : below(r, COUNT(ROLES));
    t->methods = 1 + below(r, 5);
    for (unsigned i = 0; i < t->methods; i++)
        t->method[i] = chance(r, 40) ? below(r, 4) : below(r, COUNT(METHODS));
    t->segments = 1 + below(r, 4);
    for (unsigned i = 0; i < t->segments; i++)
        t->segment[i] = chance(r, 50) ? below(r, 5) : below(r, COUNT(SEGMENTS));
    t->extensions = 1 + below(r, 3);
    for (unsigned i = 0; i < t->extensions; i++)
        t->extension[i] = chance(r, 50) ? below(r, 3) : below(r, COUNT(EXTENSIONS));
    t->faulty = chance(r, 12) ? 2 + below(r, 10) : 0;
    t->size = 1 + below(r, 5);
}

static struct bytes a_segment(struct rng *r, const struct taste *t)
{
    return SEGMENTS[chance(r, 92) ? t->segment[below(r, t->segments)]
                                  : below(r, COUNT(SEGMENTS))];
}

static struct bytes an_extension(struct rng *r, const struct taste *t)
{
    return EXTENSIONS[chance(r, 92) ? t->extension[below(r, t->extensions)]
                                    : below(r, COUNT(EXTENSIONS))];
}

static void make_pattern(struct rng *r, const struct taste *t, struct some *p)
{
    struct out o = { p->at, 0, 250 };
    if (chance(r, t->faulty)) {
        set_some(p, BAD_PATTERNS[below(r, COUNT(BAD_PATTERNS))]);
        return;
    }
    unsigned k = below(r, 100);
    if (k < 5) {
        /* the empty one */
    } else if (k < 13) {
        puts_(&o, "/");
    } else if (k < 21) {
        puts_(&o, "/*");
    } else if (k < 24) {
        puts_(&o, "//*");
    } else if (k < 52) {
        for (unsigned n = 1 + below(r, 3); n > 0; n--) {
            puts_(&o, "/");
            putb(&o, a_segment(r, t));
        }
        puts_(&o, "/*");
    } else if (k < 72) {
        puts_(&o, "*.");
        putb(&o, an_extension(r, t));
    } else {
        for (unsigned n = 1 + below(r, 3); n > 0; n--) {
            puts_(&o, "/");
            putb(&o, a_segment(r, t));
        }
        if (chance(r, 25)) {
            puts_(&o, ".");
            putb(&o, an_extension(r, t));
        }
        if (chance(r, 8))
            puts_(&o, "/");
        if (chance(r, 3))
            puts_(&o, "*");
    }
    p->length = o.length;
    /* no space last, unless meant */
    if (p->length > 0 && p->at[p->length - 1] == ' ')
        p->at[p->length - 1] = '_';
}

static unsigned a_role(struct rng *r, const struct taste *t)
{
    if (chance(r, t->faulty))
        return BADNAME + below(r, COUNT(BAD_ROLES));
    return chance(r, 95) ? t->role[below(r, t->roles)] : below(r, COUNT(ROLES));
}

static unsigned a_method(struct rng *r, const struct taste *t)
{
    if (chance(r, t->faulty))
        return BADNAME + below(r, COUNT(BAD_METHODS));
    return chance(r, 92) ? t->method[below(r, t->methods)] : below(r, COUNT(METHODS));
}

static struct bytes role_text(unsigned i)
{
    struct bytes star = BYTES("*");
    return i >= BADNAME ? BAD_ROLES[i - BADNAME] : i == STAR ? star : ROLES[i];
}

static struct bytes method_text(unsigned i)
{
    return i >= BADNAME ? BAD_METHODS[i - BADNAME] : METHODS[i];
}

static void make_names(struct rng *r, const struct taste *t, struct coll *l)
{
    l->mode = below(r, 3);
    l->names = l->mode == 0 ? 0 : 1 + below(r, 3);
    for (unsigned i = 0; i < l->names; i++)
        l->name[i] = a_method(r, t);
}

static void make_coll(struct rng *r, const struct taste *t, struct coll *l)
{
    l->patterns = chance(r, 65) ? 1 : 1 + below(r, 3);
    for (unsigned i = 0; i < l->patterns; i++)
        make_pattern(r, t, &l->pattern[i]);
    make_names(r, t, l);
}

static void make_allows(struct rng *r, const struct taste *t, struct cons *c)
{
    c->allows = chance(r, 18) ? 0 : 1 + below(r, 3);
    for (unsigned i = 0; i < c->allows; i++)
        c->allow[i] = chance(r, 15) ? STAR : a_role(r, t);
}

static void make_cons(struct rng *r, const struct taste *t, struct cons *c)
{
    c->open = chance(r, 18);
    c->allows = 0;
    if (!c->open)
        make_allows(r, t, c);
    c->colls = chance(r, 70) ? 1 : 1 + below(r, 3);
    for (unsigned i = 0; i < c->colls; i++)
        make_coll(r, t, &c->coll[i]);
}

static void declare(struct rng *r, const struct taste *t, struct tree *x)
{
    x->declareds = 0;
    if (chance(r, 20))
        return;
    for (unsigned n = below(r, 6); n > 0; n--) {
        unsigned k = a_role(r, t), known = 0;
        for (unsigned i = 0; i < x->declareds; i++)
            known |= x->declared[i] == k;
        if (!known || chance(r, t->faulty))
            x->declared[x->declareds++] = k;
    }
}

static void make_tree(struct rng *r, const struct taste *t, struct tree *x)
{
    declare(r, t, x);
    x->cons_count = chance(r, 4) ? 0 : 1 + below(r, t->size);
    for (unsigned i = 0; i < x->cons_count; i++)
        make_cons(r, t, &x->cons[i]);
}

static void print_tree(const struct tree *x, struct out *o)
{
    puts_(o, "constraints\t1\n");
    for (unsigned i = 0; i < x->declareds; i++) {
        puts_(o, "role\t");
        putb(o, role_text(x->declared[i]));
        puts_(o, "\n");
    }
    for (unsigned i = 0; i < x->cons_count; i++) {
        const struct cons *c = &x->cons[i];
        puts_(o, c->open ? "constraint\topen\n" : "constraint\tauth\n");
        for (unsigned k = 0; !c->open && k < c->allows; k++) {
            puts_(o, "allow\t");
            putb(o, role_text(c->allow[k]));
            puts_(o, "\n");
        }
        for (unsigned k = 0; k < c->colls; k++) {
            const struct coll *l = &c->coll[k];
            puts_(o, "collection\n");
            for (unsigned p = 0; p < l->patterns; p++) {
                puts_(o, "pattern\t");
                put(o, l->pattern[p].at, l->pattern[p].length);
                puts_(o, "\n");
            }
            for (unsigned m = 0; l->mode != 0 && m < l->names; m++) {
                puts_(o, l->mode == 1 ? "method\t" : "omit\t");
                putb(o, method_text(l->name[m]));
                puts_(o, "\n");
            }
        }
    }
    puts_(o, "end\n");
}

/* A small change that leaves a tree a tree. */
static void edit_tree(struct rng *r, const struct taste *t, struct tree *x)
{
    unsigned n = x->cons_count;
    if (n == 0) {
        make_cons(r, t, &x->cons[0]);
        x->cons_count = 1;
        return;
    }
    struct cons *c = &x->cons[below(r, n)];
    struct coll *l = &c->coll[below(r, c->colls)];
    switch (below(r, 18)) {
    case 0:                                            /* a constraint goes */
        *c = x->cons[n - 1];
        x->cons_count--;
        break;
    case 1:                                            /* one comes, anywhere */
        if (n < MOST_C) {
            x->cons[n] = *c;
            make_cons(r, t, c);
            x->cons_count++;
        }
        break;
    case 2:                                            /* one doubled */
        if (n < MOST_C) {
            x->cons[n] = *c;
            x->cons_count++;
        }
        break;
    case 3: {                                          /* two change places */
        struct cons *d = &x->cons[below(r, n)];
        struct cons keep = *c;
        *c = *d;
        *d = keep;
        break;
    }
    case 4:
        c->open = !c->open;
        if (!c->open)
            make_allows(r, t, c);
        break;
    case 5:
        if (!c->open && c->allows < MOST_A)
            c->allow[c->allows++] = a_role(r, t);
        break;
    case 6:
        if (!c->open && c->allows > 0)
            c->allow[below(r, c->allows)] = c->allow[c->allows - 1], c->allows--;
        break;
    case 7:
        if (!c->open && c->allows > 0) {
            unsigned k = chance(r, 30) ? STAR : a_role(r, t);
            c->allow[below(r, c->allows)] = k;
        }
        break;
    case 8:
        if (c->colls > 1)
            c->colls--;
        break;
    case 9:
        if (c->colls < MOST_L)
            make_coll(r, t, &c->coll[c->colls++]);
        break;
    case 10:
        make_pattern(r, t, &l->pattern[below(r, l->patterns)]);
        break;
    case 11:
        if (l->patterns < MOST_P)
            make_pattern(r, t, &l->pattern[l->patterns++]);
        break;
    case 12:
        if (l->patterns > 1)
            l->patterns--;
        break;
    case 13:
        make_names(r, t, l);
        break;
    case 14:
        if (l->mode != 0 && l->names < MOST_M)
            l->name[l->names++] = a_method(r, t);
        break;
    case 15:
        if (l->mode != 0 && l->names > 1)
            l->name[below(r, l->names)] = l->name[l->names - 1], l->names--;
        break;
    case 16:                                           /* the declared roles turn around */
        for (unsigned i = 0; 2 * i + 1 < x->declareds; i++) {
            unsigned k = x->declared[i];
            x->declared[i] = x->declared[x->declareds - 1 - i];
            x->declared[x->declareds - 1 - i] = k;
        }
        break;
    default:
        declare(r, t, x);
        break;
    }
}

/* ---------------------------------------------------------------- damages */

/* Removes `gone` bytes at a place and puts others there. */
static void splice(struct out *o, size_t place, size_t gone, const void *bytes, size_t n)
{
    if (o->length - gone + n > o->room)
        return;
    memmove(o->at + place + n, o->at + place + gone, o->length - place - gone);
    if (n > 0)
        memcpy(o->at + place, bytes, n);
    o->length = o->length - gone + n;
}

/* A line: its place and its length with its byte 10. */
static size_t a_line(struct rng *r, const struct out *o, size_t *length)
{
    size_t place = o->length == 0 ? 0 : below(r, (unsigned)o->length);
    while (place > 0 && o->at[place - 1] != 10)
        place--;
    size_t stop = place;
    while (stop < o->length && o->at[stop] != 10)
        stop++;
    if (stop < o->length)
        stop++;
    *length = stop - place;
    return place;
}

static void damage(struct rng *r, struct out *o)
{
    if (o->length == 0) {
        put1(o, ODD_BYTES[below(r, COUNT(ODD_BYTES))]);
        return;
    }
    size_t at = below(r, (unsigned)o->length), n = 0, place = 0;
    uint8_t odd = ODD_BYTES[below(r, COUNT(ODD_BYTES))];
    uint8_t keep[2048];
    switch (below(r, 22)) {
    case 0:
        o->at[at] ^= (uint8_t)(1u << below(r, 8));
        break;
    case 1:
        o->at[at] = odd;
        break;
    case 2:
        splice(o, at, 1, NULL, 0);
        break;
    case 3:
        splice(o, at, 0, &odd, 1);
        break;
    case 4:                                            /* a line dropped */
        place = a_line(r, o, &n);
        splice(o, place, n, NULL, 0);
        break;
    case 5:                                            /* doubled */
        place = a_line(r, o, &n);
        if (n <= sizeof keep) {
            memcpy(keep, o->at + place, n);
            splice(o, place, 0, keep, n);
        }
        break;
    case 6:                                            /* moved */
    case 7:
        place = a_line(r, o, &n);
        if (n <= sizeof keep) {
            memcpy(keep, o->at + place, n);
            splice(o, place, n, NULL, 0);
            place = a_line(r, o, &at);
            splice(o, place, 0, keep, n);
        }
        break;
    case 8:                                            /* cut */
        o->length = at;
        break;
    case 9:
        o->length--;
        break;
    case 10:
        put1(o, odd);
        break;
    case 11:
        putb(o, LINES[below(r, COUNT(LINES))]);
        if (chance(r, 70))
            put1(o, 10);
        break;
    case 12:                                           /* a carriage return */
        place = a_line(r, o, &n);
        if (n > 0)
            splice(o, place + n - 1, 0, "\r", 1);
        break;
    case 13:                                           /* a tab more, less or a space */
        place = a_line(r, o, &n);
        for (size_t i = place; i < place + n; i++)
            if (o->at[i] == 9) {
                unsigned k = below(r, 3);
                splice(o, i, 1, k == 0 ? "\t\t" : " ", k == 0 ? 2 : k - 1);
                break;
            }
        break;
    case 14:
        splice(o, 0, 0, "\xef\xbb\xbf", 3);
        break;
    case 15:
    case 16:
    case 17: {                                         /* a line thrown in */
        struct bytes b = LINES[below(r, COUNT(LINES))];
        place = a_line(r, o, &n);
        splice(o, place, 0, "\n", 1);
        splice(o, place, 0, b.at, b.length);
        break;
    }
    case 18:                                           /* a line replaced */
        place = a_line(r, o, &n);
        if (n > 0) {
            struct bytes b = LINES[below(r, COUNT(LINES))];
            splice(o, place, n - 1, b.at, b.length);
        }
        break;
    case 19:                                           /* a tab or an odd byte at a line's end */
        place = a_line(r, o, &n);
        if (n > 0)
            splice(o, place + n - 1, 0, chance(r, 50) ? (const uint8_t *)"\t" : &odd, 1);
        break;
    case 20:                                           /* a line's byte 10 gone */
        place = a_line(r, o, &n);
        if (n > 0)
            splice(o, place + n - 1, 1, NULL, 0);
        break;
    default:                                           /* an odd byte at the end of the whole */
        if (o->length > 5)
            splice(o, o->length - 1 - below(r, 5), 0, &odd, 1);
        break;
    }
}

/* ------------------------------------------------------------ big listings */

/* A name with a number and a length. */
static void put_long(struct out *o, const char *stem, unsigned number, unsigned length)
{
    char s[32];
    int n = snprintf(s, sizeof s, "%s%u", stem, number);
    puts_(o, s);
    for (unsigned i = (unsigned)n; i < length; i++)
        put1(o, "xyz"[i % 3]);
}

/* The text of pattern i, of at least the given length. */
static void put_big_pattern(struct out *o, const struct big *b, unsigned i, size_t extra)
{
    unsigned turn = (i * 37 + 11) % 100;
    unsigned number = i + b->shift;
    char stem[32];
    size_t start = o->length;
    const char *tail = "";
    if (b->repeats > 0 && i > 0 && i % b->repeats == 0)
        number = i - 1 + b->shift;
    if (b->last_default && i + 1 == b->patterns) {
        puts_(o, "/");
        return;
    }
    if (turn < b->prefixes) {
        if (b->nested)
            for (unsigned k = 0; k < number % 4; k++)
                puts_(o, "/n");
        snprintf(stem, sizeof stem, "/p%u", number);
        puts_(o, stem);
        tail = "/*";
    } else if (turn < b->prefixes + b->extensions) {
        snprintf(stem, sizeof stem, "*.e%u", number);
        puts_(o, stem);
    } else {
        snprintf(stem, sizeof stem, "/x%u", number);
        puts_(o, stem);
    }
    for (size_t k = 0; k < extra; k++)
        put1(o, "abcdefg_"[(k + number) % 8]);
    if (b->pattern_len > 0 && i + 1 == b->patterns)
        while (o->length - start + strlen(tail) < b->pattern_len && o->length < o->room)
            put1(o, 'z');
    puts_(o, tail);
}

static void put_big(struct out *o, const struct big *b, size_t padding)
{
    unsigned roles = b->declared + b->undeclared;
    unsigned coll = 0, pattern = 0, line = 0, fresh = b->declared, allowed = 0;
    puts_(o, "constraints\t1\n");
    for (unsigned i = 0; i < b->declared; i++) {
        puts_(o, "role\t");
        put_long(o, "role", i + b->shift, i == 0 ? b->role_len : 0);
        puts_(o, "\n");
    }
    for (unsigned c = 0; c < b->constraints; c++) {
        unsigned kind = b->all_auth ? 2 : (c * 7 + 3) % 10;    /* 0 open, 1 closed, else roles */
        if (c == 0)
            kind = 2;
        puts_(o, kind == 0 ? "constraint\topen\n" : "constraint\tauth\n");
        if (kind >= 2) {
            /* all the undeclared ones in the first */
            for (; c == 0 && fresh < roles; fresh++) {
                puts_(o, "allow\t");
                put_long(o, "role", fresh + b->shift, fresh == 0 ? b->role_len : 0);
                puts_(o, "\n");
            }
            if (b->full_allow && b->undeclared == 0 && roles > 0)
                puts_(o, "allow\t*\n");
            else if (roles > 0)
                for (unsigned k = 0; k < 2; k++, allowed += 5) {
                    unsigned i = allowed % roles;
                    puts_(o, "allow\t");
                    put_long(o, "role", i + b->shift, i == 0 ? b->role_len : 0);
                    puts_(o, "\n");
                }
        }
        unsigned colls = b->collections * (c + 1) / b->constraints;
        for (; coll < colls; coll++) {
            puts_(o, "collection\n");
            unsigned patterns = b->patterns * (coll + 1) / b->collections;
            for (; pattern < patterns; pattern++) {
                /* the padding goes evenly over the patterns that can be longer */
                unsigned able = b->patterns - (b->last_default != 0);
                size_t extra = pattern < able ? padding * (pattern + 1) / able -
                                                padding * pattern / able : 0;
                puts_(o, "pattern\t");
                put_big_pattern(o, b, pattern, extra);
                puts_(o, "\n");
            }
            unsigned lines = b->method_lines * (coll + 1) / b->collections;
            for (; b->methods > 0 && line < lines; line++) {
                unsigned i = line % b->methods;
                puts_(o, coll % 3 == 2 ? "omit\t" : "method\t");
                put_long(o, "M", i + b->shift, i == 0 ? b->method_len : 0);
                puts_(o, "\n");
            }
        }
    }
    puts_(o, "end\n");
}

size_t generate_big(const struct big *b, uint8_t *to, size_t room)
{
    struct out o = { to, 0, room };
    put_big(&o, b, 0);
    if (b->size > o.length) {
        size_t padding = b->size - o.length;
        o.length = 0;
        put_big(&o, b, padding);
    }
    return o.length;
}

/* One of the limits at or past it, the rest small. */
static void limit(unsigned which, unsigned past, unsigned turn, struct big *b)
{
    memset(b, 0, sizeof *b);
    b->declared = 3;
    b->constraints = 3;
    b->collections = 4;
    b->patterns = 8;
    b->method_lines = 8;
    b->methods = 5;
    b->prefixes = 30;
    b->extensions = 20;
    b->nested = turn & 1;
    switch (which) {
    case 0: b->declared = 32 + past; break;
    case 1: b->declared = turn % 33; b->undeclared = 32 + past - b->declared; break;
    case 2: b->methods = 31 + past; b->method_lines = 40 + turn % 8; break;
    case 3: b->constraints = b->collections = b->patterns = 64 + past; break;
    case 4: b->collections = b->patterns = 128 + past; break;
    case 5: b->patterns = 128 + past; b->repeats = turn % 5; break;
    case 6: b->method_lines = 512 + past; b->collections = 3 + turn / 2 % 2; break;
    case 7: b->pattern_len = 255 + past; break;
    case 8: b->role_len = 64 + past; break;
    case 9: b->method_len = 24 + past; break;
    case 10:
        b->size = 24576 + past;
        b->patterns = 128 - turn % 20;
        b->collections = 64;
        break;
    default:                                           /* all of them at once */
        b->declared = 16 + turn % 17;
        b->undeclared = 32 - b->declared;
        b->constraints = 64;
        b->collections = b->patterns = 128;
        b->methods = 31;
        b->method_lines = 512;
        b->size = 24576 + past;
        b->repeats = turn % 4;
        break;
    }
}
enum { LIMITS = 12 };

/* --------------------------------------------------------------- requests */

/* The field of a random line that starts with the text given, if any. */
static int some_field(struct rng *r, const struct out *o, const char *start, struct bytes *field)
{
    size_t n = strlen(start), found = 0;
    for (size_t i = 0; i < o->length;) {
        size_t stop = i;
        while (stop < o->length && o->at[stop] != 10)
            stop++;
        if (stop - i >= n && memcmp(o->at + i, start, n) == 0 &&
            below(r, (unsigned)++found) == 0) {
            field->at = (const char *)o->at + i + n;
            field->length = stop - i - n;
        }
        i = stop + 1;
    }
    return found > 0;
}

/* The place behind the last line that starts with the text given; 0: none. */
static size_t behind_last(const struct out *o, const char *start)
{
    size_t n = strlen(start), place = 0;
    for (size_t i = 0; i < o->length;) {
        size_t stop = i;
        while (stop < o->length && o->at[stop] != 10)
            stop++;
        if (stop < o->length && stop - i >= n && memcmp(o->at + i, start, n) == 0)
            place = stop + 1;
        i = stop + 1;
    }
    return place;
}

/* A further record, new, bad or there before, in its place or in a wrong one.
 * In a full listing it passes a most-number and breaks another rule too. */
static void put_further(struct rng *r, struct out *o, const char *record)
{
    static const char *const places[] = { "collection", "constraint", "role", "pattern", "end" };
    uint8_t line[512];
    char start[16];
    struct out l = { line, 0, sizeof line };
    struct bytes b;
    puts_(&l, record);
    if (strcmp(record, "collection") != 0) {
        unsigned how = below(r, 3);
        int is_pattern = strcmp(record, "pattern") == 0;
        int is_method = strcmp(record, "method") == 0 || strcmp(record, "omit") == 0;
        snprintf(start, sizeof start, "%s\t", record);
        puts_(&l, "\t");
        if (how == 0 && some_field(r, o, start, &b))
            putb(&l, b);
        else if (how == 1)
            putb(&l, is_pattern ? BAD_PATTERNS[below(r, COUNT(BAD_PATTERNS))]
                     : is_method ? BAD_METHODS[below(r, COUNT(BAD_METHODS))]
                                 : BAD_ROLES[below(r, COUNT(BAD_ROLES))]);
        else
            puts_(&l, strcmp(record, "constraint") == 0 ? "auth" : is_pattern ? "/new" : "new");
    }
    puts_(&l, chance(r, 5) ? "\t\n" : "\n");
    const char *where = chance(r, 60) ? record : places[below(r, COUNT(places))];
    size_t place = behind_last(o, where);
    if (strcmp(where, "end") == 0 && place >= 4)
        place -= 4;
    splice(o, place, 0, l.at, l.length);
}

/* The records of limit `which`. */
static const char *record_of(struct rng *r, unsigned which)
{
    static const char *const records[] = {
        "role", "allow", "method", "constraint", "collection", "pattern", "omit"
    };
    if (which == 2 || which == 6)
        return records[chance(r, 50) ? 2 : 6];
    return records[which < COUNT(records) ? which : below(r, COUNT(records))];
}

/* A role declared again, most often among the declared ones. */
static void declare_again(struct rng *r, struct out *o)
{
    uint8_t line[512];
    struct out l = { line, 0, sizeof line };
    struct bytes b;
    size_t n;
    if (!some_field(r, o, "role\t", &b))
        return;
    puts_(&l, "role\t");
    putb(&l, b);
    puts_(&l, "\n");
    splice(o, chance(r, 80) ? behind_last(o, "role\t") : a_line(r, o, &n), 0, l.at, l.length);
}

/* Bytes behind the end, to about the most of a listing. */
static void pad(struct rng *r, struct out *o)
{
    size_t want = 24573 + below(r, 8);
    while (o->length < want)
        put1(o, chance(r, 90) ? 'x' : ODD_BYTES[below(r, COUNT(ODD_BYTES))]);
}

static void make_path(struct rng *r, const struct taste *t, const struct out *listing,
                      struct out *o)
{
    struct bytes b;
    unsigned k = below(r, 100);
    if (k < 72 && some_field(r, listing, "pattern\t", &b) && b.length < 600) {
        unsigned how = below(r, 8);
        if (b.length == 0) {
            puts_(o, "/");
            if (how == 0)
                putb(o, a_segment(r, t));
        } else if (b.length >= 2 && memcmp(b.at + b.length - 2, "/*", 2) == 0) {
            b.length -= 2;
            putb(o, b);
            switch (how) {
            case 0: break;
            case 1: puts_(o, "/"); break;
            case 2: putb(o, a_segment(r, t)); break;
            case 3: if (o->length > 0) o->length--; break;
            case 4: puts_(o, "/"); putb(o, a_segment(r, t)); puts_(o, "."); putb(o, an_extension(r, t)); break;
            case 5: puts_(o, "/"); putb(o, a_segment(r, t)); puts_(o, "/"); putb(o, a_segment(r, t)); break;
            default: puts_(o, "/"); putb(o, a_segment(r, t)); break;
            }
            if (o->length == 0)
                puts_(o, "/");
        } else if (b.length >= 2 && memcmp(b.at, "*.", 2) == 0) {
            puts_(o, "/");
            if (chance(r, 80))
                putb(o, a_segment(r, t));
            if (how == 0) {
                puts_(o, "/");
                putb(o, a_segment(r, t));
            }
            if (how != 1)
                puts_(o, ".");
            b.at += 2;
            b.length -= 2;
            putb(o, b);
            if (how == 2)
                puts_(o, "x");
            if (how == 3)
                puts_(o, "/");
            if (how == 4) {
                puts_(o, ".");
                putb(o, an_extension(r, t));
            }
        } else {
            putb(o, b);
            switch (how) {
            case 0: puts_(o, "/"); break;
            case 1: puts_(o, "x"); break;
            case 2: if (o->length > 1) o->length--; break;
            case 3: puts_(o, "/"); putb(o, a_segment(r, t)); break;
            case 4: puts_(o, "."); putb(o, an_extension(r, t)); break;
            default: break;
            }
        }
    } else if (k < 76) {
        puts_(o, "/");
    } else {
        for (unsigned n = 1 + below(r, 3); n > 0; n--) {
            puts_(o, "/");
            putb(o, a_segment(r, t));
        }
        if (chance(r, 40)) {
            puts_(o, ".");
            putb(o, an_extension(r, t));
        }
    }
    if (chance(r, 4)) {                                /* to the edge */
        size_t want = 1023 + below(r, 3);
        if (chance(r, 50) && o->length < want) {
            /* inside the path, so that its end stays */
            uint8_t pad[1100];
            memset(pad, 'x', sizeof pad);
            size_t at = o->length;
            while (at > 0 && o->at[at - 1] != '/')
                at--;
            splice(o, at, 0, pad, want - o->length);
        }
        while (o->length < want)
            put1(o, "x/y.z"[below(r, 5)]);
    }
    if (chance(r, 4))                                  /* damaged */
        switch (below(r, 5)) {
        case 0: o->length = 0; break;
        case 1: splice(o, 0, o->length > 0, NULL, 0); break;
        default: {
            uint8_t odd = ODD_BYTES[below(r, COUNT(ODD_BYTES))];
            splice(o, below(r, (unsigned)o->length + 1), 0, &odd, 1);
            break;
        }
        }
}

/* A place for a parameter: most often a segment's end. */
static size_t a_parameter_place(struct rng *r, const struct out *o)
{
    if (o->length == 0 || chance(r, 2))
        return 0;
    size_t at = 1 + below(r, (unsigned)o->length);
    unsigned k = below(r, 100);
    if (k < 65)
        while (at < o->length && o->at[at] != '/')
            at++;
    else if (k < 80)                                   /* behind a `/` */
        while (at > 1 && o->at[at - 1] != '/')
            at--;
    return at;
}

/* Parameters in a path.  A long one takes it to the edge, and leaves it as
 * short as it was. */
static void put_parameters(struct rng *r, struct out *o)
{
    for (unsigned n = 1 + below(r, 3); n > 0; n--) {
        struct bytes b = PARAMETERS[below(r, COUNT(PARAMETERS))];
        splice(o, a_parameter_place(r, o), 0, b.at, b.length);
    }
    if (chance(r, 4)) {                                /* an odd byte, in one of them or not */
        uint8_t odd = ODD_BYTES[below(r, COUNT(ODD_BYTES))];
        splice(o, below(r, (unsigned)o->length + 1), 0, &odd, 1);
    }
    size_t want = 1023 + below(r, 3);
    if (chance(r, 12) && o->length < want) {
        uint8_t pad[1100];
        memset(pad, 'x', sizeof pad);
        pad[0] = ';';
        splice(o, a_parameter_place(r, o), 0, pad, want - o->length);
    }
}

static void make_method(struct rng *r, const struct taste *t, const struct out *listing,
                        struct out *o)
{
    struct bytes b;
    unsigned k = below(r, 100);
    if (k < 60 && some_field(r, listing, chance(r, 50) ? "method\t" : "omit\t", &b) &&
        b.length < 40)
        putb(o, b);
    else if (k < 96)
        putb(o, METHODS[chance(r, 60) ? t->method[below(r, t->methods)]
                                      : below(r, COUNT(METHODS))]);
    else
        putb(o, BAD_METHODS[below(r, COUNT(BAD_METHODS))]);
    if (chance(r, 3))
        put1(o, ODD_BYTES[below(r, COUNT(ODD_BYTES))]);
    if (chance(r, 2))
        for (size_t want = 24 + below(r, 2); o->length < want;)
            put1(o, 'x');
}

static void make_caller(struct rng *r, const struct taste *t, const struct out *listing,
                        struct generated *g, struct out *o)
{
    struct bytes b;
    unsigned k = below(r, 100);
    g->login = 1;
    if (k < 25) {
        g->login = 0;
        if (chance(r, 90))
            return;
    } else if (k < 28) {
        g->login = k == 25 ? 2 : k == 26 ? 0xffffffffu : 0x80000001u;
        if (chance(r, 50))
            return;
    }
    unsigned n = chance(r, 90) ? below(r, 4) : 30 + below(r, 4);
    for (unsigned i = 0; i < n; i++) {
        if (chance(r, 60) && some_field(r, listing, chance(r, 50) ? "allow\t" : "role\t", &b) &&
            b.length < 70 && !(b.length == 1 && b.at[0] == '*'))
            putb(o, b);
        else
            putb(o, ROLES[chance(r, 60) ? t->role[below(r, t->roles)] : below(r, COUNT(ROLES))]);
        put1(o, 10);
    }
    if (chance(r, 6))
        switch (below(r, 6)) {
        case 5: puts_(o, "*\n"); break;
        case 0:
            putb(o, BAD_ROLES[below(r, COUNT(BAD_ROLES))]);
            put1(o, 10);
            break;
        case 1: if (o->length > 0) o->length--; break;
        case 2: putb(o, ROLES[0]); break;
        case 3: put1(o, 10); break;
        default: {
            uint8_t odd = ODD_BYTES[below(r, COUNT(ODD_BYTES))];
            splice(o, below(r, (unsigned)o->length + 1), 0, &odd, 1);
            break;
        }
        }
}

/* ------------------------------------------------------------- whole cases */

static void no_case(struct generated *g, enum generated_kind kind, uint64_t seed)
{
    g->kind = kind;
    g->listing_len = g->new_len = g->path_len = g->method_len = g->roles_len = 0;
    g->login = 0;
    g->answer_len = kind == GENERATED_COMPARE ? 1024 : 0;
    g->work_len = 4096;
    g->garbage = mix(seed ^ 0x5eed);
}

static void make_buffers(struct rng *r, struct generated *g)
{
    unsigned k = below(r, 100);
    if (k < 6)
        g->work_len = 4097 + below(r, 600);
    else if (k < 8)
        g->work_len = 4095 - (chance(r, 50) ? 0 : below(r, 4096));
    k = below(r, 100);
    if (g->kind == GENERATED_COMPARE) {
        if (k < 20)
            g->answer_len = 1025 + below(r, 600);
        else if (k < 25)
            g->answer_len = 1023 - (chance(r, 50) ? 0 : below(r, 1024));
    }
}

/* Patterns that use up the first fillers. */
static void make_filled(struct rng *r, const struct taste *t, struct tree *x)
{
    unsigned n = 1 + below(r, 14), hole = chance(r, 30) ? below(r, n) : n;
    unsigned i = 0;
    make_tree(r, t, x);
    if (x->cons_count == 0) {
        make_cons(r, t, &x->cons[0]);
        x->cons_count = 1;
    }
    while (i < n) {
        struct coll *l = &x->cons[below(r, x->cons_count)].coll[0];
        struct some *p = &l->pattern[l->patterns < MOST_P ? l->patterns++ : below(r, MOST_P)];
        struct out o = { p->at, 0, 200 };
        puts_(&o, chance(r, 30) ? "*.z" : "/z");
        for (unsigned k = 1 + below(r, 5); k > 0 && i < n; k--, i++)
            if (i != hole)
                putn(&o, "q", i, chance(r, 20) ? "0" : "");
        p->length = o.length;
    }
}

/* Prefixes against extensions. */
static void make_cross(struct rng *r, unsigned prefixes, struct out *o)
{
    unsigned n = 3 + below(r, 9), roles = 1 + below(r, 3);
    puts_(o, "constraints\t1\n");
    for (unsigned i = 0; i < roles; i++)
        putn(o, "role\tr", i, "\n");
    for (unsigned i = 0; i < n; i++) {
        unsigned odd = chance(r, 6);
        if (odd && chance(r, 50)) {
            puts_(o, "constraint\topen\n");
        } else {
            puts_(o, "constraint\tauth\n");
            if (!odd || chance(r, 50)) {
                if (chance(r, 50) && !odd)
                    puts_(o, "allow\t*\n");
                else
                    for (unsigned k = 0; k < roles; k++)
                        if (!odd || chance(r, 50))
                            putn(o, "allow\tr", k, "\n");
            }
        }
        puts_(o, "collection\n");
        unsigned is_prefix = chance(r, 85) ? prefixes : !prefixes;
        unsigned number = chance(r, 80) ? i : below(r, n);
        if (chance(r, 12))
            puts_(o, "pattern\t/\n");
        else if (is_prefix)
            putn(o, chance(r, 80) ? "pattern\t/p" : "pattern\t/p1/p", number, "/*\n");
        else
            putn(o, "pattern\t*.e", number, "\n");
        if (chance(r, 15))
            puts_(o, chance(r, 50) ? "method\tGET\n" : "omit\tGET\n");
        if (chance(r, 8))
            puts_(o, "collection\npattern\t/p1/x.e1\nmethod\tPUT\nmethod\tGET\n");
    }
    puts_(o, "end\n");
}

/* Names that are hard to tell apart: by number, by their last bytes, by their
 * middle. */
static void put_like(struct out *o, const char *record, unsigned style, unsigned number)
{
    static const char *const before[4] = { "Q", "longname", "longnameAB-", "longname-middle-" };
    static const char *const behind[4] = { "", "", "-longtail", "tail" };
    char s[64];
    snprintf(s, sizeof s, style == 0 ? "%s%s%u%s\n" : "%s%s%02u%s\n", record, before[style],
             number, behind[style]);
    puts_(o, s);
}

/* Many methods or roles on both sides, in different orders. */
static void make_many(struct rng *r, unsigned shift, unsigned style, struct out *o)
{
    unsigned methods = 1 + below(r, 31), roles = 1 + below(r, 32), declared = below(r, roles + 1);
    unsigned step = 2 * below(r, 8) + 1, start = below(r, 64);
    unsigned plain = chance(r, 75);
    puts_(o, "constraints\t1\n");
    for (unsigned i = 0; i < declared; i++)
        put_like(o, "role\t", style, (start + i * step) % 64);
    unsigned n = 1 + below(r, 4);
    for (unsigned c = 0; c < n; c++) {
        puts_(o, "constraint\tauth\n");
        if (chance(r, 30)) {
            puts_(o, "allow\t*\n");
        } else {
            for (unsigned i = 0; i < roles; i++)
                if (chance(r, 90))
                    put_like(o, "allow\t", style, (start + i * step) % 64);
        }
        puts_(o, "collection\n");
        putn(o, chance(r, 60) ? "pattern\t/a" : "pattern\t*.a", plain ? 0 : shift, "\n");
        if (chance(r, 60))
            puts_(o, chance(r, 50) ? "pattern\t/*\n" : "pattern\t/\n");
        unsigned mode = below(r, 3), mstep = 2 * below(r, 8) + 1, mstart = below(r, 64);
        for (unsigned i = 0; mode != 0 && i < methods; i++)
            if (chance(r, 85))
                put_like(o, mode == 1 ? "method\t" : "omit\t", style,
                         (mstart % 4 + i * mstep) % 31 + shift);
    }
    puts_(o, "end\n");
}

/* All 32 roles, which isn't the same as open; few methods. */
static void make_all_roles(struct rng *r, struct out *o)
{
    static const char *const patterns[] = { "/", "/*", "/a/*", "*.a", "/a/x.a", "/a" };
    unsigned few = chance(r, 20) ? below(r, 32) : 32;
    puts_(o, "constraints\t1\n");
    for (unsigned i = 0; i < few; i++)
        put_like(o, "role\t", 0, i);
    for (unsigned c = 1 + below(r, 4); c > 0; c--) {
        unsigned k = below(r, 10);
        puts_(o, k < 3 ? "constraint\topen\n" : "constraint\tauth\n");
        if (k == 9)
            for (unsigned i = 0; i < 31; i++)
                put_like(o, "allow\t", 0, i);
        else if (k > 3)
            puts_(o, "allow\t*\n");
        puts_(o, "collection\npattern\t");
        puts_(o, patterns[below(r, COUNT(patterns))]);
        puts_(o, "\n");
        for (unsigned mode = below(r, 3), i = below(r, 3); mode != 0 && i > 0; i--)
            putn(o, mode == 1 ? "method\tM" : "omit\tM", below(r, 4), "\n");
    }
    puts_(o, "end\n");
}

void generate_case(uint64_t seed, struct generated *g)
{
    struct rng rng = { mix(seed * 2 + 1) ^ seed }, *r = &rng;
    unsigned k = below(r, 100);
    struct taste t;
    struct tree x;
    struct big b;
    struct out o = { g->listing, 0, GENERATED_LISTING };
    struct out n = { g->new_listing, 0, GENERATED_LISTING };

    no_case(g, k < 25 ? GENERATED_READ : k < 62 ? GENERATED_DECIDE : GENERATED_COMPARE, seed);
    make_taste(r, &t);
    k = below(r, 1000);
    if (g->kind == GENERATED_COMPARE) {
        if (k < 120) {
            make_cross(r, 0, &o);
            make_cross(r, 1, &n);
        } else if (k < 150) {
            make_cross(r, 1, &o);
            make_cross(r, 0, &n);
        } else if (k < 230) {
            uint64_t again = rng.state;
            unsigned style = chance(r, 60) ? 0 : below(r, 4);
            make_many(r, 0, style, &o);
            if (chance(r, 40))
                rng.state = again, below(r, 100), below(r, 4);
            style = chance(r, 90) ? style : below(r, 4);
            make_many(r, below(r, 4) == 0 ? below(r, 40) : 0, style, &n);
        } else if (k < 260) {
            make_all_roles(r, &o);
            make_all_roles(r, &n);
        } else if (k < 340) {
            make_filled(r, &t, &x);
            print_tree(&x, &o);
            if (chance(r, 50))
                edit_tree(r, &t, &x);
            else
                make_filled(r, &t, &x);
            print_tree(&x, &n);
        } else if (k < 360) {
            unsigned which = below(r, LIMITS - 1), turn = below(r, 1000);
            limit(which, chance(r, 30), turn, &b);
            o.length = generate_big(&b, o.at, o.room);
            if (chance(r, 50)) {
                turn = below(r, 1000);
                unsigned past = chance(r, 30);
                limit(chance(r, 70) ? which : below(r, LIMITS - 1), past, turn, &b);
            }
            n.length = generate_big(&b, n.at, n.room);
            if (chance(r, 30)) {
                const char *record = record_of(r, which);
                put_further(r, chance(r, 50) ? &o : &n, record);
            }
        } else if (k < 361) {
            limit(LIMITS - 1, 0, below(r, 1000), &b);
            o.length = generate_big(&b, o.at, o.room);
            if (chance(r, 50))
                b.shift = below(r, 4);
            n.length = generate_big(&b, n.at, n.room);
        } else {
            make_tree(r, &t, &x);
            print_tree(&x, &o);
            if (chance(r, 75))
                for (unsigned e = below(r, 4); e > 0; e--)
                    edit_tree(r, &t, &x);
            else
                make_tree(r, &t, &x);
            print_tree(&x, &n);
        }
        if (chance(r, 10))
            for (unsigned e = 1 + below(r, 2); e > 0; e--)
                damage(r, &o);
        if (chance(r, 10))
            for (unsigned e = 1 + below(r, 2); e > 0; e--)
                damage(r, &n);
        if (chance(r, 30)) {                           /* the other way around */
            size_t length = o.length > n.length ? o.length : n.length;
            for (size_t i = 0; i < length; i++) {
                uint8_t keep = o.at[i];
                o.at[i] = n.at[i];
                n.at[i] = keep;
            }
            length = o.length;
            o.length = n.length;
            n.length = length;
        }
    } else {
        if (k < 90) {
            unsigned which = below(r, LIMITS), past = chance(r, 40);
            limit(which, past, below(r, 1000), &b);
            b.shift = chance(r, 20) ? below(r, 10) : 0;
            o.length = generate_big(&b, o.at, o.room);
            if (!past && chance(r, 60))
                put_further(r, &o, record_of(r, which));
        } else if (k < 120) {
            make_many(r, 0, below(r, 4), &o);
        } else if (k < 140) {
            make_cross(r, below(r, 2), &o);
        } else {
            make_tree(r, &t, &x);
            print_tree(&x, &o);
        }
        if (chance(r, g->kind == GENERATED_READ ? 65 : 15))
            for (unsigned e = 1 + below(r, 3); e > 0; e--)
                damage(r, &o);
    }
    if (chance(r, 4))
        declare_again(r, g->kind == GENERATED_COMPARE && chance(r, 50) ? &n : &o);
    if (chance(r, 3))
        pad(r, g->kind == GENERATED_COMPARE && chance(r, 50) ? &n : &o);
    g->listing_len = o.length;
    g->new_len = n.length;
    if (g->kind == GENERATED_DECIDE) {
        struct out p = { g->path, 0, GENERATED_PATH };
        struct out m = { g->method, 0, GENERATED_METHOD };
        struct out c = { g->roles, 0, GENERATED_ROLES };
        make_path(r, &t, &o, &p);
        make_method(r, &t, &o, &m);
        make_caller(r, &t, &o, g, &c);
        g->path_len = p.length;
        g->method_len = m.length;
        g->roles_len = c.length;
    }
    make_buffers(r, g);
    if (g->kind == GENERATED_DECIDE && chance(r, 30)) {
        struct out p = { g->path, g->path_len, GENERATED_PATH };
        put_parameters(r, &p);
        g->path_len = p.length;
    }
}

/* ------------------------------------------------------------ small things */

/* What leads to a record as the last line. */
static const char *const LEADS[10] = {
    "constraints\t1\n",
    "constraints\t1\nrole\ta\n",
    "constraints\t1\nconstraint\topen\n",
    "constraints\t1\nconstraint\tauth\n",
    "constraints\t1\nconstraint\tauth\nallow\ta\n",
    "constraints\t1\nconstraint\tauth\ncollection\n",
    "constraints\t1\nconstraint\tauth\ncollection\npattern\t/x\n",
    "constraints\t1\nconstraint\tauth\ncollection\npattern\t/x\nmethod\tGET\n",
    "constraints\t1\nconstraint\tauth\ncollection\npattern\t/x\nomit\tGET\n",
    "constraints\t1\nend\n"
};
/* A record, and what makes the listing whole after it. */
static const char *const RECORDS[10][2] = {
    { "role\tb\n", "end\n" },
    { "constraint\topen\n", "collection\npattern\t/y\nend\n" },
    { "constraint\tauth\n", "collection\npattern\t/y\nend\n" },
    { "allow\tb\n", "collection\npattern\t/y\nend\n" },
    { "collection\n", "pattern\t/y\nend\n" },
    { "pattern\t/y\n", "end\n" },
    { "method\tPUT\n", "end\n" },
    { "omit\tPUT\n", "end\n" },
    { "end\n", "" },
    { "", "" }
};

/* A text with one byte to be filled in, marked by an SOH. */
static const char *const FIELDS[] = {
    "constraints\t1\nrole\t\x01\nend\n",
    "constraints\t1\nrole\t\x01" "a\nend\n",
    "constraints\t1\nrole\ta\x01\nend\n",
    "constraints\t1\nrole\ta\x01" "b\nend\n",
    "constraints\t1\nrole\tabcdefghijk\x01lmnopq\nend\n",
    "constraints\t1\nrole\tabcdefg\x01\nend\n",
    "constraints\t1\nrole\tabcdefgh\x01\nend\n",
    "constraints\t1\nconstraint\tauth\nallow\t\x01\ncollection\npattern\t/\nend\n",
    "constraints\t1\nconstraint\tauth\nallow\t\x01" "a\ncollection\npattern\t/\nend\n",
    "constraints\t1\nconstraint\tauth\nallow\ta\x01\ncollection\npattern\t/\nend\n",
    "constraints\t1\nconstraint\tauth\nallow\t*\x01\ncollection\npattern\t/\nend\n",
    "constraints\t1\nconstraint\tauth\ncollection\npattern\t/\nmethod\t\x01\nend\n",
    "constraints\t1\nconstraint\tauth\ncollection\npattern\t/\nmethod\tG\x01\nend\n",
    "constraints\t1\nconstraint\tauth\ncollection\npattern\t/\nmethod\t\x01G\nend\n",
    "constraints\t1\nconstraint\tauth\ncollection\npattern\t/\nmethod\tABCDEFGH\x01GGGGGGGG\nend\n",
    "constraints\t1\nconstraint\tauth\ncollection\npattern\t/\nomit\t\x01\nend\n",
    "constraints\t1\nconstraint\tauth\ncollection\npattern\t/\nomit\tG\x01T\nend\n",
    "constraints\t1\nconstraint\tauth\ncollection\npattern\t\x01\nend\n",
    "constraints\t1\nconstraint\tauth\ncollection\npattern\t/\x01\nend\n",
    "constraints\t1\nconstraint\tauth\ncollection\npattern\t\x01/\nend\n",
    "constraints\t1\nconstraint\tauth\ncollection\npattern\t/\x01" "a\nend\n",
    "constraints\t1\nconstraint\tauth\ncollection\npattern\t/abcdefgh\x01\nend\n",
    "constraints\t1\nconstraint\tauth\ncollection\npattern\t/abcdefghijklmnop\x01rstuvwxyz\nend\n",
    "constraints\t1\nconstraint\tauth\ncollection\npattern\t/\x01/*\nend\n",
    "constraints\t1\nconstraint\tauth\ncollection\npattern\t/a\x01*\nend\n",
    "constraints\t1\nconstraint\tauth\ncollection\npattern\t/a/\x01\nend\n",
    "constraints\t1\nconstraint\tauth\ncollection\npattern\t\x01.a\nend\n",
    "constraints\t1\nconstraint\tauth\ncollection\npattern\t*\x01" "a\nend\n",
    "constraints\t1\nconstraint\tauth\ncollection\npattern\t*.\x01\nend\n",
    "constraints\t1\nconstraint\tauth\ncollection\npattern\t*.a\x01\nend\n",
    "constraints\t1\nconstraint\tauth\ncollection\npattern\t*.\x01" "a\nend\n",
    "constraints\t1\nconstraint\tauth\ncollection\npattern\t*.abcdefgh\x01ijklmnop\nend\n",
    "constraints\t1\nconstraint\tauth\ncollection\npattern\t*.abcdefghijkl\x01\nend\n",
    "constraints\t1\nconstraint\t\x01uth\ncollection\npattern\t/\nend\n",
    "constraints\t1\nconstraint\taut\x01\ncollection\npattern\t/\nend\n",
    "constraints\t1\nconstraint\tope\x01\ncollection\npattern\t/\nend\n",
    "constraints\t1\nconstraint\topen\x01\ncollection\npattern\t/\nend\n",
    "constraints\t1\nconstraint\x01open\ncollection\npattern\t/\nend\n",
    "constraints\t1\nconstraint\topen\x01" "collection\npattern\t/\nend\n",
    "constraints\t1\nconstraint\topen\ncollection\x01pattern\t/\nend\n",
    "constraints\t1\nconstraint\topen\ncollectio\x01\npattern\t/\nend\n",
    "constraints\t1\nconstraint\topen\n\x01ollection\npattern\t/\nend\n",
    "constraints\t1\nconstraint\topen\ncollection\npattern\x01/\nend\n",
    "constraints\t1\nconstraint\topen\ncollection\npattern\t/\x01" "end\n",
    "constraints\t1\nconstraint\topen\ncollection\npattern\t/\nen\x01\n",
    "constraints\t1\nconstraint\topen\ncollection\npattern\t/\n\x01nd\n",
    "constraints\t1\nconstraint\topen\ncollection\npattern\t/\nend\x01",
    "constraints\t1\nconstraint\topen\ncollection\npattern\t/\nend\n\x01",
    "constraints\t1\nconstraint\topen\ncollection\npattern\t/\nend\x01\n",
    "constraints\t1\nconstraint\topen\ncollection\npattern\t/\n\x01" "end\n",
    "constraints\t1\nconstraint\topen\ncollection\npattern\t/\n\x01",
    "constraints\t1\nconstraint\topen\ncollection\npattern\t/\n\x01\nend\n",
    "constraints\t1\nrol\x01\ta\nend\n",
    "constraints\t1\nrole\x01" "a\nend\n",
    "constraints\t1\n\x01ole\ta\nend\n",
    "constraints\t1\nrole\ta\nallo\x01\tb\nend\n",
    "constraints\t1\x01" "end\n",
    "constraints\t\x01\nend\n",
    "constraints\x01" "1\nend\n",
    "\x01onstraints\t1\nend\n",
    "constrai\x01ts\t1\nend\n",
    "constraint\x01\t1\nend\n",
    "constraints\t1",
    "\x01",
    "\x01" "constraints\t1\nend\n",
    "constraints\t1\x01\nend\n"
};

/* The same in requests: path, method, caller. */
static const char *const ASKED[][3] = {
    { "\x01", "GET", "a\n" },
    { "/\x01", "GET", "a\n" },
    { "\x01/", "GET", "a\n" },
    { "/a/b\x01", "GET", "a\n" },
    { "/abcdefg\x01hijklmnop", "GET", "a\n" },
    { "/abcdefghij\x01", "GET", "a\n" },
    { "/a/x\x01" "csv", "GET", "a\n" },
    { "/a\x01" "b", "GET", "a\n" },
    { "/a/\x01", "PUT", "b\n" },
    { "/a;\x01/b/c", "GET", "a\n" },
    { "/a/b;x\x01", "GET", "a\n" },
    { "/a/b\x01;x/c", "GET", "a\n" },
    { "/x.csv;\x01y", "GET", "c\n" },
    { "/a", "\x01", "a\n" },
    { "/a", "GE\x01", "a\n" },
    { "/a", "\x01" "ET", "a\n" },
    { "/a", "ABCDEFGH\x01IJKLMNOP", "a\n" },
    { "/a", "GET", "\x01" },
    { "/a", "GET", "\x01\n" },
    { "/a", "GET", "a\x01" },
    { "/a", "GET", "a\x01\n" },
    { "/a", "GET", "\x01" "a\n" },
    { "/a", "GET", "a\n\x01\n" },
    { "/a", "GET", "a\nabcdefgh\x01ijklmnopqrs\nc\n" },
    { "/a", "GET", "b\nc\x01" "a\n" }
};
static const char ASKED_OF[] =
    "constraints\t1\nrole\ta\nrole\tb\n"
    "constraint\tauth\nallow\ta\ncollection\npattern\t/a/*\nmethod\tGET\n"
    "constraint\tauth\nallow\t*\ncollection\npattern\t*.csv\npattern\t/\nomit\tPUT\n"
    "constraint\tauth\ncollection\npattern\t/a/b/c\nend\n";

/* Good pattern texts for pairs of patterns. */
static const char *const PAIR[] = {
    "", "/", "/*", "//*", "/a", "/a*", "/a/", "/a/*", "/a/b", "/a/b/*", "/a/b/", "/*/*", "/a//*",
    "///*", "*.a", "*.b", "/a.a", "/a/x.a", "/.a", "*.\xe9", "/\xe9/*", "/*.a", "/a/*.a", "/ab/*",
    "*.longextension", "/longprefix-with-more/*", "/longprefix-with-more/b", "//", "/a/b*", "/.",
    "*.sevenby", "*.eightbyt"
};
static const char *const PAIR_PATHS[] = {
    "/", "//", "///", "/a", "/a/", "/a/b", "/a/b/", "/a/b/c", "/ab", "/ab/c", "/a*", "/*", "/a.a",
    "/x.a", "/a/x.a", "/a/b/x.a", "/x.b", "/.a", "/a/.a", "/a./", "/x.a/", "/x.a/y", "/x.a.b",
    "/x.b.a", "/x.", "/.", "/a/*", "/a//", "/a//b", "/*/x", "/*/", "/\xe9", "/\xe9/x.\xe9",
    "/x.\xe9", "/*.a", "/a/*.a", "/longprefix-with-more", "/longprefix-with-more/",
    "/longprefix-with-more/b", "/longprefix-with-mor", "/longprefix-with-more.longextension",
    "/x.longextension", "/a;b", "/x.sevenby", "/x.eightbyt", "/a/b*", "/a/b/x.longextension",
    "/;", "/;x", "/;/", "/;x/;y", "/a;", "/a;/", "/a;/b", "/a;x/b", "/a/b;x", "/a;x;y/b;z", "/a;;/b/;",
    "/a/;x", "/;x/a", "/x.a;b", "/x.a;.b", "/x;.a", "/x.b;x.a", "/x.a;/", "/x.;a", "/a/x;y.a", "/a;x.b/x.a",
    "/longprefix-with-more;x/b", "/longprefix;-with-more/b", "/\xe9;\xe9/x", "/a;*", ";/", ";", ";/a", "/a;/*"
};

/* Rules on one pattern, for comparing. */
static const char *const RULES[][2] = {
    { "constraint\topen\n", "" },
    { "constraint\tauth\n", "" },
    { "constraint\tauth\nallow\ta\n", "" },
    { "constraint\tauth\nallow\tb\nallow\ta\n", "" },
    { "constraint\tauth\nallow\t*\n", "" },
    { "constraint\tauth\nallow\ta\n", "method\tGET\n" },
    { "constraint\tauth\nallow\ta\n", "omit\tGET\n" },
    { "constraint\tauth\n", "method\tQ0\n" },
    { "constraint\topen\n", "omit\tPUT\n" }
};
static const char *const RULE_PATTERNS[] = {
    "", "/", "/*", "//*", "/a/*", "/a/b/*", "/a", "/a/x.e", "*.e", "*.f", "/q0/*", "/a.e", "/a/q0.e"
};

enum {
    PAIRS_OF_RECORDS = 10 * 10 * 2 * 2,
    BYTES_IN_FIELDS = COUNT(FIELDS) * 256,
    BYTES_IN_REQUESTS = COUNT(ASKED) * 256,
    PAIRS_OF_PATTERNS = COUNT(PAIR) * COUNT(PAIR) * COUNT(PAIR_PATHS),
    RULED = COUNT(RULES) * COUNT(RULE_PATTERNS),
    PAIRS_OF_LISTINGS = RULED * RULED,
    LIMIT_CASES = LIMITS * 2 * 8 * 2,
    BUFFER_CASES = 3 * 6 * 4,
    CALLER_CASES = 8 * 36,
    LENGTH_PAIRS = 70 * 5 * 5 * 4,
    LENGTHS = 5 * 1100
};

size_t generate_small_count(void)
{
    return (size_t)PAIRS_OF_RECORDS + BYTES_IN_FIELDS + BYTES_IN_REQUESTS + PAIRS_OF_PATTERNS +
           PAIRS_OF_LISTINGS + LIMIT_CASES + BUFFER_CASES + CALLER_CASES + LENGTH_PAIRS + LENGTHS;
}

static void fill_in(struct out *o, const char *text, unsigned byte)
{
    for (; *text != 0; text++)
        put1(o, *text == 1 ? byte : (uint8_t)*text);
}

static void put_ruled(struct out *o, size_t i)
{
    const char *const *rule = RULES[i % COUNT(RULES)];
    puts_(o, i % 2 == 0 ? "constraints\t1\nrole\ta\n" : "constraints\t1\n");
    puts_(o, rule[0]);
    puts_(o, "collection\npattern\t");
    puts_(o, RULE_PATTERNS[i / COUNT(RULES)]);
    puts_(o, "\n");
    puts_(o, rule[1]);
    puts_(o, "end\n");
}

/* A pattern with a part of a length, and another below it. */
static void put_lengthy(struct out *o, size_t kind, size_t length, const char *below_it,
                        unsigned turned)
{
    static const char *const around[5][2] = {
        { "*.X", "" }, { "/y.X", "" }, { "/X/y", "" }, { "/X", "/*" }, { "/X/y", "/*" }
    };
    /* new allows a and b on the pattern and nobody below it; old b and a */
    puts_(o, "constraints\t1\nrole\ta\nconstraint\tauth\n");
    puts_(o, turned ? "allow\ta\nallow\tb\n" : "allow\tb\n");
    puts_(o, "collection\npattern\t");
    for (const char *s = around[kind][0]; *s != 0; s++)
        if (*s != 'X')
            put1(o, (uint8_t)*s);
        else
            for (size_t k = 0; k < length; k++)
                put1(o, 'a' + k % 26);
    puts_(o, around[kind][1]);
    puts_(o, "\nconstraint\tauth\n");
    puts_(o, turned ? "" : "allow\ta\n");
    puts_(o, "collection\npattern\t");
    puts_(o, below_it);
    puts_(o, "\nend\n");
}

void generate_small(size_t i, struct generated *g)
{
    struct out o = { g->listing, 0, GENERATED_LISTING };
    struct out n = { g->new_listing, 0, GENERATED_LISTING };
    struct out p = { g->path, 0, GENERATED_PATH };
    struct out m = { g->method, 0, GENERATED_METHOD };
    struct out c = { g->roles, 0, GENERATED_ROLES };

    no_case(g, GENERATED_READ, i);
    if (i < PAIRS_OF_RECORDS) {
        puts_(&o, LEADS[i % 10]);
        puts_(&o, RECORDS[i / 10 % 10][0]);
        if (i / 100 % 2 == 1)
            puts_(&o, RECORDS[i / 10 % 10][1]);
        if (i / 200 == 1) {
            g->kind = GENERATED_DECIDE;
            puts_(&p, "/y");
            puts_(&m, "PUT");
            puts_(&c, "b\n");
            g->login = 1;
        }
        goto done;
    }
    i -= PAIRS_OF_RECORDS;
    if (i < BYTES_IN_FIELDS) {
        fill_in(&o, FIELDS[i / 256], i % 256);
        goto done;
    }
    i -= BYTES_IN_FIELDS;
    if (i < BYTES_IN_REQUESTS) {
        g->kind = GENERATED_DECIDE;
        puts_(&o, ASKED_OF);
        fill_in(&p, ASKED[i / 256][0], i % 256);
        fill_in(&m, ASKED[i / 256][1], i % 256);
        fill_in(&c, ASKED[i / 256][2], i % 256);
        g->login = 1;
        goto done;
    }
    i -= BYTES_IN_REQUESTS;
    if (i < PAIRS_OF_PATTERNS) {
        /* closed on the one, a role on the other: the answer tells the best */
        size_t a = i / COUNT(PAIR_PATHS) % COUNT(PAIR);
        size_t b = i / COUNT(PAIR_PATHS) / COUNT(PAIR);
        g->kind = GENERATED_DECIDE;
        puts_(&o, "constraints\t1\nrole\ta\nconstraint\tauth\ncollection\npattern\t");
        puts_(&o, PAIR[a]);
        puts_(&o, "\nconstraint\tauth\nallow\ta\ncollection\npattern\t");
        puts_(&o, PAIR[b]);
        puts_(&o, "\nend\n");
        puts_(&p, PAIR_PATHS[i % COUNT(PAIR_PATHS)]);
        puts_(&m, "GET");
        puts_(&c, "a\n");
        g->login = 1;
        goto done;
    }
    i -= PAIRS_OF_PATTERNS;
    if (i < PAIRS_OF_LISTINGS) {
        g->kind = GENERATED_COMPARE;
        g->answer_len = 1024;
        put_ruled(&o, i % RULED);
        put_ruled(&n, i / RULED);
        goto done;
    }
    i -= PAIRS_OF_LISTINGS;
    if (i < LIMIT_CASES) {
        struct big b;
        limit((unsigned)(i % LIMITS), (unsigned)(i / LIMITS % 2), (unsigned)(i / LIMITS / 2 % 8) * 5, &b);
        o.length = generate_big(&b, o.at, o.room);
        if (i / LIMITS / 16 == 1) {
            g->kind = GENERATED_DECIDE;
            puts_(&p, "/p1/x.e1");
            puts_(&m, "M1");
            puts_(&c, "role1\n");
            g->login = 1;
        }
        goto done;
    }
    i -= LIMIT_CASES;
    if (i < BUFFER_CASES) {
        static const size_t works[6] = { 0, 1, 4095, 4096, 4097, 6000 };
        static const size_t answers[4] = { 0, 1023, 1024, 3000 };
        g->kind = (enum generated_kind)(i % 3);
        g->work_len = works[i / 3 % 6];
        g->answer_len = answers[i / 18];
        puts_(&o, ASKED_OF);
        puts_(&n, i % 2 == 0 ? ASKED_OF : "constraints\t1\nend\n");
        puts_(&p, "/a/b");
        puts_(&m, "GET");
        if (g->kind != GENERATED_COMPARE)
            g->answer_len = 0;
        goto done;
    }
    i -= BUFFER_CASES;
    if (i < CALLER_CASES) {
        /* 0 to 35 names, whole or not, the last one good or not, logged in or not */
        g->kind = GENERATED_DECIDE;
        puts_(&o, ASKED_OF);
        puts_(&p, "/a/b");
        puts_(&m, "GET");
        for (size_t k = 0; k < i % 36; k++)
            puts_(&c, k % 3 == 0 ? "x\n" : k % 3 == 1 ? "b\n" : X64 "\n");
        switch (i / 36) {
        case 0: g->login = 1; break;
        case 1: g->login = 0; break;
        case 2: g->login = 1; puts_(&c, "a\n"); break;
        case 3: g->login = 1; puts_(&c, "a"); break;
        case 4: g->login = 1; puts_(&c, X64 "x\n"); break;
        case 5: g->login = 1; puts_(&c, "*\n"); break;
        case 6: g->login = 2; break;
        default: g->login = 0xffffffffu; break;
        }
        goto done;
    }
    i -= CALLER_CASES;
    if (i < LENGTH_PAIRS) {
        /* patterns with a part X of every length against each other, with a
         * default or a prefix of all below them */
        size_t length = i % 70, old_kind = i / 70 % 5, new_kind = i / 350 % 5;
        unsigned below_them = (unsigned)(i / 1750);
        g->kind = GENERATED_COMPARE;
        g->answer_len = 1024;
        put_lengthy(&o, old_kind, length, below_them & 1 ? "/*" : "/", 0);
        put_lengthy(&n, new_kind, length, below_them & 2 ? "/*" : "/", 1);
        goto done;
    }
    i -= LENGTH_PAIRS;
    {
        /* a path, a method, a name or parameters of every length */
        size_t length = i % 1100;
        g->kind = GENERATED_DECIDE;
        puts_(&o, ASKED_OF);
        g->login = 1;
        switch (i / 1100) {
        case 0:
            puts_(&m, "GET");
            puts_(&c, "a\n");
            for (size_t k = 0; k < length; k++)
                put1(&p, k % 5 == 0 ? '/' : k % 7 == 3 ? '.' : 'a');
            break;
        case 1:
            puts_(&p, "/");
            for (size_t k = 0; k < length % 50; k++)
                put1(&m, 'G');
            break;
        case 2:
            /* one parameter takes the path to that length */
            puts_(&p, "/a/b");
            puts_(&m, "GET");
            puts_(&c, "a\n");
            for (size_t k = 0; k < length; k++)
                put1(&p, k == 0 ? ';' : k % 7 == 3 ? '.' : 'c');
            break;
        case 3:
            /* a parameter in every segment */
            puts_(&m, "GET");
            puts_(&c, "a\n");
            for (size_t k = 0; k < length; k++)
                put1(&p, k % 5 == 0 ? '/' : k % 5 == 2 ? ';' : 'a');
            break;
        default:
            puts_(&p, "/a/b");
            puts_(&m, "GET");
            for (size_t k = 0; k < length; k++)
                put1(&c, 'a');
            puts_(&c, "\n");
            break;
        }
    }
done:
    g->listing_len = o.length;
    g->new_len = n.length;
    g->path_len = p.length;
    g->method_len = m.length;
    g->roles_len = c.length;
}

/* ------------------------------------------------------------ large things */

enum { LARGE = 12 };

size_t generate_large_count(void)
{
    return LARGE;
}

static void full(struct big *b)
{
    memset(b, 0, sizeof *b);
    b->declared = 32;
    b->constraints = 64;
    b->collections = b->patterns = 128;
    b->methods = 31;
    b->method_lines = 512;
    b->size = 24576;
    b->prefixes = 40;
    b->extensions = 20;
    b->nested = 1;
}

/* One side of the worst pair: 126 prefixes or extensions and `/`, 31 methods
 * and 32 roles, padded to 24,576 bytes.  The prefixes' side allows some roles,
 * the other one all; with `omits` three methods are left out everywhere. */
static void put_worst_of(struct out *o, unsigned prefixes, unsigned names, unsigned omits,
                         size_t padding)
{
    static const char *const role_stems[2] = { "ra", "rb" };
    static const char *const method_stems[2] = { "MA", "MB" };
    const char *role = role_stems[names], *method = method_stems[names];
    char line[64];
    puts_(o, "constraints\t1\n");
    for (unsigned i = 0; i < 32; i++) {
        snprintf(line, sizeof line, "role\t%s%u\n", role, i);
        puts_(o, line);
    }
    for (unsigned c = 0; c < 64; c++) {
        puts_(o, "constraint\tauth\n");
        if (!prefixes)
            puts_(o, "allow\t*\n");
        else
            for (unsigned k = 0; k < 4; k++) {
                snprintf(line, sizeof line, "allow\t%s%u\n", role, (c * 5 + k * 7) % 32);
                puts_(o, line);
            }
        for (unsigned k = 0; k < 2; k++) {
            unsigned i = 2 * c + k;
            size_t extra = padding * (i + 1) / 126 - padding * i / 126;
            puts_(o, "collection\n");
            if (i >= 126) {
                puts_(o, "pattern\t/\n");
            } else {
                putn(o, prefixes ? "pattern\t/p" : "pattern\t*.e", i, "");
                for (size_t x = 0; x < extra; x++)
                    put1(o, 'a' + (x + i) % 26);
                puts_(o, prefixes ? "/*\n" : "\n");
            }
            for (unsigned m = i == 127 ? 0 : omits ? 28 : 31; m < (i == 127 ? 28 : 31); m++) {
                snprintf(line, sizeof line, "%s\t%s%u\n", i == 127 ? "method" : "omit", method, m);
                puts_(o, line);
            }
            if (i == 127 && !omits)
                for (unsigned m = 28; m < 31; m++) {
                    snprintf(line, sizeof line, "method\t%s%u\n", method, m);
                    puts_(o, line);
                }
        }
    }
    puts_(o, "end\n");
}

static void put_worst(struct out *o, unsigned prefixes, unsigned names, unsigned omits)
{
    put_worst_of(o, prefixes, names, omits, 0);
    if (o->length < 24576) {
        size_t padding = 24576 - o->length;
        o->length = 0;
        put_worst_of(o, prefixes, names, omits, padding);
    }
}

/* The last constraint, of `/`, becomes open. */
static void open_last(struct out *o)
{
    static const char auth[] = "constraint\tauth\n", coll[] = "collection\n";
    size_t at = o->length - 16, stop;
    while (at > 0 && memcmp(o->at + at, auth, sizeof auth - 1) != 0)
        at--;
    for (stop = at; memcmp(o->at + stop, coll, sizeof coll - 1) != 0; stop++)
        ;
    splice(o, at, stop - at, "constraint\topen\n", 16);
}

/* Patterns that hold the numbers from..to-1 behind a q each, and the shorter
 * ones they start with. */
static void put_fillers(struct out *o, unsigned from, unsigned to)
{
    unsigned used = 250;
    puts_(o, "constraints\t1\nconstraint\tauth\ncollection");
    for (unsigned i = from; i < to; i++) {
        if (used + 6 > 250) {
            puts_(o, "\npattern\t/");
            used = 0;
        }
        putn(o, "q", i, "");
        used += 6;
    }
    puts_(o, "\nend\n");
}

void generate_large(size_t i, struct generated *g)
{
    struct out o = { g->listing, 0, GENERATED_LISTING };
    struct out n = { g->new_listing, 0, GENERATED_LISTING };
    struct big b;
    no_case(g, GENERATED_COMPARE, i);
    switch (i) {
    case 0:                                            /* full, with itself */
        full(&b);
        o.length = generate_big(&b, o.at, o.room);
        n.length = generate_big(&b, n.at, n.room);
        break;
    case 1:                                            /* full, other names */
        full(&b);
        o.length = generate_big(&b, o.at, o.room);
        b.shift = 13;
        n.length = generate_big(&b, n.at, n.room);
        break;
    case 2:                                            /* the worst pair */
        put_worst(&o, 0, 0, 1);
        put_worst(&n, 1, 0, 1);
        break;
    case 3:                                            /* other methods on each side */
        put_worst(&o, 0, 1, 0);
        put_worst(&n, 1, 0, 0);
        for (size_t k = 0; k + 3 < o.length; k++)      /* but the same roles */
            if (memcmp(o.at + k, "\trb", 3) == 0)
                o.at[k + 2] = 'a';
        break;
    case 4:                                            /* wider only at the very end */
        put_worst(&o, 0, 0, 1);
        put_worst(&n, 1, 0, 1);
        open_last(&n);
        break;
    case 10:                                           /* the roles turned: old less than new */
        put_worst(&o, 1, 0, 1);
        put_worst(&n, 0, 0, 1);
        break;
    case 11:                                           /* one extension of old, the last, without a role */
        put_worst_of(&o, 0, 0, 1, 9000);
        put_worst(&n, 1, 0, 1);
        {
            size_t at = 0, seen = 0;
            for (size_t k = 0; k + 8 < o.length; k++)
                if (memcmp(o.at + k, "allow\t*\n", 8) == 0 && ++seen == 63)
                    at = k;
            static const char few[] = "allow\tra0\nallow\tra4\nallow\tra5\n";
            splice(&o, at, 8, few, sizeof few - 1);
        }
        break;
    case 5:                                            /* the fillers used up in one listing */
    case 6:                                            /* in both: five digits */
    case 7:                                            /* one number missing in the middle */
        put_fillers(&o, i == 7 ? 100 : 1000, i == 7 ? 500 : 5500);
        if (i == 5)
            puts_(&n, "constraints\t1\nconstraint\tauth\ncollection\npattern\t/q0\nend\n");
        else
            put_fillers(&n, i == 7 ? 501 : 5500, i == 7 ? 1000 : 10000);
        {
            /* all closed, but in new for the last prefix */
            static const char rest[] = "pattern\t/*\npattern\t/q0\nend\n";
            static const char more[] = "pattern\t/*\nconstraint\topen\ncollection\n"
                                       "pattern\t/zq0/*\nend\n";
            splice(&o, o.length - 4, 4, rest, sizeof rest - 1);
            splice(&n, n.length - 4, 4, more, sizeof more - 1);
        }
        break;
    case 8:                                            /* full, all repeats */
        full(&b);
        b.repeats = 2;
        o.length = generate_big(&b, o.at, o.room);
        b.repeats = 3;
        n.length = generate_big(&b, n.at, n.room);
        break;
    default:                                           /* full, undeclared roles */
        full(&b);
        b.declared = 10;
        b.undeclared = 22;
        n.length = generate_big(&b, n.at, n.room);
        o.length = generate_big(&b, o.at, o.room);
        break;
    }
    g->listing_len = o.length;
    g->new_len = n.length;
}
