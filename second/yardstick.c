/* yardstick.c: reading, deciding and comparing for speed, in plain C.
 *
 * How it is fast:
 * - One walk over the listing serves all three calls (compiled three times).
 *   The walk only recognises good lines; the first line that isn't good goes
 *   to fault(), which finds out in 01's order which number it gets.
 * - Bytes are looked at eight at a time in one 64-bit number.  All lines up to
 *   the last byte 10 are ended, so no line needs a check for the text's end.
 * - Names are kept in small hash tables by their first and last eight bytes;
 *   a name found there was checked before.  Only new names go through the
 *   class table.
 * - Deciding matches each pattern when it passes by and keeps no patterns.  A
 *   path without a `;` is matched where it stands, another one copied without
 *   its parameters.
 * - Comparing gives every pattern text a row: for each method of its listing
 *   (column 31: any other method) the set of granted roles, and whether it is
 *   open.  Of the filler it only needs to know that no pattern holds it, so
 *   trial paths are never written down; a prefix is tried with all extension
 *   patterns of the other listing at once (their rows and-ed or or-ed), since
 *   new minus old is empty for all rows exactly if it is for that one.
 *   With YARDSTICK_WALK defined it goes through all trial paths one by one.
 *
 * No memory is allotted, nothing static is written, and the stack stays far
 * below 16 KiB.
 */
#include "yardstick.h"

#include <string.h>

#define INLINE static inline __attribute__((always_inline))
#define COLD static __attribute__((noinline, cold))
#define LIKELY(x) __builtin_expect(!!(x), 1)
#define UNLIKELY(x) __builtin_expect(!!(x), 0)

enum { WORK_NUMBERS = 4096, LEAST_ANSWER = 1024, MOST_BYTES = 24576, MOST_PATH_BYTES = 1024 };

/* ------------------------------------------------------------ class table */

enum { TEXT = 1, TOKEN = 2, BARRED = 4 };      /* BARRED: not in an extension */

#define X_ TEXT
#define T_ (TEXT | TOKEN)
#define B_ (TEXT | BARRED)
#define A_ (TEXT | TOKEN | BARRED)
#define X8 X_, X_, X_, X_, X_, X_, X_, X_
#define T8 T_, T_, T_, T_, T_, T_, T_, T_
static const uint8_t CLASS[256] = {
    0, 0, 0, 0, 0, 0, 0, 0, 0, 0, 0, 0, 0, 0, 0, 0,
    0, 0, 0, 0, 0, 0, 0, 0, 0, 0, 0, 0, 0, 0, 0, 0,
    /*  sp  !   "   #   $   %   &   '   (   )   *   +   ,   -   .   / */
    X_, T_, X_, T_, T_, T_, T_, T_, X_, X_, A_, T_, X_, T_, A_, B_,
    /*  0   1   2   3   4   5   6   7   8   9   :   ;   <   =   >   ? */
    T8, T_, T_, X_, X_, X_, X_, X_, X_,
    /*  @   A .. O */
    X_, T_, T_, T_, T_, T_, T_, T_, T8,
    /*  P .. Z, [   \   ]   ^   _ */
    T8, T_, T_, T_, X_, X_, X_, T_, T_,
    /*  `   a .. o */
    T8, T8,
    /*  p .. z, {   |   }   ~   del */
    T8, T_, T_, T_, X_, T_, X_, T_, 0,
    X8, X8, X8, X8, X8, X8, X8, X8, X8, X8, X8, X8, X8, X8, X8, X8
};

/* ------------------------------------------------- eight bytes at one time */

#define ONES 0x0101010101010101u
#define TOPS 0x8080808080808080u
#define EACH(b) (ONES * (uint64_t)(b))

/* Eight bytes, the first lowest. */
INLINE uint64_t load8(const uint8_t *p)
{
#if defined __BYTE_ORDER__ && __BYTE_ORDER__ == __ORDER_LITTLE_ENDIAN__
    uint64_t x;
    memcpy(&x, p, 8);
    return x;
#else
    return (uint64_t)p[0] | (uint64_t)p[1] << 8 | (uint64_t)p[2] << 16 |
           (uint64_t)p[3] << 24 | (uint64_t)p[4] << 32 | (uint64_t)p[5] << 40 |
           (uint64_t)p[6] << 48 | (uint64_t)p[7] << 56;
#endif
}

#define WORD8(a, b, c, d, e, f, g, h)                                               \
    ((uint64_t)(a) | (uint64_t)(b) << 8 | (uint64_t)(c) << 16 | (uint64_t)(d) << 24 | \
     (uint64_t)(e) << 32 | (uint64_t)(f) << 40 | (uint64_t)(g) << 48 | (uint64_t)(h) << 56)

/* Eight bytes at p, zeros past the end.  There is a byte at p and there are
 * eight before the end. */
INLINE uint64_t peek(const uint8_t *p, const uint8_t *end)
{
    size_t left = (size_t)(end - p);
    if (LIKELY(left >= 8))
        return load8(p);
    return load8(end - 8) >> (64 - 8 * left);
}

/* The n bytes that end at p, at most eight; eight bytes before p are there. */
INLINE uint64_t ending(const uint8_t *p, size_t n)
{
    uint64_t x = load8(p - 8);
    if (n >= 8)
        return x;
    return n == 0 ? 0 : x >> (64 - 8 * n);
}

/* Marks the top bit of the first byte that is b, and perhaps of some after. */
INLINE uint64_t marks(uint64_t x, uint8_t b)
{
    uint64_t y = x ^ EACH(b);
    return (y - ONES) & ~y & TOPS;
}

/* Marks exactly the bytes that are b. */
INLINE uint64_t exact_marks(uint64_t x, uint8_t b)
{
    uint64_t y = x ^ EACH(b);
    return ~(((y & ~TOPS) + ~TOPS) | y | ~TOPS);
}

/* Marks the top bit of the first byte that is no text, and perhaps of some
 * after: below 32 or 127. */
INLINE uint64_t no_text_marks(uint64_t x)
{
    uint64_t y = x ^ EACH(127);
    return (((x - EACH(32)) & ~x) | ((y - ONES) & ~y)) & TOPS;
}

/* Likewise of the first byte that no pattern holds: no text, or `;`. */
INLINE uint64_t no_pattern_marks(uint64_t x)
{
    return no_text_marks(x) | marks(x, ';');
}

INLINE size_t first_mark(uint64_t z)
{
    return (size_t)__builtin_ctzll(z) >> 3;
}

INLINE int same(const uint8_t *a, const uint8_t *b, size_t n)
{
    if (n < 8) {
        for (size_t i = 0; i < n; i++)
            if (a[i] != b[i])
                return 0;
        return 1;
    }
    for (size_t i = 0; i + 8 < n; i += 8)
        if (load8(a + i) != load8(b + i))
            return 0;
    return load8(a + n - 8) == load8(b + n - 8);
}

/* ------------------------------------------------------------------ names */

enum { NO_NAME = 64 };

/* Up to 32 distinct names, by first appearance, with a hash table. */
struct names {
    uint64_t head[32], tail[32];       /* the first and the last eight bytes */
    uint16_t at[32];
    uint8_t length[32];
    uint8_t slot[64];                  /* place and 1, or 0 */
    uint32_t count;
};

/* A name: its bytes, and its first and last eight (both the whole, zeros
 * after, if it has less). */
struct field {
    const uint8_t *at;
    size_t length;
    uint64_t head, tail;
};

INLINE void no_names(struct names *t)
{
    memset(t->slot, 0, sizeof t->slot);
    t->count = 0;
}

INLINE uint32_t name_slot(uint64_t head, uint64_t tail)
{
    return (uint32_t)((head * 0x9e3779b97f4a7c15u + tail * 0xc2b2ae3d27d4eb4fu) >> 58);
}

/* The field from s up to the next byte 10, which is there. */
INLINE struct field field_at(const uint8_t *s, const uint8_t *end)
{
    struct field f;
    uint64_t x = peek(s, end);
    uint64_t z = marks(x, 10);
    f.at = s;
    if (LIKELY(z != 0)) {
        f.length = first_mark(z);
        f.head = f.tail = x & (((z & (0 - z)) >> 7) - 1);
        return f;
    }
    f.head = x;
    const uint8_t *q = s;
    do {
        q += 8;
        z = marks(peek(q, end), 10);
    } while (z == 0);
    q += first_mark(z);
    f.length = (size_t)(q - s);
    f.tail = load8(q - 8);
    return f;
}

INLINE uint32_t find_name(const struct names *t, const uint8_t *text, const struct field *f)
{
    uint32_t i = name_slot(f->head, f->tail);
    uint32_t k;
    while ((k = t->slot[i]) != 0) {
        k--;
        if (t->head[k] == f->head && t->tail[k] == f->tail && t->length[k] == f->length) {
            if (LIKELY(f->length <= 16))
                return k;
            if (same(text + t->at[k] + 8, f->at + 8, f->length - 16))
                return k;
        }
        i = (i + 1) & 63;
    }
    return NO_NAME;
}

static int role_name(const uint8_t *s, size_t n)
{
    if (n < 1 || n > 64 || s[0] == ' ' || s[n - 1] == ' ')
        return 0;
    uint32_t all = TEXT;
    for (size_t i = 0; i < n; i++)
        all &= CLASS[s[i]];
    return all != 0 && !(n == 1 && s[0] == '*');
}

static int method_name(const uint8_t *s, size_t n)
{
    if (n < 1 || n > 24)
        return 0;
    uint32_t all = TOKEN;
    for (size_t i = 0; i < n; i++)
        all &= CLASS[s[i]];
    return all != 0;
}

/* A name not yet there: its place, or NO_NAME if it is bad or one too many. */
static __attribute__((noinline)) uint32_t enter_name(struct names *t, const uint8_t *text,
                                                     const struct field *f, int method)
{
    uint32_t k = t->count;
    if (!(method ? method_name(f->at, f->length) : role_name(f->at, f->length)))
        return NO_NAME;
    if (k == (method ? 31 : 32))
        return NO_NAME;
    uint32_t i = name_slot(f->head, f->tail);
    while (t->slot[i] != 0)
        i = (i + 1) & 63;
    t->slot[i] = (uint8_t)(k + 1);
    t->head[k] = f->head;
    t->tail[k] = f->tail;
    t->at[k] = (uint16_t)(f->at - text);
    t->length[k] = (uint8_t)f->length;
    t->count = k + 1;
    return k;
}

/* --------------------------------------------------------------- patterns */

enum kind { BAD, EXACT, PREFIX, EXTENSION, DEFAULT };

/* E has no `.`, `/` or `*` (and eight bytes stand before it). */
INLINE int extension_ok(const uint8_t *e, size_t n)
{
    /* `*`, `+`, `.` and `/` are alike but for the bits 1 and 4 */
    uint64_t hit = 0;
    size_t i = 0;
    for (; i + 8 <= n; i += 8)
        hit |= marks(load8(e + i) & EACH(0xfa), 0x2a);
    hit |= marks(ending(e + n, n - i) & EACH(0xfa), 0x2a);
    if (LIKELY(hit == 0))
        return 1;
    for (i = 0; i < n; i++)
        if (CLASS[e[i]] & BARRED)
            return 0;
    return 1;
}

/* The kind of a pattern whose bytes are text, none a `;`. */
INLINE enum kind kind_of(const uint8_t *s, size_t n)
{
    if (UNLIKELY(n > 255))
        return BAD;
    if (UNLIKELY(n == 0))
        return EXACT;
    if (s[n - 1] == ' ')
        return BAD;
    if (s[0] == '/') {
        if (n == 1)
            return DEFAULT;
        return s[n - 1] == '*' && s[n - 2] == '/' ? PREFIX : EXACT;
    }
    if (n >= 3 && s[0] == '*' && s[1] == '.' && extension_ok(s + 2, n - 2))
        return EXTENSION;
    return BAD;
}

/* ----------------------------------------------------- what a walk gathers */

enum { NO_PATTERN = 255 };

/* For comparing: the whole listing in numbers. */
struct model {
    const uint8_t *text;
    struct names roles, methods;
    uint64_t open, closed;             /* sets of constraints */
    uint32_t allow[64];                /* sets of roles, by constraint */
    uint32_t cover[128];               /* sets of methods, by collection */
    uint8_t owner[128];                /* constraint, by collection */
    uint16_t at[128];                  /* from here by pattern line */
    uint8_t length[128];
    uint8_t kind[128];
    uint8_t home[128];                 /* collection */
    uint8_t next[128];                 /* a line with the same text */
    uint8_t heads[128];                /* the first lines of their texts */
    uint8_t slot[256];                 /* hash table of the heads: place and 1, or 0 */
    uint64_t prefix_lengths[4];        /* set of the lengths of P */
    uint32_t constraints, collections, patterns, distinct;
    uint32_t all_prefix, fallback;     /* the lines of the prefix of all and of the default */
};

/* For deciding: the request, and the best match so far. */
struct query {
    const uint8_t *path;
    size_t path_len;
    const uint8_t *extension;
    size_t extension_len;              /* 0: none */
    struct field method;
    uint32_t best;                     /* rank of the best pattern, 0: none */
    uint32_t any, closed, open, roles; /* what its constraints come to */
};

enum { RANK_DEFAULT = 1, RANK_EXTENSION = 2, RANK_PREFIX = 3, RANK_EXACT = 1000 };

enum mode { READ, DECIDE, MODEL };

INLINE uint32_t text_slot(uint64_t tail, size_t n)
{
    return (uint32_t)(((tail + n * 0xff51afd7ed558ccdu) * 0x9e3779b97f4a7c15u) >> 56);
}

/* The head with this text: n bytes of which stand at s, from its byte `skip`
 * on; the rest is known from the kind. */
INLINE uint32_t find_text(const struct model *m, enum kind kind, uint64_t tail, size_t length,
                          const uint8_t *s, size_t skip, size_t n)
{
    uint32_t i = text_slot(tail, length);
    uint32_t k;
    while ((k = m->slot[i]) != 0) {
        k--;
        if (m->length[k] == length && m->kind[k] == kind &&
            same(m->text + m->at[k] + skip, s, n))
            return k;
        i = (i + 1) & 255;
    }
    return NO_PATTERN;
}

INLINE void enter_pattern(struct model *m, const uint8_t *s, size_t n, enum kind kind)
{
    uint32_t line = m->patterns++;
    uint64_t tail = ending(s + n, n);
    m->at[line] = (uint16_t)(s - m->text);
    m->length[line] = (uint8_t)n;
    m->kind[line] = (uint8_t)kind;
    m->home[line] = (uint8_t)(m->collections - 1);
    uint32_t head = find_text(m, kind, tail, n, s, 0, n);
    if (head != NO_PATTERN) {
        m->next[line] = m->next[head];
        m->next[head] = (uint8_t)line;
        return;
    }
    uint32_t i = text_slot(tail, n);
    while (m->slot[i] != 0)
        i = (i + 1) & 255;
    m->slot[i] = (uint8_t)(line + 1);
    m->next[line] = NO_PATTERN;
    m->heads[m->distinct++] = (uint8_t)line;
    if (kind == PREFIX) {
        m->prefix_lengths[(n - 2) >> 6] |= (uint64_t)1 << ((n - 2) & 63);
        if (n == 2)
            m->all_prefix = line;
    } else if (kind == DEFAULT) {
        m->fallback = line;
    }
}

/* The rank of a pattern that matches and beats what is there, else that. */
INLINE uint32_t better(const struct query *q, uint32_t rank, const uint8_t *s, size_t n,
                       enum kind kind)
{
    uint32_t least = rank >= q->best ? rank + 1 : q->best;
    switch (kind) {
    case EXACT:
        if (n == q->path_len ? same(s, q->path, n) : n == 0 && q->path_len == 1)
            return RANK_EXACT;
        break;
    case PREFIX: {
        size_t p = n - 2;
        if (RANK_PREFIX + p >= least && p <= q->path_len &&
            (p == q->path_len || q->path[p] == '/') && same(s, q->path, p))
            return RANK_PREFIX + (uint32_t)p;
        break;
    }
    case EXTENSION:
        if (RANK_EXTENSION >= least && n - 2 == q->extension_len &&
            same(s + 2, q->extension, n - 2))
            return RANK_EXTENSION;
        break;
    case DEFAULT:
        if (RANK_DEFAULT >= least)
            return RANK_DEFAULT;
        break;
    case BAD:
        break;
    }
    return rank;
}

/* --------------------------------------------------------------- the walk */

/* The line before, as one bit. */
enum {
    AT_FIRST = 1, AT_ROLE = 2, AT_OPEN = 4, AT_AUTH = 8, AT_ALLOW = 16,
    AT_COLLECTION = 32, AT_PATTERN = 64, AT_METHOD = 128, AT_OMIT = 256,
    BODY = AT_PATTERN | AT_METHOD | AT_OMIT,
    FOR_ROLE = AT_FIRST | AT_ROLE,
    FOR_CONSTRAINT = AT_FIRST | AT_ROLE | BODY,
    FOR_ALLOW = AT_AUTH | AT_ALLOW,
    FOR_COLLECTION = AT_OPEN | AT_AUTH | AT_ALLOW | BODY,
    FOR_PATTERN = AT_COLLECTION | AT_PATTERN,
    FOR_METHOD = AT_PATTERN | AT_METHOD,
    FOR_OMIT = AT_PATTERN | AT_OMIT,
    FOR_END = AT_FIRST | AT_ROLE | BODY
};

static int is(const uint8_t *s, size_t n, const char *word)
{
    return n == strlen(word) && memcmp(s, word, n) == 0;
}

/* The number for a line that isn't good: ended, after the first, before any
 * `end`.  Whether it passes a most-number isn't asked: it does if nothing else
 * is wrong. */
COLD uint32_t fault(const uint8_t *text, const uint8_t *p, uint32_t at,
                    const struct names *roles, const uint8_t *end)
{
    size_t n = 0, name = 0, tabs = 0;
    for (; p[n] != 10; n++)
        if (p[n] == 9 && tabs++ == 0)
            name = n;
    if (tabs == 0)
        name = n;
    const uint8_t *s = tabs == 0 ? p + n : p + name + 1;
    size_t len = tabs == 0 ? 0 : n - name - 1;
    uint32_t may;
    int good = 1;
    size_t wanted = 1;
    if (is(p, name, "role")) {
        may = FOR_ROLE;
        good = role_name(s, len);
    } else if (is(p, name, "constraint")) {
        may = FOR_CONSTRAINT;
        good = is(s, len, "open") || is(s, len, "auth");
    } else if (is(p, name, "allow")) {
        may = FOR_ALLOW;
        good = role_name(s, len) || is(s, len, "*");
    } else if (is(p, name, "collection")) {
        may = FOR_COLLECTION;
        wanted = 0;
    } else if (is(p, name, "pattern")) {
        may = FOR_PATTERN;
    } else if (is(p, name, "method")) {
        may = FOR_METHOD;
        good = method_name(s, len);
    } else if (is(p, name, "omit")) {
        may = FOR_OMIT;
        good = method_name(s, len);
    } else if (is(p, name, "end")) {
        may = FOR_END;
        wanted = 0;
    } else {
        return 4;
    }
    if (tabs != wanted)
        return 4;
    if (!(may & at))
        return 5;
    if (!good)
        return 6;
    if (may == FOR_PATTERN) {
        for (size_t i = 0; i < len; i++)
            if (!(CLASS[s[i]] & TEXT) || s[i] == ';')
                return 7;
        if (kind_of(s, len) == BAD)
            return 7;
    }
    if (may == FOR_ROLE) {
        struct field f = field_at(s, end);
        if (find_name(roles, text, &f) != NO_NAME)
            return 9;
    }
    return 8;
}

/* A collection is complete. */
INLINE void settle(enum mode mode, struct model *m, struct query *q, uint32_t collections,
                   uint32_t cover, uint32_t rank, uint32_t status, uint32_t asked,
                   uint32_t allow)
{
    if (mode == MODEL)
        m->cover[collections - 1] = cover;
    if (mode == DECIDE && rank != 0 && rank >= q->best) {
        if (rank > q->best) {
            q->best = rank;
            q->any = q->closed = q->open = q->roles = 0;
        }
        if (cover >> asked & 1) {
            q->any = 1;
            if (status == AT_AUTH)
                q->closed = 1;
            else if (status == AT_OPEN)
                q->open = 1;
            else
                q->roles |= allow;
        }
    }
}

#define NAME(...) WORD8(__VA_ARGS__)
#define LOW(n) (((uint64_t)1 << (8 * (n))) - 1)

/* Walks the listing (up to 24,576 bytes).  Gives the refusal number, 0 if
 * accepted, and the line. */
INLINE uint32_t walk(const uint8_t *text, size_t length, enum mode mode,
                     struct names *roles, struct names *methods,
                     struct model *m, struct query *q, uint32_t *line_out)
{
    *line_out = 1;
    if (length < 14 ||
        load8(text) != NAME('c', 'o', 'n', 's', 't', 'r', 'a', 'i') ||
        load8(text + 6) != NAME('a', 'i', 'n', 't', 's', 9, '1', 10))
        return 3;
    const uint8_t *end = text + length;
    const uint8_t *stop = end;                 /* after the last byte 10 */
    while (stop[-1] != 10)
        stop--;

    const uint8_t *p = text + 14;
    uint32_t line = 2, at = AT_FIRST;
    uint32_t constraints = 0, collections = 0, patterns = 0, method_lines = 0;
    uint32_t declared = 0;                     /* the set of the declared roles */
    uint32_t allow = 0;                        /* of this constraint */
    uint32_t cover = 0;                        /* of this collection */
    uint32_t rank = 0;                         /* of its best pattern */
    uint32_t status = 0;                       /* of the constraint: AT_OPEN, .. */
    uint32_t asked = 31;                       /* the request's method */
    no_names(roles);
    no_names(methods);

    for (; p < stop; line++) {
        uint64_t w = peek(p, end);
        switch ((uint8_t)w) {
        case 'm': {
            if ((w & LOW(7)) != NAME('m', 'e', 't', 'h', 'o', 'd', 9, 0) || !(FOR_METHOD & at))
                goto wrong;
            struct field f = field_at(p + 7, end);
            uint32_t k = find_name(methods, text, &f);
            if (UNLIKELY(k == NO_NAME)) {
                k = enter_name(methods, text, &f, 1);
                if (k == NO_NAME)
                    goto wrong;
                if (mode == DECIDE && f.length == q->method.length &&
                    same(f.at, q->method.at, f.length))
                    asked = k;
            }
            if (method_lines++ == 512)
                goto wrong;
            if (mode != READ)
                cover = (at == AT_PATTERN ? 0 : cover) | (uint32_t)1 << k;
            at = AT_METHOD;
            p = f.at + f.length + 1;
            break;
        }
        case 'o': {
            if ((w & LOW(5)) != NAME('o', 'm', 'i', 't', 9, 0, 0, 0) || !(FOR_OMIT & at))
                goto wrong;
            struct field f = field_at(p + 5, end);
            uint32_t k = find_name(methods, text, &f);
            if (UNLIKELY(k == NO_NAME)) {
                k = enter_name(methods, text, &f, 1);
                if (k == NO_NAME)
                    goto wrong;
                if (mode == DECIDE && f.length == q->method.length &&
                    same(f.at, q->method.at, f.length))
                    asked = k;
            }
            if (method_lines++ == 512)
                goto wrong;
            if (mode != READ)
                cover &= ~((uint32_t)1 << k);
            at = AT_OMIT;
            p = f.at + f.length + 1;
            break;
        }
        case 'p': {
            if (w != NAME('p', 'a', 't', 't', 'e', 'r', 'n', 9) || !(FOR_PATTERN & at))
                goto wrong;
            const uint8_t *s = p + 8, *t = s;
            uint64_t z;
            while ((z = no_pattern_marks(peek(t, end))) == 0)
                t += 8;
            t += first_mark(z);
            if (*t != 10 || patterns++ == 128)
                goto wrong;
            size_t n = (size_t)(t - s);
            enum kind kind = kind_of(s, n);
            if (kind == BAD)
                goto wrong;
            if (mode == DECIDE)
                rank = better(q, rank, s, n, kind);
            if (mode == MODEL)
                enter_pattern(m, s, n, kind);
            at = AT_PATTERN;
            p = t + 1;
            break;
        }
        case 'c':
            if (w == NAME('c', 'o', 'l', 'l', 'e', 'c', 't', 'i')) {
                if ((peek(p + 8, end) & LOW(3)) != NAME('o', 'n', 10, 0, 0, 0, 0, 0) ||
                    !(FOR_COLLECTION & at) || collections == 128)
                    goto wrong;
                if (at & BODY) {
                    settle(mode, m, q, collections, cover, rank, status, asked, allow);
                } else {                               /* a constraint is complete */
                    status = at;
                    if (mode == MODEL) {
                        m->allow[constraints - 1] = allow;
                        m->open |= (uint64_t)(at == AT_OPEN) << (constraints - 1);
                        m->closed |= (uint64_t)(at == AT_AUTH) << (constraints - 1);
                    }
                }
                if (mode == MODEL) {
                    m->owner[collections] = (uint8_t)(constraints - 1);
                    m->collections = collections + 1;
                }
                rank = 0;
                cover = ~(uint32_t)0;
                collections++;
                at = AT_COLLECTION;
                p += 11;
                break;
            }
            if (w == NAME('c', 'o', 'n', 's', 't', 'r', 'a', 'i')) {
                uint64_t v = peek(p + 8, end);
                uint32_t kind;
                if (v == NAME('n', 't', 9, 'a', 'u', 't', 'h', 10))
                    kind = AT_AUTH;
                else if (v == NAME('n', 't', 9, 'o', 'p', 'e', 'n', 10))
                    kind = AT_OPEN;
                else
                    goto wrong;
                if (!(FOR_CONSTRAINT & at) || constraints == 64)
                    goto wrong;
                if (at & BODY)
                    settle(mode, m, q, collections, cover, rank, status, asked, allow);
                else
                    declared = (uint32_t)(((uint64_t)1 << roles->count) - 1);
                allow = 0;
                constraints++;
                at = kind;
                p += 16;
                break;
            }
            goto wrong;
        case 'a': {
            if ((w & LOW(6)) != NAME('a', 'l', 'l', 'o', 'w', 9, 0, 0) || !(FOR_ALLOW & at))
                goto wrong;
            struct field f = field_at(p + 6, end);
            if (f.length == 1 && f.head == '*') {
                allow |= declared;
            } else {
                uint32_t k = find_name(roles, text, &f);
                if (UNLIKELY(k == NO_NAME)) {
                    k = enter_name(roles, text, &f, 0);
                    if (k == NO_NAME)
                        goto wrong;
                }
                allow |= (uint32_t)1 << k;
            }
            at = AT_ALLOW;
            p = f.at + f.length + 1;
            break;
        }
        case 'r': {
            if ((w & LOW(5)) != NAME('r', 'o', 'l', 'e', 9, 0, 0, 0) || !(FOR_ROLE & at))
                goto wrong;
            struct field f = field_at(p + 5, end);
            if (find_name(roles, text, &f) != NO_NAME ||
                enter_name(roles, text, &f, 0) == NO_NAME)
                goto wrong;
            at = AT_ROLE;
            p = f.at + f.length + 1;
            break;
        }
        case 'e':
            if ((w & LOW(4)) != NAME('e', 'n', 'd', 10, 0, 0, 0, 0) || !(FOR_END & at))
                goto wrong;
            *line_out = line + 1;
            if (p + 4 != end)
                return 10;
            if (at & BODY)
                settle(mode, m, q, collections, cover, rank, status, asked, allow);
            if (mode == MODEL)
                m->constraints = constraints;
            *line_out = 0;
            return 0;
        default:
            goto wrong;
        }
    }
    *line_out = line;
    return stop < end ? 4 : 10;

wrong:
    *line_out = line;
    return fault(text, p, at, roles, end);
}

/* ---------------------------------------------------------------- reading */

struct yardstick_report yardstick_read(const uint8_t *listing, size_t listing_len,
                                       uint32_t *work, size_t work_len)
{
    struct yardstick_report r = { 1, 0, 0 };
    if (work_len < WORK_NUMBERS)
        return r;
    memset(work, 0, WORK_NUMBERS * sizeof *work);
    r.number = 2;
    if (listing_len <= MOST_BYTES) {
        struct names roles, methods;
        r.number = walk(listing, listing_len, READ, &roles, &methods, NULL, NULL, &r.line);
    }
    r.side = r.number != 0;
    return r;
}

/* --------------------------------------------------------------- deciding */

/* Whether the path is good, as received; and whether a `;` is in it. */
static int path_ok(const uint8_t *s, size_t n, uint64_t *parameters)
{
    if (n < 1 || n > MOST_PATH_BYTES || s[0] != '/')
        return 0;
    uint64_t bad = 0, found = 0;
    if (n < 8) {
        for (size_t i = 0; i < n; i++) {
            bad |= !(CLASS[s[i]] & TEXT);
            found |= s[i] == ';';
        }
    } else {
        for (size_t i = 0; i + 8 < n; i += 8) {
            uint64_t x = load8(s + i);
            bad |= no_text_marks(x);
            found |= marks(x, ';');
        }
        uint64_t x = load8(s + n - 8);
        bad |= no_text_marks(x);
        found |= marks(x, ';');
    }
    *parameters = found;
    return bad == 0;
}

/* Copies a path without its parameters; gives its length. */
static __attribute__((noinline)) size_t drop_parameters(uint8_t *to, const uint8_t *s, size_t n)
{
    const uint8_t *end = s + n, *mark;
    uint8_t *t = to;
    while ((mark = memchr(s, ';', (size_t)(end - s))) != NULL) {
        memcpy(t, s, (size_t)(mark - s));
        t += mark - s;
        s = memchr(mark, '/', (size_t)(end - mark));
        if (s == NULL)
            return (size_t)(t - to);
    }
    memcpy(t, s, (size_t)(end - s));
    return (size_t)(t - to) + (size_t)(end - s);
}

/* The name of n bytes at s, with nothing known of the bytes around it. */
INLINE struct field field_of(const uint8_t *s, size_t n)
{
    struct field f = { s, n, 0, 0 };
    if (n >= 8) {
        f.head = load8(s);
        f.tail = load8(s + n - 8);
    } else {
        for (size_t i = 0; i < n; i++)
            f.head |= (uint64_t)s[i] << (8 * i);
        f.tail = f.head;
    }
    return f;
}

/* Whether the caller is good; which of the roles it holds. */
static int take_caller(uint32_t login, const uint8_t *s, size_t n, const uint8_t *text,
                       const struct names *roles, uint32_t *held)
{
    *held = 0;
    if (login != 1)
        return login == 0 && n == 0;
    /* 32 names of 64 bytes, each with its byte 10 */
    if (n > 32 * 65 || (n != 0 && s[n - 1] != 10))
        return 0;
    uint32_t count = 0;
    for (size_t i = 0; i < n;) {
        size_t stop = i;
        while (s[stop] != 10)
            stop++;
        if (!role_name(s + i, stop - i) || count++ == 32)
            return 0;
        struct field f = field_of(s + i, stop - i);
        uint32_t k = find_name(roles, text, &f);
        if (k != NO_NAME)
            *held |= (uint32_t)1 << k;
        i = stop + 1;
    }
    return 1;
}

struct yardstick_decision yardstick_decide(const uint8_t *listing, size_t listing_len,
                                           const uint8_t *path, size_t path_len,
                                           const uint8_t *method, size_t method_len,
                                           uint32_t login,
                                           const uint8_t *roles, size_t roles_len,
                                           uint32_t *work, size_t work_len)
{
    struct yardstick_decision d = { 1, 0, 0, 0 };
    if (work_len < WORK_NUMBERS)
        return d;
    memset(work, 0, WORK_NUMBERS * sizeof *work);
    d.number = 2;
    d.side = 1;
    if (listing_len > MOST_BYTES)
        return d;

    struct names role_names, method_names;
    struct query q;
    uint64_t parameters = 0;
    int good_path = path_ok(path, path_len, &parameters);
    uint8_t dropped[MOST_PATH_BYTES];
    if (good_path && UNLIKELY(parameters != 0)) {
        path_len = drop_parameters(dropped, path, path_len);
        path = dropped;
    }
    memset(&q, 0, sizeof q);
    q.path = path;
    q.path_len = good_path ? path_len : 0;
    q.method.at = method;
    q.method.length = method_len;
    /* the last dot, if no slash comes after it (the path's first byte is one) */
    if (good_path) {
        size_t i = path_len;
        while (path[i - 1] != '/' && path[i - 1] != '.')
            i--;
        if (path[i - 1] == '.') {
            q.extension = path + i;
            q.extension_len = path_len - i;
        }
    }
    d.number = walk(listing, listing_len, DECIDE, &role_names, &method_names, NULL, &q, &d.line);
    if (d.number != 0)
        return d;

    uint32_t held;
    d.side = 0;
    if (!good_path)
        d.number = 11;
    else if (!method_name(method, method_len))
        d.number = 12;
    else if (!take_caller(login, roles, roles_len, listing, &role_names, &held))
        d.number = 13;
    else if (!q.any)
        d.answer = 1;
    else if (q.closed)
        d.answer = 3;
    else if (q.open)
        d.answer = 1;
    else if (login == 0)
        d.answer = 4;
    else
        d.answer = (held & q.roles) != 0 ? 2 : 5;
    return d;
}

/* -------------------------------------------------------------- comparing */

/* What a pattern text gives: by method (31: any other) the set of granted
 * roles of new's numbering, all ones if open, and the set of methods it is open
 * for. */
struct row {
    uint32_t grant[32];
    uint32_t open;
};

static const uint32_t BIT[32] = {
    1u << 0, 1u << 1, 1u << 2, 1u << 3, 1u << 4, 1u << 5, 1u << 6, 1u << 7,
    1u << 8, 1u << 9, 1u << 10, 1u << 11, 1u << 12, 1u << 13, 1u << 14, 1u << 15,
    1u << 16, 1u << 17, 1u << 18, 1u << 19, 1u << 20, 1u << 21, 1u << 22, 1u << 23,
    1u << 24, 1u << 25, 1u << 26, 1u << 27, 1u << 28, 1u << 29, 1u << 30, 1u << 31
};

/* Both listings, and how their numberings belong together. */
struct pair {
    struct model old_m, new_m;
    uint8_t old_of_new[32];            /* method of new (or 31) to one of old, or 31 */
    uint32_t only_old;                 /* set of the methods only old has */
    int aligned;                       /* both have the same methods in the same order */
};

INLINE void no_model(struct model *m, const uint8_t *text)
{
    m->text = text;
    m->open = m->closed = 0;
    memset(m->slot, 0, sizeof m->slot);
    memset(m->prefix_lengths, 0, sizeof m->prefix_lengths);
    m->constraints = m->collections = m->patterns = m->distinct = 0;
    m->all_prefix = m->fallback = NO_PATTERN;
}

static __attribute__((noinline)) uint32_t walk_model(struct model *m, const uint8_t *text,
                                                     size_t length, uint32_t *line)
{
    *line = 0;
    if (length > MOST_BYTES)
        return 2;
    no_model(m, text);
    return walk(text, length, MODEL, &m->roles, &m->methods, m, NULL, line);
}

static struct field name_of(const struct model *m, const struct names *t, uint32_t k)
{
    struct field f = { m->text + t->at[k], t->length[k], t->head[k], t->tail[k] };
    return f;
}

/* Brings the numberings together: old's sets of roles get new's numbers, and
 * the roles only old has fall out. */
static void join(struct pair *b)
{
    struct model *o = &b->old_m, *n = &b->new_m;
    uint32_t bit[32];
    for (uint32_t k = 0; k < o->roles.count; k++) {
        struct field f = name_of(o, &o->roles, k);
        uint32_t i = find_name(&n->roles, n->text, &f);
        bit[k] = i == NO_NAME ? 0 : (uint32_t)1 << i;
    }
    for (uint32_t c = 0; c < o->constraints; c++) {
        uint32_t set = o->allow[c], mapped = 0;
        for (; set != 0; set &= set - 1)
            mapped |= bit[__builtin_ctz(set)];
        o->allow[c] = mapped;
    }
    memset(b->old_of_new, 31, sizeof b->old_of_new);
    b->only_old = 0;
    b->aligned = o->methods.count == n->methods.count;
    for (uint32_t k = 0; k < o->methods.count; k++) {
        struct field f = name_of(o, &o->methods, k);
        uint32_t i = find_name(&n->methods, n->text, &f);
        if (i == NO_NAME)
            b->only_old |= (uint32_t)1 << k;
        else
            b->old_of_new[i] = (uint8_t)k;
        if (i != k)
            b->aligned = 0;
    }
}

/* The row of a pattern text, by its own listing's methods. */
static void make_row(struct row *r, const struct model *m, uint32_t pattern)
{
    if (pattern == NO_PATTERN) {
        memset(r, 255, sizeof *r);
        return;
    }
    uint32_t covered = 0, open = 0, closed = 0;
    memset(r->grant, 0, sizeof r->grant);
    for (uint32_t i = pattern; i != NO_PATTERN; i = m->next[i]) {
        uint32_t cover = m->cover[m->home[i]];
        uint32_t owner = m->owner[m->home[i]];
        covered |= cover;
        if (m->closed >> owner & 1) {
            closed |= cover;
        } else if (m->open >> owner & 1) {
            open |= cover;
        } else {
            uint32_t allow = m->allow[owner];
            for (int j = 0; j < 32; j++)
                r->grant[j] |= (cover & BIT[j]) != 0 ? allow : 0;
        }
    }
    open = (open | ~covered) & ~closed;
    if (open != 0)
        for (int j = 0; j < 32; j++)
            r->grant[j] |= (open & BIT[j]) != 0 ? ~(uint32_t)0 : 0;
    if (closed != 0)
        for (int j = 0; j < 32; j++)
            r->grant[j] &= (closed & BIT[j]) != 0 ? 0 : ~(uint32_t)0;
    r->open = open;
}

/* The row of a pattern text of old, by new's methods; the column of all other
 * methods holds what is granted for every one of them. */
static void make_old_row(struct row *r, const struct pair *b, uint32_t pattern)
{
    if (b->aligned || pattern == NO_PATTERN) {
        make_row(r, &b->old_m, pattern);
        return;
    }
    struct row own;
    make_row(&own, &b->old_m, pattern);
    uint32_t open = 0, rest = own.grant[31], rest_open = own.open >> 31;
    for (int i = 0; i < 31; i++) {
        uint32_t k = b->old_of_new[i];
        r->grant[i] = own.grant[k];
        open |= (own.open >> k & 1) << i;
    }
    for (uint32_t set = b->only_old; set != 0; set &= set - 1) {
        int k = __builtin_ctz(set);
        rest &= own.grant[k];
        rest_open &= own.open >> k;
    }
    r->grant[31] = rest;
    r->open = open | rest_open << 31;
}

/* Whether new grants something that old doesn't. */
INLINE int wider(const struct row *n, const struct row *o)
{
    uint32_t more = n->open & ~o->open;
    for (int j = 0; j < 32; j++)
        more |= n->grant[j] & ~o->grant[j];
    return more != 0;
}

INLINE uint32_t find_prefix(const struct model *m, const uint8_t *s, size_t p)
{
    /* the last eight bytes of P and the slash and the star */
    uint64_t tail = load8(s + p - 8) >> 16 | WORD8(0, 0, 0, 0, 0, 0, '/', '*');
    if (p < 6)
        tail >>= 8 * (6 - p);
    return find_text(m, PREFIX, tail, p + 2, s, 0, p);
}

/* The longest P that is the first p bytes at s or some of them before a `/`. */
static uint32_t longest_prefix(const struct model *m, const uint8_t *s, size_t p)
{
    if (m->prefix_lengths[p >> 6] >> (p & 63) & 1) {
        uint32_t k = find_prefix(m, s, p);
        if (k != NO_PATTERN)
            return k;
    }
    for (size_t block = (p + 63) / 64; block-- > 0;) {
        uint64_t lengths = m->prefix_lengths[block], slashes = 0;
        if (lengths == 0)
            continue;
        for (size_t i = 0; i < 8; i++) {
            size_t at = block * 64 + i * 8;
            if (at >= p)
                break;
            uint64_t x = at + 8 <= p ? load8(s + at) : ending(s + p, p - at);
            uint64_t z = exact_marks(x, '/') >> 7;
            slashes |= (z * 0x0102040810204080u >> 56) << (i * 8);
        }
        for (slashes &= lengths; slashes != 0;) {
            int top = 63 - __builtin_clzll(slashes);
            uint32_t k = find_prefix(m, s, block * 64 + (size_t)top);
            if (k != NO_PATTERN)
                return k;
            slashes ^= (uint64_t)1 << top;
        }
    }
    return NO_PATTERN;
}

/* The path `/`, with eight bytes before it. */
static const uint8_t ROOT[9] = { 0, 0, 0, 0, 0, 0, 0, 0, '/' };

/* The best pattern of m for the path that an exact pattern is (empty: `/`). */
static uint32_t best_for_exact(const struct model *m, const uint8_t *s, size_t n)
{
    uint32_t k = find_text(m, EXACT, ending(s + n, n), n, s, 0, n);
    if (k != NO_PATTERN)
        return k;
    if (n == 0) {
        s = ROOT + 8;
        n = 1;
    }
    k = longest_prefix(m, s, n);
    if (k != NO_PATTERN)
        return k;
    size_t i = n;
    while (s[i - 1] != '/' && s[i - 1] != '.')
        i--;
    if (s[i - 1] == '.' && i < n) {
        /* the text `*.`E */
        size_t e = n - i;
        uint64_t tail = ending(s + n, e);
        if (e == 7)
            tail = tail << 8 | '.';
        else if (e < 7)
            tail = tail << 16 | '.' << 8 | '*';
        k = find_text(m, EXTENSION, tail, e + 2, s + i, 2, e);
        if (k != NO_PATTERN)
            return k;
    }
    return m->fallback;
}

/* The head in m with the text of a line of another listing. */
INLINE uint32_t twin(const struct model *m, const struct model *other, uint32_t line)
{
    const uint8_t *s = other->text + other->at[line];
    size_t n = other->length[line];
    return find_text(m, (enum kind)other->kind[line], ending(s + n, n), n, s, 0, n);
}

/* For `/`filler: */
INLINE uint32_t best_for_any(const struct model *m)
{
    return m->all_prefix != NO_PATTERN ? m->all_prefix : m->fallback;
}

/* For `/`filler`.`E, given m's own `*.`E, if it has one: */
INLINE uint32_t best_for_extension(const struct model *m, uint32_t own)
{
    return m->all_prefix != NO_PATTERN ? m->all_prefix
                                       : own != NO_PATTERN ? own : m->fallback;
}

/* A trial path: the text, the filler, then the E, each only if there. */
struct trial {
    const uint8_t *text;
    size_t length;
    int filler;
    const uint8_t *extension;
    size_t extension_len;
};

/* Marks the numbers after each q in the listing's patterns.  To use up all
 * numbers to 16,383 takes more pattern bytes than two listings have. */
static void mark_fillers(const struct model *m, uint32_t *used)
{
    for (uint32_t h = 0; h < m->distinct; h++) {
        const uint8_t *s = m->text + m->at[m->heads[h]];
        const uint8_t *stop = s + m->length[m->heads[h]];
        while (s < stop) {
            size_t left = (size_t)(stop - s);
            uint64_t z = marks(left >= 8 ? load8(s) : ending(stop, left), 'q');
            if (z == 0) {
                s += 8;
                continue;
            }
            s += first_mark(z) + 1;
            uint32_t number = 0;
            for (const uint8_t *d = s; d < stop && *d >= '0' && *d <= '9'; d++) {
                number = number * 10 + (*d - '0');
                if (number >= 16384)
                    break;
                used[number >> 5] |= (uint32_t)1 << (number & 31);
                if (number == 0)
                    break;
            }
        }
    }
}

static uint8_t *put(uint8_t *to, const void *from, size_t n)
{
    memcpy(to, from, n);
    return to + n;
}

static uint8_t *put_number(uint8_t *to, uint8_t letter, uint32_t number)
{
    uint8_t digits[10];
    size_t n = sizeof digits;
    do {
        digits[--n] = (uint8_t)('0' + number % 10);
        number /= 10;
    } while (number != 0);
    *to++ = letter;
    return put(to, digits + n, sizeof digits - n);
}

static uint8_t *put_name(uint8_t *to, const struct model *m, const struct names *t, uint32_t k)
{
    return put(to, m->text + t->at[k], t->length[k]);
}

/* Writes the answer for a trial path where new is wider; gives its length.
 * The work table's first 512 numbers are zero before and after. */
static __attribute__((noinline)) size_t show(const struct pair *b, const struct trial *t,
                                             uint32_t new_p, uint32_t old_p,
                                             uint8_t *answer, uint32_t *work)
{
    const struct model *o = &b->old_m, *n = &b->new_m;
    uint8_t *to = put(answer, "verdict\twider\npath\t", 19);
    to = put(to, t->text, t->length);
    if (t->filler) {
        uint32_t number = 0;
        mark_fillers(o, work);
        mark_fillers(n, work);
        while (work[number >> 5] == ~(uint32_t)0)
            number += 32;
        number += (uint32_t)__builtin_ctz(~work[number >> 5]);
        memset(work, 0, 512 * sizeof *work);
        *to++ = '/';
        to = put_number(to, 'q', number);
    }
    if (t->extension != NULL) {
        *to++ = '.';
        to = put(to, t->extension, t->extension_len);
    }
    to = put(to, "\nmethod\t", 8);

    /* the first method, in the trial order, where new grants more */
    struct row nr, ol;
    make_row(&nr, n, new_p);
    make_row(&ol, o, old_p);
    uint32_t i = 31, k = 31;
    int found = 0;
    for (uint32_t j = 0; j < n->methods.count && !found; j++) {
        i = j;
        k = b->old_of_new[j];
        found = (nr.open >> i & ~(ol.open >> k) & 1) != 0 || (nr.grant[i] & ~ol.grant[k]) != 0;
    }
    for (uint32_t set = b->only_old; set != 0 && !found; set &= set - 1) {
        i = 31;
        k = (uint32_t)__builtin_ctz(set);
        found = (nr.open >> i & ~(ol.open >> k) & 1) != 0 || (nr.grant[i] & ~ol.grant[k]) != 0;
    }
    if (!found)
        i = k = 31;
    if (i != 31) {
        to = put_name(to, n, &n->methods, i);
    } else if (k != 31) {
        to = put_name(to, o, &o->methods, k);
    } else {
        for (uint32_t number = 0;; number++) {
            uint8_t *stop = put_number(to, 'Q', number);
            struct field f = field_of(to, (size_t)(stop - to));
            if (find_name(&n->methods, n->text, &f) == NO_NAME &&
                find_name(&o->methods, o->text, &f) == NO_NAME) {
                to = stop;
                break;
            }
        }
    }
    if (nr.open >> i & 1) {
        to = put(to, "\ncaller\tnone\n", 13);
    } else {
        to = put(to, "\ncaller\trole\t", 13);
        to = put_name(to, n, &n->roles, (uint32_t)__builtin_ctz(nr.grant[i] & ~ol.grant[k]));
        *to++ = 10;
    }
    return (size_t)(to - answer);
}

#ifdef YARDSTICK_WALK
enum { WALK = 1 };
#else
enum { WALK = 0 };
#endif

/* P`/`filler`.`E, the P of new without a prefix in old: the first E, of new and
 * then of old, whose row in old grants less.  (An E that old hasn't gives what
 * P`/`filler gave.) */
static size_t try_old_extensions(const struct pair *b, const struct row *nr, struct trial *t,
                                 uint32_t new_p, uint8_t *answer, uint32_t *work)
{
    const struct model *o = &b->old_m, *n = &b->new_m;
    struct row ol;
    for (int side = 0; side < 2; side++) {
        const struct model *m = side == 0 ? n : o;
        for (uint32_t h = 0; h < m->distinct; h++) {
            uint32_t i = m->heads[h];
            if (m->kind[i] != EXTENSION)
                continue;
            uint32_t old_p = side == 0 ? twin(o, n, i) : i;
            if (old_p == NO_PATTERN)
                continue;
            make_old_row(&ol, b, old_p);
            if (wider(nr, &ol)) {
                t->extension = m->text + m->at[i] + 2;
                t->extension_len = m->length[i] - 2u;
                return show(b, t, new_p, old_p, answer, work);
            }
        }
    }
    return 0;
}

/* The same with the P of old, without a prefix in new. */
static size_t try_new_extensions(const struct pair *b, const struct row *ol, struct trial *t,
                                 uint32_t old_p, uint8_t *answer, uint32_t *work)
{
    const struct model *n = &b->new_m;
    struct row nr;
    for (uint32_t h = 0; h < n->distinct; h++) {
        uint32_t i = n->heads[h];
        if (n->kind[i] != EXTENSION)
            continue;
        make_row(&nr, n, i);
        if (wider(&nr, ol)) {
            t->extension = n->text + n->at[i] + 2;
            t->extension_len = n->length[i] - 2u;
            return show(b, t, i, old_p, answer, work);
        }
    }
    return 0;
}

/* What old's extension patterns all grant: new is wider than one of them
 * exactly if it is wider than this. */
static void least_of_extensions(struct row *r, const struct pair *b)
{
    const struct model *o = &b->old_m;
    struct row one;
    memset(r, 255, sizeof *r);
    for (uint32_t h = 0; h < o->distinct; h++)
        if (o->kind[o->heads[h]] == EXTENSION) {
            make_old_row(&one, b, o->heads[h]);
            for (int j = 0; j < 32; j++)
                r->grant[j] &= one.grant[j];
            r->open &= one.open;
        }
}

/* What any of new's extension patterns grants: one of them is wider than old
 * exactly if this is. */
static void most_of_extensions(struct row *r, const struct pair *b)
{
    const struct model *n = &b->new_m;
    struct row one;
    memset(r, 0, sizeof *r);
    for (uint32_t h = 0; h < n->distinct; h++)
        if (n->kind[n->heads[h]] == EXTENSION) {
            make_row(&one, n, n->heads[h]);
            for (int j = 0; j < 32; j++)
                r->grant[j] |= one.grant[j];
            r->open |= one.open;
        }
}

static size_t compare_models(const struct pair *b, uint8_t *answer, uint32_t *work)
{
    const struct model *o = &b->old_m, *n = &b->new_m;
    struct row nr, ol, all;
    int gathered = 0;
    size_t length;

    /* the patterns of new */
    for (uint32_t h = 0; h < n->distinct; h++) {
        uint32_t i = n->heads[h], new_p = i, old_p = NO_PATTERN;
        const uint8_t *s = n->text + n->at[i];
        size_t len = n->length[i];
        struct trial t = { s, 0, 1, NULL, 0 };
        int bare = 0;
        switch (n->kind[i]) {
        case EXACT:
            t.filler = 0;
            t.text = len == 0 ? ROOT + 8 : s;
            t.length = len == 0 ? 1 : len;
            old_p = best_for_exact(o, s, len);
            break;
        case PREFIX:
            t.length = len - 2;
            old_p = longest_prefix(o, s, len - 2);
            bare = old_p == NO_PATTERN;
            if (bare)
                old_p = o->fallback;
            break;
        case EXTENSION:
            t.extension = s + 2;
            t.extension_len = len - 2;
            new_p = best_for_extension(n, i);
            old_p = best_for_extension(o, twin(o, n, i));
            break;
        default:
            new_p = best_for_any(n);
            old_p = best_for_any(o);
            break;
        }
        make_row(&nr, n, new_p);
        if (old_p != NO_PATTERN) {
            make_old_row(&ol, b, old_p);
            if (wider(&nr, &ol))
                return show(b, &t, new_p, old_p, answer, work);
        }
        if (bare) {
            if (!gathered)
                least_of_extensions(&all, b);
            gathered = 1;
            if (WALK || wider(&nr, &all)) {
                length = try_old_extensions(b, &nr, &t, new_p, answer, work);
                if (length != 0)
                    return length;
            }
        }
    }

    /* the patterns of old that new hasn't */
    gathered = 0;
    for (uint32_t h = 0; h < o->distinct; h++) {
        uint32_t i = o->heads[h], old_p = i, new_p;
        if (twin(n, o, i) != NO_PATTERN)
            continue;
        const uint8_t *s = o->text + o->at[i];
        size_t len = o->length[i];
        struct trial t = { s, 0, 1, NULL, 0 };
        int bare = 0;
        switch (o->kind[i]) {
        case EXACT:
            t.filler = 0;
            t.text = len == 0 ? ROOT + 8 : s;
            t.length = len == 0 ? 1 : len;
            new_p = best_for_exact(n, s, len);
            break;
        case PREFIX:
            t.length = len - 2;
            new_p = longest_prefix(n, s, len - 2);
            bare = new_p == NO_PATTERN;
            if (bare)
                new_p = n->fallback;
            break;
        case EXTENSION:
            t.extension = s + 2;
            t.extension_len = len - 2;
            new_p = best_for_any(n);
            old_p = best_for_extension(o, i);
            break;
        default:
            new_p = best_for_any(n);
            old_p = best_for_any(o);
            break;
        }
        make_row(&nr, n, new_p);
        make_old_row(&ol, b, old_p);
        if (wider(&nr, &ol))
            return show(b, &t, new_p, old_p, answer, work);
        if (bare) {
            if (!gathered)
                most_of_extensions(&all, b);
            gathered = 1;
            if (WALK || wider(&all, &ol)) {
                length = try_new_extensions(b, &ol, &t, old_p, answer, work);
                if (length != 0)
                    return length;
            }
        }
    }

    /* last of all, `/`filler */
    uint32_t new_p = best_for_any(n), old_p = best_for_any(o);
    if (old_p != NO_PATTERN) {
        struct trial t = { ROOT, 0, 1, NULL, 0 };
        make_row(&nr, n, new_p);
        make_old_row(&ol, b, old_p);
        if (wider(&nr, &ol))
            return show(b, &t, new_p, old_p, answer, work);
    }
    memcpy(answer, "verdict\tno wider\n", 17);
    return 17;
}

struct yardstick_comparison yardstick_compare(const uint8_t *old_listing, size_t old_len,
                                              const uint8_t *new_listing, size_t new_len,
                                              uint8_t *answer, size_t answer_len,
                                              uint32_t *work, size_t work_len)
{
    struct yardstick_comparison c = { 1, 0, 0, 0 };
    if (work_len < WORK_NUMBERS)
        return c;
    memset(work, 0, WORK_NUMBERS * sizeof *work);
    c.number = 14;
    if (answer_len < LEAST_ANSWER)
        return c;
    struct pair b;
    c.side = 1;
    c.number = walk_model(&b.old_m, old_listing, old_len, &c.line);
    if (c.number != 0)
        return c;
    c.side = 2;
    c.number = walk_model(&b.new_m, new_listing, new_len, &c.line);
    if (c.number != 0)
        return c;
    c.side = 0;
    join(&b);
    c.length = compare_models(&b, answer, work);
    return c;
}
