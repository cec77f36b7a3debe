/* Reading web.xml beside a real XML parser (expat), on agree_xml.c's cases: expat SEED CASES; or on files: expat files FILE... Exit 1, with the case, where
 * one of these fails:
 *   - what is accepted is well formed to expat, but for the differences that docs/WEBXML.md has: an attribute twice in a tag, `]]>` in a text, bytes
 *     above 127 that are not UTF-8 or that no name of XML has, and what the declaration says. With these taken away, and nothing else, expat accepts
 *     the file, and the listing made of what expat reports is the listing that was written, byte for byte;
 *   - what is refused though expat accepts it has one of 02's reasons, told from what expat reports: a DTD, CDATA, a numeric reference, a processing
 *     instruction, the arrangement or stray text (17), depth (18), a refused element (19), 01's rules on the texts (6, 7, 9, 8), its length (16, 2) or the
 *     buffers (1, 15);
 *   - where such a file has neither XML outside the subset nor bytes above 127, the first fault that expat's report shows, counted by 01's most-numbers,
 *     has the number and the line that were handed back.
 * The counts of both sides are printed; in a run of 100,000 cases or more each of them has to come. Compiled with ONLY_SECOND the second implementation
 * is the reader. */
#include <expat.h>
#include <inttypes.h>
#include <stdio.h>
#include <stdlib.h>
#include <string.h>
#include "../include/budquarry.h"
#include "../second/generate_xml.h"
#include "../second/second.h"

enum { MOST = 2 * GENERATED_XML, LISTING = 100000, DEPTH = 400, MANY = 100000 };

/* ---- what expat reports of a file: the reasons to refuse it, and the listing that it would be */

enum kind { WEB_APP, ROLE, CONSTRAINT, COLLECTION, AUTH, PATTERN, METHOD, OMISSION, NAME, REFUSED, OTHER };
static const char *const kind_names[] = { "web-app", "security-role", "security-constraint", "web-resource-collection", "auth-constraint", "url-pattern",
                                          "http-method", "http-method-omission", "role-name" };
enum reason { DTD, CDATA, NUMERIC, INSTRUCTION, ARRANGEMENT, DEEP, REFUSED_ELEMENT, TEXTS, LONG_FILE, LONG_LISTING, BUFFERS, REASONS };
static const char *const reason_names[] = { "a DTD", "CDATA", "a numeric reference", "a processing instruction", "the arrangement", "depth", "a refused element",
                                            "01's rules on texts", "the file's length", "the listing's length", "the buffers" };

struct string {
    uint8_t at[LISTING];
    size_t length;
};
struct level {
    enum kind kind;
    size_t here;              /* the place of its `<` */
    unsigned held[OTHER + 1]; /* children so far, by kind */
};
static struct report {
    int reason[REASONS];
    struct level level[DEPTH];
    unsigned depth;
    struct string text, roles, constraints, collections, allows;
    int has_auth, latin;
} t;
static uint32_t work[8192];

/* The first fault of the file, as far as expat reports it: out of place, too deep, refused, a text that 01 refuses, one too many. */
static struct {
    uint32_t number;
    size_t place;
    unsigned constraints, collections, patterns, method_lines;
    struct names {
        struct { uint8_t at[300]; size_t length; } name[40];
        size_t count;
    } declared, roles, methods;
} first;
static XML_Parser parser;
static const uint8_t *parsed;

static void found(uint32_t number, size_t place) {
    if (first.number == 0) first.number = number, first.place = place;
}

static size_t here(void) { return (size_t)XML_GetCurrentByteIndex(parser); }

static void add(struct string *s, const void *at, size_t n) {
    if (n > sizeof s->at - s->length) n = sizeof s->at - s->length;
    memcpy(s->at + s->length, at, n);
    s->length += n;
}

static void add_line(struct string *s, const char *record, const struct string *field) {
    add(s, record, strlen(record));
    if (field != NULL) add(s, field->at, field->length);
    add(s, "\n", 1);
}

static enum kind kind_of(const char *name) {
    for (int i = ROLE; i <= NAME; i++)
        if (!strcmp(name, kind_names[i])) return (enum kind)i;
    if (!strcmp(name, "user-data-constraint") || !strcmp(name, "deny-uncovered-http-methods")) return REFUSED;
    return OTHER;
}

/* Which may stand where: a regular expression over the children so far. */
static int fits(const struct level *in, enum kind k) {
    const unsigned *h = in->held;
    switch (in->kind) {
    case WEB_APP: return k == ROLE || k == CONSTRAINT;
    case ROLE: return k == NAME && !h[NAME];
    case CONSTRAINT: return !h[AUTH] && (k == COLLECTION || (k == AUTH && h[COLLECTION]));
    case COLLECTION: return k == PATTERN ? !h[METHOD] && !h[OMISSION] : h[PATTERN] && ((k == METHOD && !h[OMISSION]) || (k == OMISSION && !h[METHOD]));
    case AUTH: return k == NAME;
    default: return 0;
    }
}

static void misplaced(size_t place) {
    t.reason[ARRANGEMENT] = 1;
    found(17, place);
}

/* What else can be wrong with a start tag, in 02's order. */
static void judge_start(enum kind k) {
    size_t at = here(), n = (size_t)XML_GetCurrentByteCount(parser);
    if (parsed[at + n - 2] == '/' && (k == ROLE || k == CONSTRAINT || k == COLLECTION)) misplaced(at);
    if (t.depth >= 8) t.reason[DEEP] = 1, found(18, at);
    if (k == REFUSED) t.reason[REFUSED_ELEMENT] = 1, found(19, at);
    if (k == CONSTRAINT && ++first.constraints > 64) found(8, at);
    if (k == COLLECTION && ++first.collections > 128) found(8, at);
}

static void XMLCALL on_start(void *data, const char *name, const char **attributes) {
    (void)data, (void)attributes;
    enum kind k = kind_of(name);
    if (t.depth == DEPTH) return;
    if (t.depth == 0) {
        k = strcmp(name, "web-app") ? OTHER : WEB_APP;
        if (k == OTHER) misplaced(here());
    } else {
        struct level *in = &t.level[t.depth - 1];
        if (in->kind >= PATTERN && in->kind <= NAME) misplaced(here());
        if (in->kind >= REFUSED) k = k == REFUSED ? k : OTHER;
        else if (k < REFUSED && !fits(in, k)) misplaced(here());
        in->held[k]++;
    }
    judge_start(k);
    if (k == CONSTRAINT) t.collections.length = t.allows.length = 0, t.has_auth = 0;
    if (k == COLLECTION) add_line(&t.collections, "collection", NULL);
    if (k == AUTH) t.has_auth = 1;
    t.text.length = 0;
    memset(&t.level[t.depth], 0, sizeof t.level[0]);
    t.level[t.depth].here = here();
    t.level[t.depth++].kind = k;
}

static void trim(struct string *s) {
    size_t from = 0;
    while (s->length > 0 && strchr(" \t\r\n", s->at[s->length - 1]) && s->at[s->length - 1]) s->length--;
    while (from < s->length && strchr(" \t\r\n", s->at[from]) && s->at[from]) from++;
    memmove(s->at, s->at + from, s->length -= from);
}

/* A text by 01's rules, in a listing of its own. */
static int text_refused(const char *before, const struct string *text, const char *behind) {
    static struct string one;
    one.length = 0;
    add(&one, before, strlen(before));
    add(&one, text->at, text->length);
    add(&one, behind, strlen(behind));
    /* a byte 9 or 10 in it would be the listing's own */
    int parts = memchr(text->at, 9, text->length) != NULL || memchr(text->at, 10, text->length) != NULL;
    return parts || second_read(one.at, one.length, work, 4096).number != 0;
}

/* Whether the name was there; it is there afterwards. */
static int known(struct names *n, const struct string *text) {
    for (size_t i = 0; i < n->count; i++)
        if (n->name[i].length == text->length && !memcmp(n->name[i].at, text->at, text->length)) return 1;
    if (n->count < 40 && text->length <= 300) {
        memcpy(n->name[n->count].at, text->at, text->length);
        n->name[n->count++].length = text->length;
    }
    return 0;
}

/* A text's refusal: 6, 7, 9, 8, or 0. */
static uint32_t judged(enum kind kind, enum kind in, const struct string *text) {
    int star = text->length == 1 && text->at[0] == '*';
    if (kind == PATTERN) {
        if (text_refused("constraints\t1\nconstraint\tauth\ncollection\npattern\t", text, "\nend\n")) return 7;
        return ++first.patterns > 128 ? 8 : 0;
    }
    if (kind != NAME) {
        if (text_refused("constraints\t1\nconstraint\tauth\ncollection\npattern\t\nmethod\t", text, "\nend\n")) return 6;
        known(&first.methods, text);
        return ++first.method_lines > 512 || first.methods.count > 31 ? 8 : 0;
    }
    if (in == ROLE && text_refused("constraints\t1\nrole\t", text, "\nend\n")) return 6;
    if (in != ROLE && text_refused("constraints\t1\nconstraint\tauth\nallow\t", text, "\ncollection\npattern\t\nend\n")) return 6;
    if (in == ROLE && known(&first.declared, text)) return 9;
    if (!star) known(&first.roles, text);
    return first.roles.count > 32 ? 8 : 0;
}

static void judge(enum kind kind, enum kind in, size_t place) {
    trim(&t.text);
    uint32_t number = judged(kind, in, &t.text);
    if (number == 6 || number == 7) t.reason[TEXTS] = 1;
    if (number != 0) found(number, place);
}

static void XMLCALL on_end(void *data, const char *name) {
    (void)data, (void)name;
    struct level *l = &t.level[--t.depth];
    enum kind in = t.depth > 0 ? t.level[t.depth - 1].kind : OTHER;
    if (l->kind >= PATTERN && l->kind <= NAME) judge(l->kind, in, l->here);
    if (l->kind == PATTERN) add_line(&t.collections, "pattern\t", &t.text);
    if (l->kind == METHOD) add_line(&t.collections, "method\t", &t.text);
    if (l->kind == OMISSION) add_line(&t.collections, "omit\t", &t.text);
    if (l->kind == NAME) add_line(in == ROLE ? &t.roles : &t.allows, in == ROLE ? "role\t" : "allow\t", &t.text);
    if ((l->kind == ROLE && !l->held[NAME]) || (l->kind == CONSTRAINT && !l->held[COLLECTION]) || (l->kind == COLLECTION && !l->held[PATTERN]))
        misplaced(here());
    if (l->kind == CONSTRAINT) {
        add_line(&t.constraints, t.has_auth ? "constraint\tauth" : "constraint\topen", NULL);
        add(&t.constraints, t.allows.at, t.allows.length);
        add(&t.constraints, t.collections.at, t.collections.length);
    }
}

static void XMLCALL on_text(void *data, const char *s, int n) {
    (void)data;
    enum kind in = t.depth > 0 ? t.level[t.depth - 1].kind : OTHER;
    if (in <= AUTH)
        for (int i = 0; i < n; i++)
            if (s[i] == 0 || !strchr(" \t\r\n", s[i])) misplaced(t.level[t.depth - 1].here);
    if (in < PATTERN || in > NAME) return;
    for (int i = 0; i < n; i++) {
        uint8_t b = (uint8_t)s[i];
        /* a character of two bytes that stands for one byte of Latin-1 is made that byte again */
        if (t.latin && (b == 0xC2 || b == 0xC3)) b = (uint8_t)(b << 6 | (s[++i] & 63));
        add(&t.text, &b, 1);
    }
}

static void XMLCALL on_doctype(void *data, const char *a, const char *b, const char *c, int d) { (void)data, (void)a, (void)b, (void)c, (void)d, t.reason[DTD] = 1; }
static void XMLCALL on_cdata(void *data) { (void)data, t.reason[CDATA] = 1; }
static void XMLCALL on_instruction(void *data, const char *a, const char *b) { (void)data, (void)a, (void)b, t.reason[INSTRUCTION] = 1; }

/* A token as it stands in the file: text, a reference, a whole tag, a whole comment. */
static void XMLCALL on_token(void *data, const char *s, int n) {
    (void)data;
    if (n > 1 && s[0] == '<' && (s[1] == '!' || s[1] == '?')) return;
    for (int i = 0; i + 1 < n; i++)
        if (s[i] == '&' && s[i + 1] == '#') t.reason[NUMERIC] = 1;
}

/* Whether expat accepts the file; what it reports is in t. */
static int parse(const uint8_t *at, size_t n, const char *encoding) {
    int well;
    t.latin = encoding != NULL;
    memset(t.reason, 0, sizeof t.reason);
    t.depth = 0;
    t.roles.length = t.constraints.length = t.collections.length = t.allows.length = t.text.length = 0;
    XML_Parser p = XML_ParserCreate(encoding);
    memset(&first, 0, sizeof first);
    parser = p, parsed = at;
    XML_SetElementHandler(p, on_start, on_end);
    XML_SetCharacterDataHandler(p, on_text);
    XML_SetDoctypeDeclHandler(p, on_doctype, NULL);
    XML_SetCdataSectionHandler(p, on_cdata, NULL);
    XML_SetProcessingInstructionHandler(p, on_instruction);
    well = XML_Parse(p, (const char *)at, (int)n, 1) == XML_STATUS_OK;
    XML_ParserFree(p);
    if (!well) return 0;
    p = XML_ParserCreate(encoding);
    XML_SetDefaultHandler(p, on_token);
    well = XML_Parse(p, (const char *)at, (int)n, 1) == XML_STATUS_OK;
    XML_ParserFree(p);
    return well;
}

/* The listing of what was reported. */
static void listing_of(struct string *to) {
    to->length = 0;
    add(to, "constraints\t1\n", 14);
    add(to, t.roles.at, t.roles.length);
    add(to, t.constraints.at, t.constraints.length);
    add(to, "end\n", 4);
}

/* ---- an accepted file without the differences */

enum difference { TWICE, CLOSED_SECTION, HIGH_BYTES, DECLARATION, DIFFERENCES };
static const char *const difference_names[] = { "an attribute twice", "]]> in a text", "bytes above 127", "the declaration" };
static int difference[DIFFERENCES];
static uint8_t plain[MOST];
static size_t plain_len;

static void write_plain(const void *at, size_t n) {
    memcpy(plain + plain_len, at, n);
    plain_len += n;
}

static int is_name_end(uint8_t b) { return strchr(" \t\r\n=/>?", b) != NULL; }

/* A name with the bytes above 127 made letters; gives the place behind it. */
static size_t plain_name(const uint8_t *at, size_t i) {
    for (; !is_name_end(at[i]); i++) {
        if (at[i] > 127) difference[HIGH_BYTES] = 1;
        write_plain(at[i] > 127 ? (const uint8_t *)"x" : at + i, 1);
    }
    return i;
}

/* A tag that is well formed, from its name on: attributes of a name that the tag had already get another. */
static size_t plain_tag(const uint8_t *at, size_t i) {
    struct { size_t at, length; } had[200];
    size_t count = 0;
    i = plain_name(at, i);
    while (at[i] != '>') {
        if (is_name_end(at[i])) {
            write_plain(at + i++, 1);
            continue;
        }
        size_t start = plain_len;
        i = plain_name(at, i);
        size_t length = plain_len - start;
        for (size_t k = 0; k < count; k++)
            if (had[k].length == length && !memcmp(plain + had[k].at, plain + start, length)) {
                char more[24];
                difference[TWICE] = 1;
                write_plain(more, (size_t)sprintf(more, "-%zu", count));
                break;
            }
        if (count < 200) had[count].at = start, had[count++].length = length;
        while (at[i] != '"' && at[i] != '\'') write_plain(at + i++, 1);
        uint8_t quote = at[i];
        do write_plain(at + i++, 1);
        while (at[i] != quote);
        write_plain(at + i++, 1);
    }
    write_plain(at + i, 1);
    return i + 1;
}

static size_t plain_declaration(const uint8_t *at, size_t i) {
    uint8_t quote = 0;
    difference[DECLARATION] = 1;
    for (;; i++) {
        if (quote == 0 && at[i] == '?' && at[i + 1] == '>' ) return i + 2;
        if (quote != 0 && at[i] == quote) quote = 0;
        else if (quote == 0 && (at[i] == '"' || at[i] == '\'')) quote = at[i];
    }
}

static void make_plain(const uint8_t *at, size_t n) {
    size_t i = 0;
    plain_len = 0;
    memset(difference, 0, sizeof difference);
    for (size_t k = 0; k < n; k++)
        if (at[k] > 127 && !(k < 3 && at[0] == 0xEF)) difference[HIGH_BYTES] = 1;
    if (n >= 3 && !memcmp(at, "\xef\xbb\xbf", 3)) i = 3;
    if (n >= i + 5 && !memcmp(at + i, "<?xml", 5)) i = plain_declaration(at, i + 2);
    while (i < n) {
        if (n - i >= 4 && !memcmp(at + i, "<!--", 4)) {
            write_plain(at + i, 4);
            for (i += 4; memcmp(at + i, "-->", 3); i++) write_plain(at + i, 1);
            write_plain(at + i, 3);
            i += 3;
        } else if (at[i] == '<') {
            size_t slash = at[i + 1] == '/';
            write_plain(at + i, 1 + slash);
            i = plain_tag(at, i + 1 + slash);
        } else if (n - i >= 3 && !memcmp(at + i, "]]>", 3)) {
            difference[CLOSED_SECTION] = 1;
            write_plain("]]&gt;", 6);
            i += 3;
        } else {
            write_plain(at + i++, 1);
        }
    }
}

/* ---- the cases */

static struct generated_xml c;
static uint8_t room[GENERATED_LISTING];
static struct string meant;
static unsigned long both_accept, accept_alone[DIFFERENCES], alone, both_refuse, refuse_alone[REASONS], placed, cases;

static struct budquarry_written reading(void) {
#ifdef ONLY_SECOND
    struct second_written w = second_from_web_xml(c.xml, c.xml_len, room, c.room, work, c.work_len);
    return (struct budquarry_written){ w.number, w.side, w.line, w.length };
#else
    return budquarry_from_web_xml(c.xml, c.xml_len, room, c.room, work, c.work_len);
#endif
}

static const char *accepted(const struct budquarry_written *w) {
    int any = 0;
    make_plain(c.xml, c.xml_len);
    if (parse(c.xml, c.xml_len, NULL)) {
        both_accept++;
    } else {
        alone++;
        for (int i = 0; i < DIFFERENCES; i++) accept_alone[i] += (unsigned long)difference[i], any |= difference[i];
        if (!any) return "accepted, not well formed to expat, and without a difference that is written down";
    }
    if (!parse(plain, plain_len, "ISO-8859-1")) return "accepted, and without the differences still not well formed to expat";
    for (int i = 0; i < REASONS; i++)
        if (t.reason[i]) return "accepted, though expat reports a reason to refuse it";
    listing_of(&meant);
    return meant.length == w->length && !memcmp(meant.at, room, meant.length) ? NULL : "accepted, and the listing is not what expat reports";
}

/* 01's rules on the texts by themselves (6, 7), and on all of them (9, 8): asked of the listing that expat reports, which is whole where the arrangement is. */
static int texts_refused(uint32_t number) {
    if (number == 6 || number == 7) return t.reason[TEXTS];
    listing_of(&meant);
    return t.reason[ARRANGEMENT] || second_read(meant.at, meant.length, work, 4096).number != 0;
}

static int has_reason(uint32_t number) {
    int of_17 = 0;
    switch (number) {
    case 1:
    case 15: return refuse_alone[BUFFERS]++, 1;
    case 16: return refuse_alone[LONG_FILE]++, c.xml_len > 65536;
    case 2: return listing_of(&meant), refuse_alone[LONG_LISTING]++, meant.length > 24576;
    case 18: return refuse_alone[DEEP]++, t.reason[DEEP];
    case 19: return refuse_alone[REFUSED_ELEMENT]++, t.reason[REFUSED_ELEMENT];
    case 17:
        for (int i = DTD; i <= ARRANGEMENT; i++) refuse_alone[i] += (unsigned long)t.reason[i], of_17 |= t.reason[i];
        return of_17;
    default: return refuse_alone[TEXTS]++, texts_refused(number);
    }
}

/* Whether the first fault that expat's report shows has that number and line; of a file that shows all its faults there. */
static int first_is(uint32_t number, uint32_t line) {
    uint32_t at = 1;
    for (size_t i = 0; i < first.place; i++) at += c.xml[i] == 10;
    return first.number == number && at == line;
}

static int shows_all(void) {
    for (size_t i = 0; i < c.xml_len; i++)
        if (c.xml[i] > 127) return 0;
    return !t.reason[DTD] && !t.reason[CDATA] && !t.reason[NUMERIC] && !t.reason[INSTRUCTION];
}

static const char *fault(void) {
    struct budquarry_written w = reading();
    cases++;
    if (w.number == 0) return accepted(&w);
    if (!parse(c.xml, c.xml_len, NULL)) return both_refuse++, NULL;
    if (!has_reason(w.number)) return "refused, well formed to expat, and for no reason of 02's";
    if (w.number == 1 || w.number == 16 || !shows_all()) return NULL;
    placed++;
    if (w.line == 0) return first.number == 0 ? NULL : "refused for a length, though expat reports a fault in the file";
    return first_is(w.number, w.line) ? NULL : "refused with another number or line than the first fault that expat reports";
}

static void check(const char *family, uint64_t seed, uint64_t at) {
    const char *what = fault();
    if (what == NULL) return;
    printf("expat, seed %" PRIu64 ", case %" PRIu64 " of the %s cases: %s\n", seed, at, family, what);
    FILE *f = fopen("build/bad_web.xml", "wb");
    if (f != NULL) {
        fwrite(c.xml, 1, c.xml_len, f);
        fclose(f);
        printf("the file is in build/bad_web.xml\n");
    }
    exit(1);
}

static int rare;
static void count(const char *what, unsigned long hits, uint64_t n) {
    printf(" %s %lu,", what, hits);
    rare |= n >= MANY && hits == 0;
}

/* A file, with buffers that are wide enough. */
static void load(const char *name) {
    FILE *f = fopen(name, "rb");
    if (f == NULL) perror(name), exit(2);
    c.xml_len = fread(c.xml, 1, sizeof c.xml, f);
    fclose(f);
    c.room = 24576;
    c.work_len = 4096;
}

int main(int argc, char **argv) {
    if (argc > 1 && !strcmp(argv[1], "files")) {
        for (int i = 2; i < argc; i++) {
            load(argv[i]);
            check(argv[i], 0, (uint64_t)i - 1);
        }
        printf("expat, %lu files: both accept %lu, the reader alone %lu, both refuse %lu, expat alone %lu\n", cases, both_accept, alone, both_refuse,
               cases - both_accept - alone - both_refuse);
        return 0;
    }
    uint64_t seed = argc > 1 ? strtoull(argv[1], 0, 10) : 1, n = argc > 2 ? strtoull(argv[2], 0, 10) : MANY;
    for (size_t i = 0; i < generate_xml_small_count(); i++) {
        generate_xml_small(i, &c);
        check("small", seed, i);
    }
    for (uint64_t i = 0; i < n; i++) {
        generate_xml_case(seed * 1000003 + i, &c);
        check("seeded", seed, i);
    }
    printf("expat, seed %" PRIu64 ", %lu cases: both accept %lu, both refuse %lu; accepted by the reader alone %lu, with", seed, cases, both_accept, both_refuse, alone);
    for (int i = 0; i < DIFFERENCES; i++) count(difference_names[i], accept_alone[i], n);
    printf(" and by expat alone, for");
    for (int i = 0; i < REASONS; i++) count(reason_names[i], refuse_alone[i], n);
    printf(" no other; %lu of these with the number and line that expat's report shows\n", placed);
    if (rare) printf("expat, seed %" PRIu64 ": one of these never comes\n", seed);
    return rare;
}
