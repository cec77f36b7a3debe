/* The cases of tests/typed_xml.txt, whose head says how they are written. */
#ifndef XML_CASES_H
#define XML_CASES_H
#include <stdint.h>
#include <stdio.h>
#include <stdlib.h>
#include <string.h>

enum { CASE_XML = 70000, CASE_LISTING = 40000, CASE_LINE = 8000 };
struct xml_case {
    char typed[CASE_LINE]; /* its line, as it stands there */
    unsigned at;           /* the line's number */
    uint8_t xml[CASE_XML], listing[CASE_LISTING];
    size_t xml_len, listing_len; /* the listing's with number 0; the length needed with 15 */
    uint32_t number, side, line;
    size_t room, work_len;
};

static void xml_case_bad(const struct xml_case *c, const char *what) {
    fprintf(stderr, "tests/typed_xml.txt, line %u: %s\n", c->at, what);
    exit(2);
}

static const char *const xml_case_names[] = { "Wweb-app", "Rsecurity-role", "Csecurity-constraint", "Lweb-resource-collection", "Aauth-constraint",
                                              "Nrole-name", "Purl-pattern", "Mhttp-method", "Ohttp-method-omission" };

static size_t xml_case_tag(char letter, char *to) {
    for (size_t i = 0; i < sizeof xml_case_names / sizeof *xml_case_names; i++)
        if ((xml_case_names[i][0] | 32) == (letter | 32)) return (size_t)sprintf(to, letter & 32 ? "</%s>" : "<%s>", xml_case_names[i] + 1);
    return 0;
}

/* Writes out t[0..n), `%#` standing for `turn`. */
static size_t xml_case_expand(const struct xml_case *c, const char *t, size_t n, unsigned turn, char *to, size_t room) {
    size_t length = 0;
    for (size_t i = 0; i < n;) {
        if (room - length < 64) xml_case_bad(c, "too long");
        if (t[i] == '\\' && t[i + 1] == 'x') {
            char digits[3] = { t[i + 2], t[i + 3], 0 };
            to[length++] = (char)strtoul(digits, 0, 16), i += 4;
        } else if (t[i] == '\\') {
            to[length++] = t[i + 1] == 'n' ? '\n' : t[i + 1] == 'r' ? '\r' : t[i + 1] == 't' ? '\t' : '\\', i += 2;
        } else if (t[i] == '$') {
            size_t tag = xml_case_tag(t[i + 1], to + length);
            if (tag == 0) xml_case_bad(c, "no such tag behind $");
            length += tag, i += 2;
        } else if (t[i] == '%' && t[i + 1] == '#') {
            length += (size_t)sprintf(to + length, "%u", turn), i += 2;
        } else if (t[i] == '%') {
            char *open;
            unsigned long times = strtoul(t + i + 1, &open, 10);
            size_t start = (size_t)(open - t) + 1, stop = start, deep = 1;
            if (*open != '{') xml_case_bad(c, "no { behind %");
            for (; stop < n && deep > 0; stop++) deep += (t[stop] == '{') - (size_t)(t[stop] == '}');
            if (deep > 0) xml_case_bad(c, "no }");
            for (unsigned k = 0; k < times; k++) length += xml_case_expand(c, t + start, stop - 1 - start, k, to + length, room - length);
            i = stop;
        } else {
            to[length++] = t[i++];
        }
    }
    return length;
}

/* `role a|constraint open` as the lines of a listing, the first and the last line put round them. */
static void xml_case_listing(struct xml_case *c, const char *t, size_t n) {
    static char plain[CASE_LISTING];
    size_t length = xml_case_expand(c, t, n, 0, plain, sizeof plain), o = 14;
    int field = 0;
    memcpy(c->listing, "constraints\t1\n", 14);
    for (size_t i = 0; i < length; i++) {
        uint8_t b = (uint8_t)plain[i];
        if (b == '|') b = '\n', field = 0;
        else if (b == ' ' && !field) b = '\t', field = 1;
        c->listing[o++] = b;
    }
    if (o > 14 && c->listing[o - 1] != '\n') c->listing[o++] = '\n';
    memcpy(c->listing + o, "end\n", 4);
    c->listing_len = o + 4;
}

/* The next case, or 0. */
static int xml_case_next(FILE *f, struct xml_case *c) {
    static char s[CASE_LINE];
    for (;;) {
        if (!fgets(s, sizeof s, f)) return 0;
        c->at++;
        s[strcspn(s, "\n")] = 0;
        if (s[0] != 0 && s[0] != '#') break;
    }
    strcpy(c->typed, s);
    char *xml = strchr(s, '\t'), *more;
    if (xml == NULL) xml_case_bad(c, "no tab");
    *xml++ = 0;
    more = strchr(xml, '\t');
    if (more != NULL) *more++ = 0;
    c->xml_len = xml_case_expand(c, xml, strlen(xml), 0, (char *)c->xml, sizeof c->xml);
    c->number = c->line = 0;
    c->listing_len = 0;
    c->room = 24600, c->work_len = 4096;
    if (more != NULL && !strncmp(more, "room=", 5)) c->room = strtoul(more + 5, 0, 10);
    else if (more != NULL && !strncmp(more, "work=", 5)) c->work_len = strtoul(more + 5, 0, 10);
    else if (more != NULL) xml_case_bad(c, "neither room= nor work=");
    if (s[0] == '=') {
        xml_case_listing(c, s + 1, strlen(s + 1));
    } else {
        char *end;
        c->number = (uint32_t)strtoul(s, &end, 10);
        if (*end == '@') c->line = (uint32_t)strtoul(end + 1, &end, 10);
        else if (*end == '+') c->listing_len = strtoul(end + 1, &end, 10);
        if (*end != 0 || c->number == 0) xml_case_bad(c, "no outcome");
    }
    c->side = c->number != 0 && c->number != 1 && c->number != 15;
    return 1;
}
#endif
