/* decide_edges.c: writes stored requests into a folder and prints what the
 * literal implementation decides of each.
 *
 *   decide_edges FOLDER
 *
 * Built from this file and second.c alone.  Writes FOLDER/case000,
 * FOLDER/case001, .. and FOLDER/index (a line `caseNNN what it is for` each),
 * and prints a line `caseNNN NUMBER SIDE LINE ANSWER` each.
 *
 * A case's file: 2 bytes (little end first) the listing's length, 2 the path's,
 * 2 the method's, 4 the login number, 2 the roles' length; then the listing,
 * the path, the method, the roles.  A part that the file is too short for is
 * cut to what is there.
 *
 * Each case also says, read off 01 and Item 1 of 02 by hand, which refusal
 * number or answer has to come: exit 1 if second.c answers otherwise.
 */
#include "second.h"

#include <stdio.h>
#include <stdlib.h>
#include <string.h>

/* ----------------------------------------------------------------- making */

/* What has to come: a refusal by its number, or an answer. */
enum { ANSWERS = 100 };
enum outcome {
    OPEN = ANSWERS + SECOND_OPEN,
    BY_ROLE = ANSWERS + SECOND_BY_ROLE,
    CLOSED = ANSWERS + SECOND_CLOSED,
    LOGIN_WANTED = ANSWERS + SECOND_LOGIN_WANTED,
    ROLE_LACKING = ANSWERS + SECOND_ROLE_LACKING
};

struct part {
    uint8_t bytes[24577];
    size_t length, most;
};

static struct maker {
    struct part listing, path, method, roles;
    uint32_t login;
    const char *folder;
    FILE *index;
    unsigned cases;
} m;

static void add(struct part *p, const void *bytes, size_t n)
{
    if (n > p->most - p->length)
        abort();
    memcpy(p->bytes + p->length, bytes, n);
    p->length += n;
}

static void say(struct part *p, const char *s) { add(p, s, strlen(s)); }

static void set(struct part *p, const char *s)
{
    p->length = 0;
    say(p, s);
}

static void many(struct part *p, char byte, size_t n)
{
    for (size_t i = 0; i < n; i++)
        add(p, &byte, 1);
}

static void number_bytes(uint8_t *at, uint32_t number, unsigned count)
{
    for (unsigned i = 0; i < count; i++)
        at[i] = (uint8_t)(number >> (8 * i));
}

/* The case as it stands, in a file that lacks its last `lacking` bytes, which
 * are bytes of the roles. */
static void ask_short(size_t lacking, unsigned outcome, const char *purpose)
{
    static uint32_t work[5000];
    static uint8_t file[12 + 24577 + 2000 + 100 + 4000];
    const struct part *parts[4] = { &m.listing, &m.path, &m.method, &m.roles };
    char name[4096];
    size_t length = 12;

    number_bytes(file + 0, (uint32_t)m.listing.length, 2);
    number_bytes(file + 2, (uint32_t)m.path.length, 2);
    number_bytes(file + 4, (uint32_t)m.method.length, 2);
    number_bytes(file + 6, m.login, 4);
    number_bytes(file + 10, (uint32_t)m.roles.length, 2);
    for (size_t i = 0; i < 4; i++) {
        memcpy(file + length, parts[i]->bytes, parts[i]->length);
        length += parts[i]->length;
    }
    if (lacking > m.roles.length)
        abort();
    length -= lacking;

    snprintf(name, sizeof name, "%s/case%03u", m.folder, m.cases);
    FILE *f = fopen(name, "wb");
    if (f == NULL || fwrite(file, 1, length, f) != length || fclose(f) != 0) {
        fprintf(stderr, "cannot write %s\n", name);
        exit(2);
    }
    struct second_decision d =
        second_decide(m.listing.bytes, m.listing.length, m.path.bytes, m.path.length,
                      m.method.bytes, m.method.length, m.login, m.roles.bytes,
                      m.roles.length - lacking, work, 5000);
    if ((d.number != 0 ? d.number : ANSWERS + d.answer) != outcome) {
        fprintf(stderr, "case%03u (%s): not %u but %u %u\n", m.cases, purpose, outcome, d.number,
                d.answer);
        exit(1);
    }
    printf("case%03u %u %u %u %u\n", m.cases, d.number, d.side, d.line, d.answer);
    fprintf(m.index, "case%03u %s\n", m.cases, purpose);
    m.cases++;
}

static void ask(unsigned outcome, const char *purpose) { ask_short(0, outcome, purpose); }

/* A request: what each group below varies one part of. */
static void request(const char *path, const char *method, uint32_t login, const char *roles)
{
    set(&m.path, path);
    set(&m.method, method);
    m.login = login;
    set(&m.roles, roles);
}

static void listing(const char *records)
{
    set(&m.listing, "constraints\t1\n");
    say(&m.listing, records);
    say(&m.listing, "end\n");
}

/* ------------------------------------------------------------- bad parts */

/* Every path, every method: role a. */
#define GUARDED "role\ta\nconstraint\tauth\nallow\ta\ncollection\npattern\t/\n"

static void path_is(const char *path, unsigned outcome, const char *purpose)
{
    set(&m.path, path);
    ask(outcome, purpose);
}

/* 11: "a path (1 to 1,024 text bytes, first `/`)"; "text bytes: 32 to 126 and
 * 128 to 255" */
static void paths(void)
{
    listing(GUARDED);
    request("/", "GET", 1, "a\n");
    ask(BY_ROLE, "a path of 1 byte");
    many(&m.path, 'x', 1023);
    ask(BY_ROLE, "a path of 1,024 bytes");
    m.path.bytes[1023] = 9;
    ask(11, "a path of 1,024 bytes, the last one 9: 11");
    m.path.bytes[1023] = 'x';
    many(&m.path, 'x', 1);
    ask(11, "a path of 1,025 bytes: 11");
    many(&m.path, 'x', 975);
    ask(11, "a path of 2,000 bytes: 11");
    path_is("", 11, "a path of no bytes: 11");
    path_is("x", 11, "a path of one byte, not /: 11");
    path_is("x/", 11, "a path without its / first: 11");
    path_is(" /x", 11, "a space before the path: 11");
    path_is("/\tx", 11, "byte 9 in a path: 11");
    path_is("/x\n", 11, "byte 10 at a path's end: 11");
    path_is("/\x1f", 11, "byte 31 in a path: 11");
    path_is("/ ", BY_ROLE, "byte 32 at a path's end");
    path_is("/~", BY_ROLE, "byte 126 in a path");
    path_is("/\x7f", 11, "byte 127 in a path: 11");
    path_is("/\x80\xc3\xbf\xff", BY_ROLE, "bytes above 127 in a path");
    set(&m.path, "/x");
    add(&m.path, "\0", 1);
    ask(11, "byte 0 at a path's end: 11");
    /* 02, Item 1: "drop the bytes from the first `;`"; "a pattern with `;`
     *  gives 7" */
    listing("constraint\tauth\ncollection\npattern\t/a\n");
    path_is("/a;b", CLOSED, "a ; and more behind an exact text: dropped");
    listing("constraint\tauth\ncollection\npattern\t/a;b\n");
    ask(7, "a ; in a pattern: 7");
}

static void method_is(const char *method, unsigned outcome, const char *purpose)
{
    set(&m.method, method);
    ask(outcome, purpose);
}

/* 12: "Methods: 1 to 24 token bytes, case kept." */
static void methods(void)
{
    listing(GUARDED);
    request("/x", "", 1, "a\n");
    ask(12, "a method of no bytes: 12");
    method_is("G", BY_ROLE, "a method of 1 byte");
    method_is("ABCDEFGHIJKLMNOPQRSTUVWX", BY_ROLE, "a method of 24 bytes");
    method_is("ABCDEFGHIJKLMNOPQRSTUVWXY", 12, "a method of 25 bytes: 12");
    m.method.length = 0;
    many(&m.method, 'M', 100);
    ask(12, "a method of 100 bytes: 12");
    method_is("!#$%&'*+-.^_`|~", BY_ROLE, "a method of marks");
    method_is("azAZ09", BY_ROLE, "a method of letters and digits");
    method_is("GE T", 12, "a space in a method: 12");
    method_is("GET\n", 12, "byte 10 at a method's end: 12");
    method_is("G/T", 12, "a / in a method: 12");
    method_is("G:T", 12, "a : in a method: 12");
    method_is("G@T", 12, "an @ in a method: 12");
    method_is("G[T", 12, "a [ in a method: 12");
    method_is("G\x7fT", 12, "byte 127 in a method: 12");
    method_is("G\xc3T", 12, "a byte above 127 in a method: 12");
    /* "case kept", and all of a name counts */
    listing("constraint\tauth\ncollection\npattern\t/x\n"
            "method\tGET\nmethod\tABCDEFGHIJKLMNOPQRSTUVWX\n");
    method_is("GET", CLOSED, "a named method");
    method_is("get", OPEN, "a named method in another case");
    method_is("GE", OPEN, "a named method's start");
    method_is("GETS", OPEN, "a named method and more");
    method_is("ABCDEFGHIJKLMNOPQRSTUVWX", CLOSED, "a named method of 24 bytes");
    method_is("ABCDEFGHIJKLMNOPQRSTUVWY", OPEN, "another last byte of 24");
}

static void caller_is(uint32_t login, const char *roles, unsigned outcome, const char *purpose)
{
    m.login = login;
    set(&m.roles, roles);
    ask(outcome, purpose);
}

/* So many names b0, b1, .. */
static void names(unsigned count)
{
    char s[32];
    set(&m.roles, "");
    for (unsigned i = 0; i < count; i++) {
        snprintf(s, sizeof s, "b%u\n", i);
        say(&m.roles, s);
    }
}

/* The same name so many times. */
static void repeated(const char *name, unsigned count)
{
    set(&m.roles, "");
    for (unsigned i = 0; i < count; i++) {
        say(&m.roles, name);
        say(&m.roles, "\n");
    }
}

#define EIGHT "12345678"
#define LONG EIGHT EIGHT EIGHT EIGHT EIGHT EIGHT EIGHT EIGHT /* 64 bytes */

/* 13: "bad name, `*`, over 32 names, a last name unended, names though not
 * logged in, a login number above 1" */
static void callers(void)
{
    listing(GUARDED);
    request("/x", "GET", 0, "");
    ask(LOGIN_WANTED, "login 0");
    caller_is(1, "", ROLE_LACKING, "login 1, no names");
    caller_is(2, "", 13, "login 2: 13");
    caller_is(2, "a\n", 13, "login 2 with a name: 13");
    caller_is(256, "", 13, "login 256: 13");
    caller_is(257, "a\n", 13, "login 257: 13");
    caller_is(65537, "a\n", 13, "login 65,537: 13");
    caller_is(16777216, "", 13, "login 16,777,216: 13");
    caller_is(4294967295u, "", 13, "login 4,294,967,295: 13");
    caller_is(4294967295u, "a\n", 13, "login 4,294,967,295 with a name: 13");
    caller_is(0, "a\n", 13, "a name though not logged in: 13");
    caller_is(0, "\n", 13, "an empty name though not logged in: 13");
    caller_is(1, "a\n", BY_ROLE, "one name, held");
    caller_is(1, "b\n", ROLE_LACKING, "one name, not held");
    caller_is(1, "ab\nA\na b\n", ROLE_LACKING, "names like the one: compared byte for byte");
    names(32);
    ask(ROLE_LACKING, "32 names, none held");
    names(31);
    say(&m.roles, "a\n");
    ask(BY_ROLE, "32 names, the last one held");
    names(33);
    ask(13, "33 names: 13");
    names(32);
    say(&m.roles, "a\n");
    ask(13, "33 names, the last one held: 13");
    /* "A repeated name counts towards the 32 each time" */
    caller_is(1, "b\nb\na\na\n", BY_ROLE, "repeated names");
    repeated("a", 32);
    ask(BY_ROLE, "a name 32 times");
    repeated("a", 33);
    ask(13, "a name 33 times: 13");
    repeated("a", 2000);
    ask(13, "4,000 bytes of names: 13");
    caller_is(1, "a", 13, "one name, unended: 13");
    caller_is(1, "a\nb", 13, "the last name unended: 13");
    names(32);
    say(&m.roles, "a");
    ask(13, "32 names and an unended one: 13");
    caller_is(1, "\n", 13, "an empty name: 13");
    caller_is(1, "a\n\n", 13, "an empty name behind another: 13");
    caller_is(1, "\na\n", 13, "an empty name before another: 13");
    caller_is(1, "*\n", 13, "the star: 13");
    caller_is(1, "a\n*\n", 13, "the star behind a name: 13");
    caller_is(1, "**\na\n", BY_ROLE, "two stars are a name");
    caller_is(1, " a\n", 13, "a name with a space first: 13");
    caller_is(1, "a \n", 13, "a name with a space last: 13");
    caller_is(1, "a\tb\n", 13, "byte 9 in a name: 13");
    caller_is(1, "a\x7f\n", 13, "byte 127 in a name: 13");
    caller_is(1, "\x80\xff\na\n", BY_ROLE, "a name of bytes above 127");
    caller_is(1, LONG "x\n", 13, "a name of 65 bytes: 13");
    caller_is(1, LONG "\n", ROLE_LACKING, "a name of 64 bytes, not held");
    listing("constraint\tauth\nallow\t" LONG "\ncollection\npattern\t/\n");
    ask(BY_ROLE, "a name of 64 bytes, held");
    repeated(LONG, 32);
    ask(BY_ROLE, "32 names of 64 bytes");
    /* a file that is shorter than it says */
    listing(GUARDED);
    set(&m.roles, "a\nbbbb\n");
    ask_short(5, BY_ROLE, "a file cut after the first of two names");
    ask_short(7, ROLE_LACKING, "a file cut before the names");
    ask_short(3, 13, "a file cut inside a name: 13");
}

/* ------------------------------------------------------------------ order */

static void refused(const char *text, unsigned number, const char *purpose)
{
    set(&m.listing, text);
    ask(number, purpose);
}

/* "all of the old listing's ..; then 11, 12, 13" */
static void order(void)
{
    char s[32];
    request("", "", 2, "*");
    set(&m.listing, "constraints\t1\n");
    many(&m.listing, 'x', 24577 - 14);
    ask(2, "2 before 11, 12, 13");
    m.listing.length--;
    ask(4, "one byte less: 4 before 11, 12, 13");
    refused("", 3, "3 before 11, 12, 13: no bytes");
    refused("constraints\t2\nend\n", 3, "3 before 11, 12, 13");
    refused("constraints\t1\nbogus\nend\n", 4, "4 before 11, 12, 13");
    refused("constraints\t1\nrole\ta\ncollection\n", 5, "5 before 11, 12, 13");
    refused("constraints\t1\nrole\ta\nrole\t*\nend\n", 6, "6 before 11, 12, 13");
    refused("constraints\t1\nconstraint\topen\ncollection\npattern\tx\nend\n", 7,
            "7 before 11, 12, 13");
    set(&m.listing, "constraints\t1\n");
    for (unsigned i = 0; i < 33; i++) {
        snprintf(s, sizeof s, "role\tr%u\n", i);
        say(&m.listing, s);
    }
    say(&m.listing, "end\n");
    ask(8, "8 before 11, 12, 13");
    refused("constraints\t1\nrole\ta\nrole\ta\nend\n", 9, "9 before 11, 12, 13");
    refused("constraints\t1\nrole\ta\n", 10, "10 before 11, 12, 13: no end");
    refused("constraints\t1\nend\n\n", 10, "10 before 11, 12, 13: a byte after end");
    refused("constraints\t1\nend\n", 11, "11 before 12 and 13");
    set(&m.method, "GET");
    ask(11, "11 before 13");
    request("x", "(", 0, "");
    ask(11, "11 before 12");
    request("/x", "(", 2, "");
    ask(12, "12 before 13");
    set(&m.method, "GET");
    ask(13, "13 alone");
    m.login = 0;
    ask(OPEN, "no fault, no pattern");
}

/* ------------------------------------------------------------- best match */

/* The path `/` against every subset of the empty pattern, `//`+`*`, `/`+`*` and
 * `/`, for a caller with role a: by role where the empty pattern is best, closed
 * where `//`+`*` is (its P is `/` itself), role lacking where `/`+`*` is (its P
 * is empty), open where `/` is or none. */
static void slash(void)
{
    static const char *const record[4] = {
        "constraint\tauth\nallow\ta\ncollection\npattern\t\n",
        "constraint\tauth\ncollection\npattern\t//*\n",
        "constraint\tauth\nallow\tb\ncollection\npattern\t/*\n",
        "constraint\topen\ncollection\npattern\t/\n",
    };
    static const char *const text[4] = { " empty", " //*", " /*", " /" };
    static const unsigned outcome[4] = { BY_ROLE, CLOSED, ROLE_LACKING, OPEN };
    request("/", "GET", 1, "a\n");
    for (unsigned subset = 0; subset < 16; subset++) {
        char purpose[128] = "the path / against";
        unsigned best = OPEN;
        listing("");
        m.listing.length -= strlen("end\n");
        for (unsigned i = 4; i-- > 0;)
            if (subset >> i & 1) {
                say(&m.listing, record[i]);
                best = outcome[i];
            }
        say(&m.listing, "end\n");
        for (unsigned i = 0; i < 4; i++)
            if (subset >> i & 1)
                strcat(purpose, text[i]);
        ask(best, subset == 0 ? "the path / against no pattern" : purpose);
    }
    /* there `/` and no pattern at all are told apart */
    listing("constraint\tauth\ncollection\npattern\t/\n");
    ask(CLOSED, "the path / against a closed /");
    path_is("/x", CLOSED, "another path against a closed /");
    listing("constraint\tauth\ncollection\npattern\t\n");
    ask(OPEN, "another path against a closed empty pattern");
    path_is("//", OPEN, "the path // against a closed empty pattern");
    listing("constraint\tauth\ncollection\npattern\t//*\n");
    ask(CLOSED, "the path // against a closed //*");
    path_is("/x", OPEN, "the path /x against a closed //*");
}

static void matching(void)
{
    request("/", "GET", 0, "");
    /* "the last segment (after the last `/`) has a `.` and E is what follows
     *  the last one" */
    listing("constraint\tauth\ncollection\npattern\t*.csv\n");
    path_is("/x.csv", CLOSED, "/x.csv against *.csv");
    path_is("/.csv", CLOSED, "/.csv against *.csv");
    path_is("/x.", OPEN, "/x. against *.csv");
    path_is("/x.csv/", OPEN, "/x.csv/ against *.csv");
    path_is("/a.csv/b", OPEN, "/a.csv/b against *.csv");
    path_is("/a.b.csv", CLOSED, "/a.b.csv against *.csv");
    path_is("/a/b.csv", CLOSED, "/a/b.csv against *.csv");
    path_is("/a.csv.b", OPEN, "/a.csv.b against *.csv");
    path_is("/a.csvx", OPEN, "/a.csvx against *.csv");
    path_is("/a.CSV", OPEN, "/a.CSV against *.csv");
    path_is("/csv", OPEN, "/csv against *.csv");
    path_is("/a.b/csv", OPEN, "/a.b/csv against *.csv");
    path_is("/*.csv", CLOSED, "/*.csv against *.csv");
    /* "it matches P itself and every path that starts with P followed by `/`" */
    listing("constraint\tauth\ncollection\npattern\t/clock/*\n");
    path_is("/clock", CLOSED, "/clock against /clock/*");
    path_is("/clock/", CLOSED, "/clock/ against /clock/*");
    path_is("/clockwork", OPEN, "/clockwork against /clock/*");
    path_is("/clock/a", CLOSED, "/clock/a against /clock/*");
    path_is("/cloc", OPEN, "/cloc against /clock/*");
    path_is("/a/clock/", OPEN, "/a/clock/ against /clock/*");
    /* "else the longest P", in whichever order they stand */
    listing("constraint\tauth\ncollection\npattern\t/a/*\n"
            "constraint\topen\ncollection\npattern\t/a//*\n");
    path_is("/a//b", OPEN, "/a//b against /a/* closed and /a//* open");
    path_is("/a/", OPEN, "/a/ against the same: it is the second's P");
    path_is("/a/b", CLOSED, "/a/b against the same");
    listing("constraint\topen\ncollection\npattern\t/a//*\n"
            "constraint\tauth\ncollection\npattern\t/a/*\n");
    path_is("/a//b", OPEN, "/a//b against /a//* open and /a/* closed");
    listing("constraint\topen\ncollection\npattern\t/a/*\n"
            "constraint\tauth\ncollection\npattern\t/a//*\n");
    ask(CLOSED, "/a//b against /a/* open and /a//* closed");
    /* "Best match: exact; else the longest P; else extension; else default" */
    listing("constraint\tauth\ncollection\npattern\t/\n"
            "constraint\topen\ncollection\npattern\t*.c\n"
            "constraint\tauth\ncollection\npattern\t/a/*\n"
            "constraint\topen\ncollection\npattern\t/a/b.c\n");
    path_is("/x", CLOSED, "only the default");
    path_is("/x.c", OPEN, "an extension before the default");
    path_is("/a/x.c", CLOSED, "a prefix before an extension");
    path_is("/a/b.c", OPEN, "an exact one before a prefix");
    listing("constraint\tauth\ncollection\npattern\t/a*\n");
    path_is("/a*", CLOSED, "/a* is exact");
    path_is("/ab", OPEN, "/a* matches no longer path");
}

/* ---------------------------------------------------------------- deciding */

/* "the constraints with a collection that has that exact pattern text and
 *  covers the method": one collection has to do both */
static void collections(void)
{
    listing("constraint\tauth\ncollection\npattern\t/a\nmethod\tGET\n"
            "collection\npattern\t/b\nmethod\tPUT\n");
    request("/a", "GET", 0, "");
    ask(CLOSED, "the pattern and the method in one collection");
    request("/a", "PUT", 0, "");
    ask(OPEN, "the pattern in one collection, the method in another behind it");
    request("/b", "GET", 0, "");
    ask(OPEN, "the pattern in one collection, the method in another before it");
    listing("constraint\tauth\ncollection\npattern\t/a\nmethod\tGET\n"
            "collection\npattern\t/b\npattern\t/a\nmethod\tPUT\n");
    request("/a", "PUT", 0, "");
    ask(CLOSED, "the pattern in both collections, the method in the second");
    listing("constraint\tauth\ncollection\npattern\t/a\nomit\tGET\nomit\tPUT\n");
    request("/a", "GET", 0, "");
    ask(OPEN, "a method omitted");
    request("/a", "PATCH", 0, "");
    ask(CLOSED, "a method not omitted");
    listing("constraint\tauth\ncollection\npattern\t/a\nomit\tGET\ncollection\npattern\t/a\nomit\tPUT\n");
    request("/a", "GET", 0, "");
    ask(CLOSED, "a method omitted in one of two collections");
    /* an uncovered method falls to no wider pattern */
    listing("constraint\tauth\ncollection\npattern\t/*\n"
            "constraint\tauth\ncollection\npattern\t/a\nmethod\tGET\n");
    request("/a", "PUT", 0, "");
    ask(OPEN, "a method that the best pattern does not cover");
}

/* "`*` adding all declared ones.  A `*` with no declared role adds nothing and
 *  closes nothing." */
static void star(void)
{
    listing("role\ta\nrole\tb\nconstraint\tauth\nallow\t*\ncollection\npattern\t/\n"
            "constraint\tauth\nallow\tc\ncollection\npattern\t/c\n");
    request("/x", "GET", 1, "b\n");
    ask(BY_ROLE, "* with declared roles, a declared one");
    caller_is(1, "c\n", ROLE_LACKING, "* with declared roles, one that is only allowed elsewhere");
    caller_is(1, "", ROLE_LACKING, "* with declared roles, no names");
    caller_is(0, "", LOGIN_WANTED, "* with declared roles, not logged in");
    listing("constraint\tauth\nallow\t*\ncollection\npattern\t/\n");
    caller_is(1, "a\n", ROLE_LACKING, "* without declared roles, a name");
    caller_is(1, "", ROLE_LACKING, "* without declared roles, no names");
    caller_is(0, "", LOGIN_WANTED, "* without declared roles, not logged in");
    listing("constraint\tauth\nallow\t*\ncollection\npattern\t/\n"
            "constraint\topen\ncollection\npattern\t/\n");
    ask(OPEN, "* without declared roles, and open");
    listing("constraint\tauth\nallow\t*\ncollection\npattern\t/\n"
            "constraint\tauth\ncollection\npattern\t/\n");
    ask(CLOSED, "* without declared roles, and closed");
    listing("constraint\tauth\nallow\ta\nallow\t*\ncollection\npattern\t/\n");
    caller_is(1, "a\n", BY_ROLE, "* without declared roles beside a role");
}

/* Each answer for each kind of caller, and two constraints combined. */
static void answers(void)
{
    static const struct { const char *path, *combined; unsigned outcome[4]; } row[] = {
        { "/none", "no pattern", { OPEN, OPEN, OPEN, OPEN } },
        { "/open", "open", { OPEN, OPEN, OPEN, OPEN } },
        { "/closed", "closed", { CLOSED, CLOSED, CLOSED, CLOSED } },
        { "/union", "a union", { LOGIN_WANTED, ROLE_LACKING, BY_ROLE, ROLE_LACKING } },
        { "/oc", "open and closed", { CLOSED, CLOSED, CLOSED, CLOSED } },
        { "/ou", "open and a union", { OPEN, OPEN, OPEN, OPEN } },
        { "/uc", "a union and closed", { CLOSED, CLOSED, CLOSED, CLOSED } },
        { "/uu", "two unions", { LOGIN_WANTED, ROLE_LACKING, BY_ROLE, BY_ROLE } },
    };
    static const char *const kind[4] = { "not logged in", "no names", "role a", "role b" };
    static const char *const roles[4] = { "", "", "a\n", "b\n" };
    listing("role\ta\nrole\tb\n"
            "constraint\tauth\nallow\ta\ncollection\npattern\t/union\npattern\t/ou\npattern\t/uc\n"
            "pattern\t/uu\n"
            "constraint\topen\ncollection\npattern\t/open\npattern\t/oc\npattern\t/ou\n"
            "constraint\tauth\ncollection\npattern\t/closed\npattern\t/oc\npattern\t/uc\n"
            "constraint\tauth\nallow\tb\ncollection\npattern\t/uu\n");
    for (size_t i = 0; i < sizeof row / sizeof row[0]; i++)
        for (unsigned k = 0; k < 4; k++) {
            char purpose[128];
            snprintf(purpose, sizeof purpose, "%s, %s", row[i].combined, kind[k]);
            request(row[i].path, "GET", k != 0, roles[k]);
            ask(row[i].outcome[k], purpose);
        }
}

static void question(const char *path, const char *method, const char *role, unsigned outcome,
                     const char *purpose)
{
    request(path, method, role != NULL, "");
    if (role != NULL) {
        say(&m.roles, role);
        say(&m.roles, "\n");
    }
    ask(outcome, purpose);
}

/* 01's worked requests 1 to 11. */
static void worked(void)
{
    listing("role\tadjuster\nrole\tassessor\nrole\towner\n"
            "constraint\tauth\ncollection\npattern\t/*\nmethod\tDELETE\n"
            "constraint\tauth\nallow\tassessor\ncollection\npattern\t/clock/*\nomit\tGET\n"
            "constraint\tauth\nallow\tadjuster\ncollection\npattern\t/clock/*\nmethod\tPUT\n"
            "constraint\topen\ncollection\npattern\t*.csv\n"
            "constraint\tauth\nallow\t*\ncollection\npattern\t/clock/offset\nmethod\tGET\n");
    question("/x", "DELETE", "adjuster", CLOSED, "worked request 1");
    question("/x", "GET", NULL, OPEN, "worked request 2");
    question("/clock", "PUT", "adjuster", BY_ROLE, "worked request 3");
    question("/clock/a", "GET", NULL, OPEN, "worked request 4");
    question("/clock/a", "DELETE", "assessor", BY_ROLE, "worked request 5");
    question("/clockwork", "DELETE", "assessor", CLOSED, "worked request 6");
    question("/clock/offset", "PUT", NULL, OPEN, "worked request 7");
    question("/clock/offset", "GET", NULL, LOGIN_WANTED, "worked request 8");
    question("/log.csv", "DELETE", "assessor", CLOSED, "worked request 9");
    question("/clock/a", "PUT", "owner", ROLE_LACKING, "worked request 10");
    listing("constraint\tauth\nallow\t*\ncollection\npattern\t/a/*\n"
            "constraint\tauth\nallow\tadjuster\ncollection\npattern\t/a/*\n");
    question("/a/b", "GET", "adjuster", BY_ROLE, "worked request 11");
}

/* Example 1 of source 001: the Servlet specification's example (13.8.2 in 3.0,
 * 12.8.2 in the paper's edition), SC1 to SC4.  The paper's a, w, r are acme,
 * wholesale, retail, and its s, c, h the three roles. */
#define EXAMPLE \
    "role\tSALESCLERK\nrole\tCONTRACTOR\nrole\tHOMEOWNER\n" \
    "constraint\tauth\n" /* SC1 */ \
    "collection\npattern\t/*\npattern\t/acme/wholesale/*\npattern\t/acme/retail/*\n" \
    "method\tDELETE\nmethod\tPUT\n" \
    "constraint\tauth\nallow\tSALESCLERK\n" /* SC2 */ \
    "collection\npattern\t/acme/wholesale/*\nmethod\tGET\nmethod\tPUT\n" \
    "constraint\tauth\nallow\tCONTRACTOR\n" /* SC3 */ \
    "collection\npattern\t/acme/wholesale/*\nmethod\tGET\nmethod\tPOST\n" \
    "constraint\tauth\nallow\tCONTRACTOR\nallow\tHOMEOWNER\n" /* SC4 */ \
    "collection\npattern\t/acme/retail/*\nmethod\tGET\nmethod\tPOST\n"

static void servlet(void)
{
    listing(EXAMPLE);
    /* Example 1's words: SC1 denies DELETE and PUT on all three patterns */
    question("/x", "DELETE", "CONTRACTOR", CLOSED, "Example 1: /* DELETE");
    question("/x", "PUT", NULL, CLOSED, "Example 1: /* PUT");
    question("/acme/wholesale/x", "DELETE", "CONTRACTOR", CLOSED, "Example 1: wholesale DELETE");
    question("/acme/retail/x", "DELETE", "HOMEOWNER", CLOSED, "Example 1: retail DELETE");
    question("/acme/retail/x", "PUT", NULL, CLOSED, "Example 1: retail PUT");
    /* "SALESCLERK cannot access via PUT due to SC1" */
    question("/acme/wholesale/x", "PUT", "SALESCLERK", CLOSED, "Example 1: wholesale PUT");
    /* "Both roles can use the GET method": Example 3 (i), {s, c} */
    question("/acme/wholesale/b", "GET", "SALESCLERK", BY_ROLE, "Example 3 (i), SALESCLERK");
    question("/acme/wholesale/b", "GET", "CONTRACTOR", BY_ROLE, "Example 3 (i), CONTRACTOR");
    question("/acme/wholesale/b", "GET", "HOMEOWNER", ROLE_LACKING, "Example 3 (i), HOMEOWNER");
    question("/acme/wholesale/b", "GET", NULL, LOGIN_WANTED, "Example 3 (i), not logged in");
    /* "CONTRACTOR may access via POST" */
    question("/acme/wholesale/x", "POST", "CONTRACTOR", BY_ROLE, "Example 1: wholesale POST");
    question("/acme/wholesale/x", "POST", "SALESCLERK", ROLE_LACKING,
             "Example 1: wholesale POST, SALESCLERK");
    /* "SC4 allows both CONTRACTOR and HOMEOWNER users" */
    question("/acme/retail/x", "GET", "CONTRACTOR", BY_ROLE, "Example 1: retail GET, CONTRACTOR");
    question("/acme/retail/x", "POST", "HOMEOWNER", BY_ROLE, "Example 1: retail POST, HOMEOWNER");
    question("/acme/retail/x", "GET", "SALESCLERK", ROLE_LACKING, "Example 1: retail GET, SALESCLERK");
    /* "all the other methods are unconstrained" */
    question("/acme/retail/x", "HEAD", NULL, OPEN, "Example 1: retail HEAD, which nothing names");
    /* Example 3 (ii): no role; (iii): no constraint applies */
    question("/acme/wholesale", "PUT", "SALESCLERK", CLOSED, "Example 3 (ii)");
    question("/b", "GET", NULL, OPEN, "Example 3 (iii)");
    /* Example 4, without SC5 */
    question("/acme", "GET", NULL, OPEN, "Example 4 without SC5: GET");
    question("/acme", "DELETE", "HOMEOWNER", CLOSED, "Example 4 without SC5: DELETE");
    /* Examples 2 and 4, with SC5: /acme is more specific than SC1's, but names
     * GET alone.  (The paper's own formula (11) says otherwise.) */
    listing(EXAMPLE "constraint\tauth\nallow\tHOMEOWNER\n"
            "collection\npattern\t/acme\nmethod\tGET\n");
    question("/acme", "PUT", NULL, OPEN, "Example 2: PUT");
    question("/acme", "DELETE", NULL, OPEN, "Examples 2 and 4 with SC5: DELETE");
    question("/acme", "GET", "HOMEOWNER", BY_ROLE, "Example 4 with SC5: GET, HOMEOWNER");
    question("/acme", "GET", "CONTRACTOR", ROLE_LACKING, "Example 4 with SC5: GET, CONTRACTOR");
    question("/acme", "GET", NULL, LOGIN_WANTED, "Example 4 with SC5: GET, not logged in");
}

/* A path of a length: a start, then so many of a byte. */
static void long_path(const char *start, char byte, size_t length, unsigned outcome,
                      const char *purpose)
{
    set(&m.path, start);
    many(&m.path, byte, length - strlen(start));
    ask(outcome, purpose);
}

/* 02, Item 1: "In every segment drop the bytes from the first `;` up to the
 * next `/` or the end, then match; the 1,024 limit counts the bytes before
 * dropping." */
static void parameters(void)
{
    request("/", "GET", 0, "");
    listing("constraint\tauth\ncollection\npattern\t/a/b\n");
    path_is("/a/b;s=12", CLOSED, "a parameter at the end of /a/b");
    path_is("/a;s=12/b", CLOSED, "a parameter in the middle of /a/b");
    path_is("/a;s=12/b;s=12", CLOSED, "a parameter in each segment of /a/b");
    path_is("/a;x;y/b;;z", CLOSED, "several in a segment of /a/b");
    path_is("/a;/b", CLOSED, "an empty parameter in /a/b");
    path_is("/a/b;", CLOSED, "an empty parameter behind /a/b");
    path_is("/a/b;x/", OPEN, "the / behind a parameter stays: /a/b/");
    path_is("/a;x/b/c", OPEN, "what follows a parameter's segment stays: /a/b/c");
    path_is("/a/;x/b", OPEN, "a segment of a parameter alone stays, empty: /a//b");
    path_is("/;x/a/b", OPEN, "a first segment of a parameter alone: //a/b");
    path_is("/a;/b/", OPEN, "a parameter before the last / but one: /a/b/");
    path_is("/a/b=s;12", OPEN, "only what follows the ; is dropped: /a/b=s");
    path_is("/a/b%3Bs=12", OPEN, "an escaped ; is no ;");
    path_is("/a/;b", OPEN, "a segment's text behind its ; is dropped: /a/");
    /* 11 is of the path as received */
    path_is(";/a/b", 11, "a ; before the first /: 11");
    path_is(";", 11, "a ; alone: 11");
    path_is("/a/b;\t", 11, "byte 9 in a parameter: 11");
    path_is("/a;\x7f/b", 11, "byte 127 in a parameter: 11");
    path_is("/a/b; \x80\xff", CLOSED, "a space and bytes above 127 in a parameter");
    long_path("/a/b;", 'x', 1024, CLOSED, "1,024 bytes, 4 after dropping");
    long_path("/a/b;", 'x', 1025, 11, "1,025 bytes, 4 after dropping: 11");
    long_path("/a/b", ';', 1024, CLOSED, "1,024 bytes, all but 4 a ;");
    long_path("/a/b", ';', 1025, 11, "1,025 bytes, all but 4 a ;: 11");
    /* each kind of pattern */
    listing("constraint\tauth\ncollection\npattern\t/clock/*\n");
    path_is("/clock;s=12", CLOSED, "/clock;s=12 against /clock/*");
    path_is("/clock;s=12/x", CLOSED, "/clock;s=12/x against /clock/*");
    path_is("/clock;work", CLOSED, "/clock;work against /clock/*");
    path_is("/clockwork;x", OPEN, "/clockwork;x against /clock/*");
    path_is("/clo;ck/x", OPEN, "/clo;ck/x against /clock/*");
    path_is("/x;/clock/y", OPEN, "/x;/clock/y against /clock/*");
    listing("constraint\tauth\ncollection\npattern\t*.csv\n");
    path_is("/x.csv;v=1", CLOSED, "/x.csv;v=1 against *.csv");
    path_is("/x.csv;v=1.txt", CLOSED, "/x.csv;v=1.txt against *.csv");
    path_is("/x.c;v=1sv", OPEN, "/x.c;v=1sv against *.csv");
    path_is("/x;v=1.csv", OPEN, "/x;v=1.csv against *.csv");
    path_is("/x;.csv", OPEN, "/x;.csv against *.csv");
    path_is("/x.;csv", OPEN, "/x.;csv against *.csv");
    path_is("/x.csv;v/", OPEN, "/x.csv;v/ against *.csv");
    path_is("/x;a.b/y.csv;c.d", CLOSED, "/x;a.b/y.csv;c.d against *.csv");
    listing("constraint\tauth\ncollection\npattern\t\n");
    path_is("/;x", CLOSED, "/;x against the empty pattern");
    path_is("/;", CLOSED, "/; against the empty pattern");
    path_is("/;/", OPEN, "/;/ against the empty pattern");
    path_is("/x;", OPEN, "/x; against the empty pattern");
    listing("constraint\tauth\ncollection\npattern\t//*\n");
    path_is("/;/", CLOSED, "/;/ against //*");
    path_is("/;x", CLOSED, "/;x against //*: it is its P");
    path_is("/;x/y", CLOSED, "/;x/y against //*");
    listing("constraint\tauth\ncollection\npattern\t/\n");
    path_is("/;x", CLOSED, "/;x against /");
    path_is("/a;x/b", CLOSED, "/a;x/b against /");
    /* the best match is of the path without them */
    listing("constraint\tauth\ncollection\npattern\t/*\n"
            "constraint\topen\ncollection\npattern\t/a/*\n"
            "constraint\tauth\nallow\ta;b\ncollection\npattern\t/a/x\n");
    path_is("/a;x", OPEN, "a parameter behind the longer P");
    path_is("/a/x;y", LOGIN_WANTED, "a parameter behind the exact text");
    path_is("/ax;y", CLOSED, "a parameter behind neither");
    /* names and methods keep their bytes */
    caller_is(1, "a;b\n", CLOSED, "a role name with a ;, on a closed path");
    set(&m.path, "/a/x;y");
    ask(BY_ROLE, "a role name with a ;");
    caller_is(1, "a\n", ROLE_LACKING, "the role name up to its ;");
    caller_is(1, "a;c\n", ROLE_LACKING, "the role name with something else behind its ;");
    caller_is(1, "a;b/\n", ROLE_LACKING, "the role name and a /");
    method_is("G;T", 12, "a ; in a method: 12");
    /* 02's own: worked request 8 and its neighbours, with a mark */
    listing("role\tadjuster\nrole\tassessor\nrole\towner\n"
            "constraint\tauth\ncollection\npattern\t/*\nmethod\tDELETE\n"
            "constraint\tauth\nallow\tassessor\ncollection\npattern\t/clock/*\nomit\tGET\n"
            "constraint\topen\ncollection\npattern\t*.csv\n"
            "constraint\tauth\nallow\t*\ncollection\npattern\t/clock/offset\nmethod\tGET\n");
    question("/clock/offset;s=12", "GET", NULL, LOGIN_WANTED, "/clock/offset;s=12, not logged in");
    question("/clock/offset;s=12", "GET", "owner", BY_ROLE, "/clock/offset;s=12, a declared role");
    question("/clock/offset;s=12", "PUT", NULL, OPEN, "/clock/offset;s=12, an uncovered method");
    question("/clock;s=12/offset", "GET", NULL, LOGIN_WANTED, "/clock;s=12/offset, not logged in");
    question("/clock/offset;s=12/x", "PUT", "owner", ROLE_LACKING, "/clock/offset;s=12/x, below the prefix");
    question("/log.csv;s=12", "DELETE", "assessor", CLOSED, "/log.csv;s=12, the prefix of all");
}

int main(int argc, char **argv)
{
    char name[4096];
    if (argc != 2) {
        fprintf(stderr, "decide_edges FOLDER\n");
        return 2;
    }
    m.folder = argv[1];
    m.listing.most = 24577;
    m.path.most = 2000;
    m.method.most = 100;
    m.roles.most = 4000;
    snprintf(name, sizeof name, "%s/index", m.folder);
    m.index = fopen(name, "wb");
    if (m.index == NULL) {
        fprintf(stderr, "cannot write %s\n", name);
        return 2;
    }
    paths();
    methods();
    callers();
    order();
    slash();
    matching();
    collections();
    star();
    answers();
    worked();
    servlet();
    parameters();
    if (fclose(m.index) != 0) {
        fprintf(stderr, "cannot write %s\n", name);
        return 2;
    }
    return 0;
}
