/* edges.c: writes test listings into a folder and prints what the literal
 * reader answers to each.
 *
 *   edges FOLDER
 *
 * Writes FOLDER/case000, FOLDER/case001, .. and FOLDER/index (a line `caseNNN
 * what it is for` each), and prints a line `caseNNN NUMBER SIDE LINE` each.
 * Exit 1 if the yardstick answers otherwise.
 * What a case is for stands in its call of finish() and so in the index; where
 * the text of 01 (or 02) is at work the comment above says which.
 */
#include "second.h"
#include "yardstick.h"

#include <stdio.h>
#include <stdlib.h>
#include <string.h>

struct maker {
    uint8_t bytes[65536];
    size_t length;
    const char *folder;
    FILE *index;
    unsigned cases;
};

static void add(struct maker *m, const void *bytes, size_t n)
{
    if (n > sizeof m->bytes - m->length)
        abort();
    memcpy(m->bytes + m->length, bytes, n);
    m->length += n;
}

static void say(struct maker *m, const char *s) { add(m, s, strlen(s)); }

static void many(struct maker *m, char byte, size_t n)
{
    for (size_t i = 0; i < n; i++)
        add(m, &byte, 1);
}

static void numbered(struct maker *m, const char *before, unsigned number, const char *behind)
{
    char s[128];
    int n = snprintf(s, sizeof s, "%s%u%s", before, number, behind);
    add(m, s, (size_t)n);
}

static void begin(struct maker *m)
{
    m->length = 0;
    say(m, "constraints\t1\n");
}

static void finish(struct maker *m, const char *purpose)
{
    static uint32_t work[4096];
    char name[4096];
    snprintf(name, sizeof name, "%s/case%03u", m->folder, m->cases);
    FILE *f = fopen(name, "wb");
    if (f == NULL || fwrite(m->bytes, 1, m->length, f) != m->length || fclose(f) != 0) {
        fprintf(stderr, "cannot write %s\n", name);
        exit(2);
    }
    struct second_report r = second_read(m->bytes, m->length, work, 4096);
    struct yardstick_report y = yardstick_read(m->bytes, m->length, work, 4096);
    if (y.number != r.number || y.side != r.side || y.line != r.line) {
        fprintf(stderr, "case%03u: the yardstick answers %u %u %u\n", m->cases, y.number, y.side,
                y.line);
        exit(1);
    }
    printf("case%03u %u %u %u\n", m->cases, r.number, r.side, r.line);
    fprintf(m->index, "case%03u %s\n", m->cases, purpose);
    m->cases++;
}

/* A whole listing given as text. */
static void whole(struct maker *m, const char *text, const char *purpose)
{
    m->length = 0;
    say(m, text);
    finish(m, purpose);
}

/* The first line, then this. */
static void after_first(struct maker *m, const char *text, const char *purpose)
{
    begin(m);
    say(m, text);
    finish(m, purpose);
}

/* One role line with this name, then end. */
static void role(struct maker *m, const char *name, const char *purpose)
{
    begin(m);
    say(m, "role\t");
    say(m, name);
    say(m, "\nend\n");
    finish(m, purpose);
}

#define BODY "constraint\tauth\ncollection\npattern\t/\n"

/* One allow line with this name. */
static void allow(struct maker *m, const char *name, const char *purpose)
{
    begin(m);
    say(m, "constraint\tauth\nallow\t");
    say(m, name);
    say(m, "\ncollection\npattern\t/\nend\n");
    finish(m, purpose);
}

/* One method line with this name. */
static void method(struct maker *m, const char *name, const char *purpose)
{
    begin(m);
    say(m, BODY "method\t");
    say(m, name);
    say(m, "\nend\n");
    finish(m, purpose);
}

/* One pattern line with this text. */
static void pattern(struct maker *m, const char *text, const char *purpose)
{
    begin(m);
    say(m, "constraint\topen\ncollection\npattern\t");
    say(m, text);
    say(m, "\nend\n");
    finish(m, purpose);
}

/* A pattern of a length: a start, then so many x, then an end. */
static void long_pattern(struct maker *m, const char *start, size_t length, const char *tail,
                         const char *purpose)
{
    begin(m);
    say(m, "constraint\topen\ncollection\npattern\t");
    say(m, start);
    many(m, 'x', length - strlen(start) - strlen(tail));
    say(m, tail);
    say(m, "\nend\n");
    finish(m, purpose);
}

static void roles(struct maker *m, unsigned from, unsigned to)
{
    for (unsigned i = from; i < to; i++)
        numbered(m, "role\tr", i, "\n");
}

static void methods(struct maker *m, const char *record, unsigned from, unsigned to)
{
    for (unsigned i = from; i < to; i++) {
        say(m, record);
        numbered(m, "\tM", i, "\n");
    }
}

static void constraints(struct maker *m, unsigned count)
{
    for (unsigned i = 0; i < count; i++) {
        say(m, i % 2 == 0 ? "constraint\topen\ncollection\n" : "constraint\tauth\ncollection\n");
        numbered(m, "pattern\t/c", i, "\n");
    }
}

static void collections(struct maker *m, unsigned count)
{
    for (unsigned i = 0; i < count; i++)
        numbered(m, "collection\npattern\t/l", i, "\n");
}

static void patterns(struct maker *m, unsigned count)
{
    for (unsigned i = 0; i < count; i++)
        numbered(m, "pattern\t/p", i, "\n");
}

/* So many method lines over four names. */
static void method_lines(struct maker *m, const char *record, unsigned count)
{
    for (unsigned i = 0; i < count; i++) {
        say(m, record);
        numbered(m, "\tM", i % 4, "\n");
    }
}

/* A good listing of a length (24,000 to 30,000): allow lines, then the rest by
 * one pattern. */
static void good_of_length(struct maker *m, size_t length, const char *tail)
{
    static const char rest[] = "collection\npattern\t/";
    begin(m);
    say(m, "constraint\tauth\n");
    while (m->length + 200 < length)
        say(m, "allow\ta\n");
    say(m, rest);
    many(m, 'x', length - m->length - 1 - strlen(tail));
    say(m, "\n");
    say(m, tail);
}

static void accepted_ones(struct maker *m)
{
    /* "`end`: may follow the first line" */
    after_first(m, "end\n", "the shortest listing, accepted");
    after_first(m, "role\ta\nend\n", "end after role, accepted");
    after_first(m, "role\ta\nrole\tb\nconstraint\topen\ncollection\npattern\t/a\npattern\t/b\n"
                "method\tGET\nmethod\tPUT\ncollection\npattern\t*.c\nomit\tGET\nomit\tPUT\n"
                "constraint\tauth\nallow\ta\nallow\t*\ncollection\npattern\t\npattern\t/\n"
                "constraint\tauth\ncollection\npattern\t/d/*\nend\n",
                "every record at every place it may take, accepted");
    after_first(m, "role\ta\nconstraint\tauth\nallow\ta\nallow\ta\nallow\tb\nallow\tb\n"
                "collection\npattern\t/a\npattern\t/a\nmethod\tGET\nmethod\tGET\nend\n",
                "repeats of allow, pattern and method, accepted");
}

static void first_lines(struct maker *m)
{
    /* 3: "first line isn't as above, or lacks its byte 10, or no bytes" */
    whole(m, "", "no bytes: 3");
    whole(m, "constraints\t1", "the first line without its byte 10: 3");
    whole(m, "constraints\t1\n", "the first line alone: 10 at line 2");
    whole(m, "\n", "an empty first line: 3");
    whole(m, "\nconstraints\t1\nend\n", "an empty line before the first: 3");
    whole(m, "constraints\t1\r\nend\n", "a carriage return in the first line: 3");
    whole(m, "\xef\xbb\xbf" "constraints\t1\nend\n", "a byte order mark: 3");
    whole(m, "constraints\t2\nend\n", "another version: 3");
    whole(m, "constraints 1\nend\n", "a space for the first line's tab: 3");
    whole(m, "constraints\t1\t\nend\n", "a tab more in the first line: 3");
    whole(m, "constraints\t1 \nend\n", "a space at the first line's end: 3");
    whole(m, "constraints\nend\n", "the first line without its second field: 3");
    whole(m, "end\n", "end as the first line: 3");
    m->length = 0;
    add(m, "constraints\t1\0\nend\n", 19);
    finish(m, "a NUL in the first line: 3");
}

static void fields(struct maker *m)
{
    /* 4: "on a later line: unknown record name, wrong number of fields, or no
     *  byte 10" */
    after_first(m, "rule\ta\nend\n", "an unknown record: 4");
    after_first(m, "Role\ta\nend\n", "another case in a record name: 4");
    after_first(m, "\nend\n", "an empty line: 4");
    after_first(m, "\t\nend\n", "a lone tab: 4");
    after_first(m, "role\nend\n", "role without a field: 4");
    after_first(m, "role\ta\tb\nend\n", "role with three fields: 4");
    after_first(m, "role\t\ta\nend\n", "two tabs are three fields: 4");
    after_first(m, "role a\nend\n", "a space for a tab: 4");
    after_first(m, " role\ta\nend\n", "a space before a record: 4");
    after_first(m, "constraint\topen\ncollection\t\npattern\t/\nend\n", "collection with a tab: 4");
    after_first(m, "end\t\n", "end with a tab: 4");
    after_first(m, "constraint\topen\ncollection\npattern\nend\n", "pattern without a field: 4");
    after_first(m, "constraint\topen\ncollection\npattern\t/a\tb\nend\n", "a tab inside a pattern: 4");
    after_first(m, "constraint\ncollection\npattern\t/\nend\n", "constraint without a field: 4");
    after_first(m, "constraint\topen\t\ncollection\npattern\t/\nend\n", "constraint with three fields: 4");
    after_first(m, "role\ta", "role unended: 4");
    after_first(m, "end", "end unended: 4");
    after_first(m, "constraint\tauth\nend", "end in a wrong place and unended: 4");
    after_first(m, "end\r\n", "end with a carriage return: 4");
    after_first(m, "constraint\topen\ncollection\r\npattern\t/\nend\n",
                "collection with a carriage return: 4");
    after_first(m, "constraints\t1\nend\n", "the first line again: 4");
    begin(m);
    add(m, "\0\nend\n", 6);
    finish(m, "a NUL as a record: 4");
}

static void places(struct maker *m)
{
    /* 5: "record in a wrong place" */
    after_first(m, "constraint\topen\nrole\ta\nend\n", "role after constraint: 5");
    after_first(m, BODY "role\ta\nend\n", "role after pattern: 5");
    after_first(m, "constraint\topen\nallow\ta\ncollection\npattern\t/\nend\n",
                "allow after constraint open: 5");
    after_first(m, "constraint\topen\nallow\t \ncollection\npattern\t/\nend\n",
                "a bad allow after constraint open: 5 before 6");
    after_first(m, "allow\ta\nend\n", "allow after the first line: 5");
    after_first(m, "constraint\topen\nconstraint\topen\n", "constraint after constraint open: 5");
    after_first(m, "constraint\tauth\nconstraint\tauth\n", "constraint after constraint auth: 5");
    after_first(m, "constraint\tauth\nallow\ta\nconstraint\topen\n", "constraint after allow: 5");
    after_first(m, "constraint\tauth\ncollection\nconstraint\topen\n", "constraint after collection: 5");
    /* the place is looked at before the kind */
    after_first(m, "constraint\tauth\nconstraint\tbogus\n", "a misplaced constraint of no kind: 5 before 6");
    after_first(m, "collection\npattern\t/\nend\n", "collection after the first line: 5");
    after_first(m, "role\ta\ncollection\n", "collection after role: 5");
    after_first(m, "constraint\topen\ncollection\ncollection\n", "collection after collection: 5");
    after_first(m, "pattern\t/\n", "pattern after the first line: 5");
    after_first(m, "constraint\topen\npattern\t/\nend\n", "pattern after constraint: 5");
    after_first(m, BODY "method\tGET\npattern\t/a\nend\n", "pattern after method: 5");
    after_first(m, BODY "omit\tGET\npattern\t/a\nend\n", "pattern after omit: 5");
    after_first(m, "constraint\topen\ncollection\nmethod\tGET\n", "method after collection: 5");
    after_first(m, BODY "omit\tGET\nmethod\tPUT\nend\n", "method after omit: 5");
    after_first(m, BODY "method\tGET\nomit\tPUT\nend\n", "omit after method: 5");
    after_first(m, "constraint\topen\nend\n", "end after constraint: 5");
    after_first(m, "constraint\tauth\nallow\ta\nend\n", "end after allow: 5");
    after_first(m, "constraint\topen\ncollection\nend\n", "end after collection: 5");
    after_first(m, BODY "method\tGET\nallow\ta\nend\n", "allow after method: 5");
}

static void names(struct maker *m)
{
    char text[80];
    /* "Role names: 1 to 64 text bytes, no space first or last; `*` is only for
     *  `allow`." */
    role(m, "", "an empty role name: 6");
    memset(text, 'x', sizeof text);
    text[64] = 0;
    role(m, text, "a role name of 64 bytes, accepted");
    text[64] = 'x';
    text[65] = 0;
    role(m, text, "a role name of 65 bytes: 6");
    allow(m, text, "an allowed name of 65 bytes: 6");
    role(m, " a", "a space first in a role name: 6");
    role(m, "a ", "a space last in a role name: 6");
    role(m, "a b", "a space inside a role name, accepted");
    role(m, "a\r", "a carriage return in a role name: 6");
    role(m, "\x7f", "byte 127 in a role name: 6");
    role(m, "\x1f", "byte 31 in a role name: 6");
    role(m, "\x80\xff~!", "bytes 128, 255, 126 and 33 in a role name, accepted");
    role(m, "*", "the star as a declared role: 6");
    role(m, "**", "two stars as a declared role, accepted");
    allow(m, "*", "the star allowed, accepted");
    allow(m, "**", "two stars allowed, accepted");
    allow(m, "* ", "the star and a space allowed: 6");
    allow(m, "", "an empty allowed name: 6");
    begin(m);
    add(m, "role\ta\0b\nend\n", 13);
    finish(m, "a NUL in a role name: 6");
    /* "Methods: 1 to 24 token bytes, case kept." */
    method(m, "xxxxxxxxxxxxxxxxxxxxxxxx", "a method of 24 bytes, accepted");
    method(m, "xxxxxxxxxxxxxxxxxxxxxxxxx", "a method of 25 bytes: 6");
    method(m, "", "an empty method: 6");
    method(m, "*", "the star as a method, accepted");
    method(m, "!#$%&'*+-.^_`|~09AZaz", "all marks of a token, accepted");
    method(m, "G T", "a space in a method: 6");
    method(m, "G/T", "a slash in a method: 6");
    method(m, "\xe9", "byte 233 in a method: 6");
    method(m, "GET\r", "a carriage return in a method: 6");
    after_first(m, BODY "omit\t(\nend\n", "a parenthesis as an omitted method: 6");
    /* "`constraint=>open` or `constraint=>auth`" */
    after_first(m, "constraint\tbogus\ncollection\npattern\t/\nend\n", "a constraint of no kind: 6");
    after_first(m, "constraint\t\ncollection\npattern\t/\nend\n", "a constraint of an empty kind: 6");
    after_first(m, "constraint\tOpen\ncollection\npattern\t/\nend\n", "another case in a kind: 6");
    after_first(m, "constraint\topen\r\ncollection\npattern\t/\nend\n",
                "a carriage return after a kind: 6");
}

static void pattern_kinds(struct maker *m)
{
    /* the good kinds */
    pattern(m, "", "the empty pattern, accepted");
    after_first(m, "constraint\topen\ncollection\npattern\t/\npattern\t/*\npattern\t//*\npattern\t/a/*\n"
                "pattern\t/a*/*\npattern\t*.a\npattern\t*.a b\npattern\t*. a\npattern\t*.+\npattern\t/a\n"
                "pattern\t/a*\npattern\t/a/\npattern\t/*/a\npattern\t/*.a\npattern\t//\npattern\t/ a\n"
                "pattern\t/\x80\xff\npattern\t/a/*x\npattern\t/**\npattern\t/:\nend\n",
                "twenty good patterns of all kinds, accepted");
    /* "a pattern of 255 bytes passes, 256 gives 7" */
    long_pattern(m, "/", 255, "", "an exact pattern of 255 bytes, accepted");
    long_pattern(m, "/", 256, "", "an exact pattern of 256 bytes: 7");
    long_pattern(m, "/", 255, "/*", "a prefix of 255 bytes, accepted");
    long_pattern(m, "/", 256, "/*", "a prefix of 256 bytes: 7");
    long_pattern(m, "*.", 255, "", "an extension pattern of 255 bytes, accepted");
    long_pattern(m, "*.", 256, "", "an extension pattern of 256 bytes: 7");
    /* "all other text is refused" */
    pattern(m, "*", "a star alone: 7");
    pattern(m, "**", "two stars: 7");
    pattern(m, "*a", "a star and a letter: 7");
    pattern(m, "*.", "an extension of no bytes: 7");
    pattern(m, "*.a.b", "an extension with a dot: 7");
    pattern(m, "*.a/b", "an extension with a slash: 7");
    pattern(m, "*./*", "an extension with a slash and a star: 7");
    pattern(m, "*.a*", "an extension with a star: 7");
    pattern(m, "*.abcdefghijklmnop*", "an extension with a star far behind: 7");
    pattern(m, "a", "no slash first: 7");
    pattern(m, "a/*", "a prefix without its first slash: 7");
    pattern(m, ".a", "a dot first: 7");
    pattern(m, " /a", "a space before the slash: 7");
    pattern(m, " ", "a space alone: 7");
    pattern(m, "/a ", "a space last: 7");
    pattern(m, "/* ", "a space after a prefix: 7");
    pattern(m, "*.a ", "a space after an extension: 7");
    pattern(m, "/a\r", "a carriage return in a pattern: 7");
    pattern(m, "/\x7f", "byte 127 in a pattern: 7");
    pattern(m, "/a\x1f" "b", "byte 31 in a pattern: 7");
    begin(m);
    say(m, "constraint\topen\ncollection\n");
    add(m, "pattern\t/\0\nend\n", 15);
    finish(m, "a NUL in a pattern: 7");
}

static void twice(struct maker *m)
{
    /* 9: "role declared twice" */
    after_first(m, "role\ta\nrole\ta\nend\n", "a role declared twice: 9");
    after_first(m, "role\ta\nrole\tb\nrole\tA\nrole\ta\nend\n", "the first role again at last: 9");
    begin(m);
    roles(m, 0, 32);
    say(m, "role\tr31\nend\n");
    finish(m, "a role twice after 32 of them: 9, not 8");
}

static void limits(struct maker *m)
{
    /* 8: "a most-number other than 2's passed by this line" */
    begin(m);
    roles(m, 0, 32);
    say(m, "constraint\tauth\nallow\t*\nallow\tr0\nallow\tr31\ncollection\npattern\t/\nend\n");
    finish(m, "32 roles, the star not counted, accepted");
    begin(m);
    roles(m, 0, 33);
    say(m, "end\n");
    finish(m, "33 roles: 8");
    begin(m);
    roles(m, 0, 32);
    say(m, "constraint\tauth\nallow\tr32\ncollection\npattern\t/\nend\n");
    finish(m, "the 33rd role name first seen on an allow line: 8");
    begin(m);
    say(m, "constraint\tauth\n");
    for (unsigned i = 0; i < 33; i++)
        numbered(m, "allow\tr", i, "\n");
    say(m, "collection\npattern\t/\nend\n");
    finish(m, "33 names allowed and none declared: 8");
    begin(m);
    say(m, BODY);
    methods(m, "method", 0, 31);
    methods(m, "method", 0, 31);
    say(m, "end\n");
    finish(m, "31 distinct methods, each twice, accepted");
    begin(m);
    say(m, BODY);
    methods(m, "method", 0, 32);
    say(m, "end\n");
    finish(m, "32 distinct methods: 8");
    begin(m);
    say(m, BODY);
    methods(m, "method", 0, 20);
    say(m, "collection\npattern\t/a\n");
    methods(m, "omit", 20, 31);
    methods(m, "omit", 0, 20);
    say(m, "end\n");
    finish(m, "31 distinct methods over method and omit, accepted");
    begin(m);
    say(m, BODY);
    methods(m, "method", 0, 20);
    say(m, "collection\npattern\t/a\n");
    methods(m, "omit", 20, 32);
    say(m, "end\n");
    finish(m, "the 32nd distinct method on an omit line: 8");
    begin(m);
    constraints(m, 64);
    say(m, "end\n");
    finish(m, "64 constraints, accepted");
    begin(m);
    constraints(m, 65);
    say(m, "end\n");
    finish(m, "65 constraints: 8");
    begin(m);
    say(m, "constraint\topen\n");
    collections(m, 128);
    say(m, "end\n");
    finish(m, "128 collections and patterns, accepted");
    begin(m);
    say(m, "constraint\topen\n");
    collections(m, 128);
    say(m, "collection\nend\n");
    finish(m, "129 collections: 8");
    begin(m);
    say(m, "constraint\topen\ncollection\n");
    patterns(m, 128);
    say(m, "end\n");
    finish(m, "128 patterns in one collection, accepted");
    begin(m);
    say(m, "constraint\topen\ncollection\n");
    patterns(m, 129);
    say(m, "end\n");
    finish(m, "129 patterns: 8");
    begin(m);
    say(m, BODY);
    method_lines(m, "method", 256);
    say(m, "collection\npattern\t/a\n");
    method_lines(m, "omit", 256);
    say(m, "end\n");
    finish(m, "512 method and omit lines, accepted");
    begin(m);
    say(m, BODY);
    method_lines(m, "method", 256);
    say(m, "collection\npattern\t/a\n");
    method_lines(m, "omit", 257);
    say(m, "end\n");
    finish(m, "the 513th of the method and omit lines: 8");
}

static void ends(struct maker *m)
{
    /* 10: "no `end`, or bytes after it" */
    after_first(m, "role\ta\n", "no end after role: 10 at the line after the last");
    after_first(m, BODY, "no end after pattern: 10 at the line after the last");
    after_first(m, "constraint\topen\n", "no end after constraint: 10, nothing else");
    after_first(m, "end\n\n", "an empty line after end: 10");
    after_first(m, "end\nx", "a byte after end: 10, not 4");
    after_first(m, "end\nend\n", "end twice: 10, not 5");
    after_first(m, "role\ta\nend\nrole\ta\nrole\ta\n", "good lines after end: 10 at the first");
    begin(m);
    add(m, "end\n\0", 5);
    finish(m, "a NUL after end: 10");
}

static void sizes(struct maker *m)
{
    /* 2: "listing over 24,576 bytes" */
    good_of_length(m, 24576, "end\n");
    finish(m, "a good listing of 24,576 bytes, accepted");
    good_of_length(m, 24577, "end\n");
    finish(m, "else good, of 24,577 bytes: 2");
    good_of_length(m, 24576, "end");
    finish(m, "24,576 bytes, end unended: 4");
    good_of_length(m, 24576, "end\n\n");
    finish(m, "24,576 bytes, the last after end: 10");
    good_of_length(m, 24576, "");
    finish(m, "24,576 bytes without end: 10");
    m->length = 0;
    many(m, 'x', 24576);
    finish(m, "24,576 bytes of garbage: 3");
    many(m, 'x', 1);
    finish(m, "24,577 bytes of garbage: 2 before 3");
    m->length = 0;
    many(m, '\n', 24577);
    finish(m, "24,577 bytes 10: 2 before 3");
}

static void two_faults(struct maker *m)
{
    /* "within a line 4, 5, 6, 7, 9, 8": every two that one line can have */
    after_first(m, "constraint\topen\nrole\ta\tb\n", "4 before 5: three fields, misplaced");
    after_first(m, "role\t*\t\nend\n", "4 before 6: three fields, the star");
    after_first(m, "constraint\topen\ncollection\npattern\tx\ty\nend\n", "4 before 7: a tab in a bad pattern");
    after_first(m, "role\ta\nrole\ta\t\nend\n", "4 before 9: three fields, declared before");
    begin(m);
    constraints(m, 64);
    say(m, "constraint\topen\topen\n");
    finish(m, "4 before 8: the 65th constraint with three fields");
    after_first(m, "constraint\topen\nrole\t*\n", "5 before 6: misplaced, the star");
    after_first(m, BODY "method\tGET\npattern\tx\nend\n", "5 before 7: a bad pattern, misplaced");
    after_first(m, "role\ta\n" BODY "role\ta\nend\n", "5 before 9: declared before, misplaced");
    begin(m);
    say(m, "constraint\topen\ncollection\n");
    patterns(m, 128);
    say(m, "method\tGET\npattern\t/x\nend\n");
    finish(m, "5 before 8: the 129th pattern, misplaced");
    begin(m);
    roles(m, 0, 32);
    say(m, "role\t x\nend\n");
    finish(m, "6 before 8: a bad role after 32");
    begin(m);
    say(m, BODY);
    method_lines(m, "omit", 512);
    say(m, "omit\t\nend\n");
    finish(m, "6 before 8: a bad method on the 513th line");
    begin(m);
    constraints(m, 64);
    say(m, "constraint\tbogus\n");
    finish(m, "6 before 8: the 65th constraint of no kind");
    begin(m);
    say(m, "constraint\topen\ncollection\n");
    patterns(m, 128);
    say(m, "pattern\tx\nend\n");
    finish(m, "7 before 8: a bad 129th pattern");
    /* "lines top down" */
    after_first(m, "role\ta\nrole\ta\nbogus\n\n", "9 on a line before 4");
    after_first(m, "constraint\topen\ncollection\npattern\tx\nmethod\t(\nallow\ta\nbogus",
                "7, 6, 5 and 4 on lines one after the other: 7");
    after_first(m, "bogus\nend\nx", "4 on a line before 10");
}

static void semicolons(struct maker *m)
{
    /* 02, Item 1: "a pattern with `;` gives 7" */
    pattern(m, ";", "a ; alone: 7");
    pattern(m, "/;", "a ; behind the slash: 7");
    pattern(m, ";/a", "a ; before the slash: 7");
    pattern(m, "/a;b", "a ; in an exact pattern: 7");
    pattern(m, "/a/b;", "a ; last in an exact pattern: 7");
    pattern(m, "/a;/*", "a ; last in a prefix: 7");
    pattern(m, "/a;s=1/b/*", "a ; in the middle of a prefix: 7");
    pattern(m, "/;*", "a ; and a star: 7");
    pattern(m, "*.;", "a ; as an extension: 7");
    pattern(m, "*.abcdefghijklmnop;", "a ; far behind in an extension: 7");
    pattern(m, "*;.a", "a ; before the dot of an extension: 7");
    long_pattern(m, "/", 255, ";", "a ; as the last of 255 bytes: 7");
    /* "drop the bytes from the first `;`" is of paths: names keep theirs */
    role(m, "a;b", "a ; in a role name, accepted");
    allow(m, ";", "a ; as an allowed name, accepted");
    method(m, "G;T", "a ; in a method, no token byte: 6");
    /* "within a line 4, 5, 6, 7, 9, 8"; "lines top down" */
    after_first(m, "constraint\topen\ncollection\npattern\t/a;\tb\nend\n", "4 before 7: a tab behind a ;");
    after_first(m, BODY "method\tGET\npattern\t/a;b\nend\n", "5 before 7: a ; in a misplaced pattern");
    begin(m);
    say(m, "constraint\topen\ncollection\n");
    patterns(m, 128);
    say(m, "pattern\t/a;b\nend\n");
    finish(m, "7 before 8: a ; in the 129th pattern");
    after_first(m, "constraint\topen\ncollection\npattern\t/a\npattern\t/b;\nmethod\t(\nend\n",
                "a ; in the second pattern: 7 at its line, before 6 at the next");
    after_first(m, "role\ta\nrole\ta\nconstraint\topen\ncollection\npattern\t;\nend\n",
                "9 on a line before a ;");
}

int main(int argc, char **argv)
{
    static struct maker m;
    char name[4096];
    if (argc != 2) {
        fprintf(stderr, "edges FOLDER\n");
        return 2;
    }
    m.folder = argv[1];
    snprintf(name, sizeof name, "%s/index", m.folder);
    m.index = fopen(name, "wb");
    if (m.index == NULL) {
        fprintf(stderr, "cannot write %s\n", name);
        return 2;
    }
    accepted_ones(&m);
    first_lines(&m);
    fields(&m);
    places(&m);
    names(&m);
    pattern_kinds(&m);
    twice(&m);
    limits(&m);
    ends(&m);
    sizes(&m);
    two_faults(&m);
    semicolons(&m);
    if (fclose(m.index) != 0) {
        fprintf(stderr, "cannot write %s\n", name);
        return 2;
    }
    return 0;
}
