/* typed.c: what 01 and Item 1 of 02 say of some 2,400 inputs, typed from their text and not computed by either program, asked of the proved archive
 * and of the second implementation. Each call gets buffers full of garbage; the whole of them is looked at afterwards. Exit 1 where one of the two
 * differs. */
#include <stdio.h>
#include <string.h>
#include "../include/budquarry.h"
#include "../second/second.h"

enum { WORK = 6000, ANSWER = 4000 };
static uint32_t mine[WORK], theirs[WORK];
static uint8_t my_answer[ANSWER], their_answer[ANSWER];
static size_t work_len = 5000, answer_len = 2000; /* what is lent */
static int cases, wrong;

#define FIRST "constraints\t1\n"
#define OPEN "constraint\topen\ncollection\n"
#define AUTH "constraint\tauth\ncollection\n"
#define ALLOW(name) "constraint\tauth\nallow\t" name "\ncollection\n"
#define NOTHING FIRST "end\n"

static uint32_t garbage(size_t i) { return 0xAAAAAAAAu + (uint32_t)i; }

static void lend(void) {
    for (size_t i = 0; i < WORK; i++) mine[i] = theirs[i] = garbage(i);
    memset(my_answer, 0xAA, ANSWER);
    memset(their_answer, 0xAA, ANSWER);
}

/* "After every call the first 4,096 work numbers are zero and the rest as before; with refusal 1 none changes." */
static int left_right(const uint32_t *work, uint32_t number) {
    for (size_t i = 0; i < WORK; i++)
        if (work[i] != (number != 1 && i < 4096 ? 0 : garbage(i))) return 0;
    return 1;
}

static void check(int right, const char *call, const char *what, uint32_t want, uint32_t got, uint32_t second) {
    cases++;
    if (right) return;
    wrong++;
    printf("%s, %s: want %u, got %u, the second %u\n", call, what, want, got, second);
}

/* ---- reading */

static void reads(const char *what, const char *t, size_t n, uint32_t number, uint32_t line) {
    uint32_t side = number > 1;
    lend();
    struct budquarry_report a = budquarry_read((const uint8_t *)t, n, mine, work_len);
    struct second_report b = second_read((const uint8_t *)t, n, theirs, work_len);
    check(a.number == number && a.side == side && a.line == line && left_right(mine, number) && b.number == number && b.side == side && b.line == line
              && left_right(theirs, number),
          "read", what, number, a.number, b.number);
}

static void text(const char *t, uint32_t number, uint32_t line) { reads(t, t, strlen(t), number, line); }

/* a listing with one pattern, on line 4 */
static void pattern(const char *t, uint32_t number) {
    char s[600];
    sprintf(s, FIRST AUTH "pattern\t%s\nend\n", t);
    text(s, number, number ? 4 : 0);
}

static char *many(char *to, int byte, int n) {
    memset(to, byte, (size_t)n);
    to[n] = 0;
    return to;
}

static void first_lines(void) {
    text("", 3, 1), text("\n", 3, 1), text("constraints\t1", 3, 1), text("constraints\t1\r\n", 3, 1), text("\xef\xbb\xbf" NOTHING, 3, 1);
    text("constraints\t1\tx\nend\n", 3, 1), text("constraints\t2\nend\n", 3, 1), text(NOTHING, 0, 0);
}

/* 01's table "may follow": each record behind each of its nine predecessors */
static void places(void) {
    static const struct { const char *text; uint32_t next; } behind[9] = {
        { FIRST, 2 }, { FIRST "role\ta\n", 3 }, { FIRST "constraint\topen\n", 3 }, { FIRST "constraint\tauth\n", 3 },
        { FIRST "constraint\tauth\nallow\ta\n", 4 }, { FIRST AUTH, 4 }, { FIRST AUTH "pattern\t/a\n", 5 },
        { FIRST AUTH "pattern\t/a\nmethod\tGET\n", 6 }, { FIRST AUTH "pattern\t/a\nomit\tGET\n", 6 } };
    static const struct { const char *text, *may; } record[8] = {
        { "role\tzz\n", "110000000" }, { "constraint\tauth\n", "110000111" }, { "allow\tb\n", "000110000" }, { "collection\n", "001110111" },
        { "pattern\t/b\n", "000001100" }, { "method\tPUT\n", "000000110" }, { "omit\tPUT\n", "000000101" }, { "end\n", "110000111" } };
    for (int i = 0; i < 9; i++)
        for (int j = 0; j < 8; j++) {
            char s[500];
            int may = record[j].may[i] == '1';
            sprintf(s, "%s%s", behind[i].text, record[j].text);
            text(s, !may ? 5 : j == 7 ? 0 : 10, !may ? behind[i].next : j == 7 ? 0 : behind[i].next + 1);
        }
    text(FIRST "constraint\topen\nallow\ta\n", 5, 3), text(FIRST "constraint\topen\nallow\t*\n", 5, 3), text(FIRST "constraint\topen\nallow\t a\n", 5, 3);
    text(FIRST AUTH "pattern\t/a\nomit\tG\nmethod\tH\n", 5, 6), text(FIRST AUTH "pattern\t/a\nmethod\tG\nomit\tH\n", 5, 6);
    text(FIRST "constraint\tauth\nconstraint\tbogus\n", 5, 3);
}

static void fields_and_names(void) {
    char b[300], s[600];
    text(FIRST AUTH "pattern\t\nend\n", 0, 0), text(FIRST AUTH "pattern\nend\n", 4, 4), text(FIRST "role\t\n", 6, 2), text(FIRST "end\t\n", 4, 2);
    text(FIRST "role\ta\t\n", 4, 2), text(FIRST AUTH "pattern\t/a\tb\n", 4, 4);
    sprintf(s, FIRST "role\t%s\nend\n", many(b, 'r', 1)), text(s, 0, 0);
    sprintf(s, FIRST "role\t%s\nend\n", many(b, 'r', 64)), text(s, 0, 0);
    sprintf(s, FIRST "role\t%s\nend\n", many(b, 'r', 65)), text(s, 6, 2);
    text(FIRST "role\t a\n", 6, 2), text(FIRST "role\ta \n", 6, 2), text(FIRST "role\ta b\nend\n", 0, 0), text(FIRST "role\t \n", 6, 2);
    text(FIRST "role\t*\n", 6, 2), text(FIRST "role\t**\nrole\t*a\nend\n", 0, 0), text(FIRST ALLOW("*") "pattern\t/\nmethod\t*\nend\n", 0, 0);
}

static void patterns(void) {
    static const char *const bad[] = { "*.a.b", "*.", "*", "a", " /a", "*.a/b", "*.a*", "/a ", "*.a ", " ", "**", "*/", "*.*",
                                       ";", "/;", ";/", "/a;", "/a;b", "/a;/b", "/a/b;c", "/;/*", "/a;s=1/*", "/a/;*", "*.;", "*.a;", "*.a;b", "*;.a" };
    static const char *const good[] = { "/a*", "/**", "/*.csv", "//", "//*", "/*/*", "/", "", "*.a", "*. a", "/ a", "/:" };
    char b[300];
    many(b, '/', 255), pattern(b, 0);
    b[254] = ';', pattern(b, 7);
    many(b, '/', 256), pattern(b, 7);
    for (size_t i = 0; i < sizeof bad / sizeof *bad; i++) pattern(bad[i], 7);
    for (size_t i = 0; i < sizeof good / sizeof *good; i++) pattern(good[i], 0);
}

/* "Most per listing", at it and one past it */
static void limits(void) {
    static char s[60000];
    for (uint32_t more = 0; more < 2; more++) {
        int n = sprintf(s, FIRST);
        for (uint32_t i = 0; i < 64 + more; i++) n += sprintf(s + n, AUTH "pattern\t/\n");
        strcpy(s + n, "end\n"), reads("constraints", s, strlen(s), 8 * more, more * (2 + 3 * 64));
        n = sprintf(s, FIRST "constraint\tauth\n");
        for (uint32_t i = 0; i < 128 + more; i++) n += sprintf(s + n, "collection\npattern\t/\n");
        strcpy(s + n, "end\n"), reads("collections", s, strlen(s), 8 * more, more * (3 + 2 * 128));
        n = sprintf(s, FIRST AUTH);
        for (uint32_t i = 0; i < 128 + more; i++) n += sprintf(s + n, "pattern\t/\n");
        strcpy(s + n, "end\n"), reads("patterns", s, strlen(s), 8 * more, more * (4 + 128));
        n = sprintf(s, FIRST AUTH "pattern\t/\n");
        for (uint32_t i = 0; i < 512 + more; i++) n += sprintf(s + n, i < 300 ? "method\tG\n" : i == 300 ? "collection\npattern\t/\nomit\tG\n" : "omit\tG\n");
        strcpy(s + n, "end\n"), reads("method and omit lines", s, strlen(s), 8 * more, more * (5 + 512 + 2));
        n = sprintf(s, FIRST);
        for (uint32_t i = 0; i < 16; i++) n += sprintf(s + n, "role\tr%u\n", i);
        n += sprintf(s + n, "constraint\tauth\nallow\t*\nallow\tr3\n");
        for (uint32_t i = 0; i < 16 + more; i++) n += sprintf(s + n, "allow\ts%u\n", i);
        strcpy(s + n, "collection\npattern\t/\nend\n"), reads("roles, some allowed", s, strlen(s), 8 * more, more * (2 + 16 + 3 + 16));
        n = sprintf(s, FIRST);
        for (uint32_t i = 0; i < 32 + more; i++) n += sprintf(s + n, "role\tr%u\n", i);
        strcpy(s + n, "end\n"), reads("roles declared", s, strlen(s), 8 * more, more * (2 + 32));
        n = sprintf(s, FIRST AUTH "pattern\t/\n");
        for (uint32_t i = 0; i < 31 + more; i++) n += sprintf(s + n, i < 15 ? "method\tG%u\n" : i == 15 ? "collection\npattern\t/\nomit\tG%u\n" : "omit\tG%u\n", i);
        strcpy(s + n, "end\n"), reads("methods", s, strlen(s), 8 * more, more * (5 + 31 + 2));
    }
    int n = sprintf(s, FIRST);
    for (int i = 0; i < 32; i++) n += sprintf(s + n, "role\tr%d\n", i);
    strcpy(s + n, "role\tr5\n"), reads("a 33rd role line, repeated", s, strlen(s), 9, 34);
    n = sprintf(s, FIRST);
    for (int i = 0; i < 64; i++) n += sprintf(s + n, AUTH "pattern\t/\n");
    strcpy(s + n, "constraint\tbogus\n"), reads("a 65th constraint, of no kind", s, strlen(s), 6, 2 + 3 * 64);
    memset(s, 'x', 24577);
    reads("24,576 bytes", s, 24576, 3, 1), reads("24,577 bytes", s, 24577, 2, 0);
    memcpy(s, NOTHING, strlen(NOTHING));
    reads("24,576 bytes, some after end", s, 24576, 10, 3), reads("24,577 bytes, some after end", s, 24577, 2, 0);
}

static void orders_and_ends(void) {
    text(FIRST "role\t ", 4, 2), text(FIRST "constraint\tauth\npattern\ta\n", 5, 3), text(FIRST "role\ta\nrole\ta\n", 9, 3);
    text(FIRST, 10, 2), text(FIRST "role\ta\n", 10, 3), text(NOTHING "\n", 10, 3), text(NOTHING "x", 10, 3), text(NOTHING "end\n", 10, 3);
    text(FIRST "end", 4, 2), text(FIRST AUTH "end\n", 5, 4);
    /* a `;` in a pattern is 7 at its line, behind 4 and 5 and the lines before */
    text(FIRST AUTH "pattern\t/;\tb\n", 4, 4), text(FIRST AUTH "pattern\t/;", 4, 4), text(FIRST "constraint\tauth\npattern\t/;\n", 5, 3);
    text(FIRST AUTH "pattern\t/a\npattern\t/b;\nmethod\t(\n", 7, 5), text(FIRST "role\ta\nrole\ta\n" AUTH "pattern\t/;\n", 9, 3);
    text(NOTHING "pattern\t/;\n", 10, 3), text(FIRST "role\ta;b\nrole\t;\nend\n", 0, 0), text(FIRST "role\t;\nrole\t;\n", 9, 3);
    text(FIRST AUTH "pattern\t/a\nmethod\tG;\n", 6, 5);
}

/* ---- deciding */

static void decides(const char *what, const char *listing, const char *path, size_t path_len, const char *method, size_t method_len, uint32_t login,
                    const char *names, uint32_t number, uint32_t answer) {
    lend();
    struct budquarry_decision a = budquarry_decide((const uint8_t *)listing, strlen(listing), (const uint8_t *)path, path_len, (const uint8_t *)method,
                                                   method_len, login, (const uint8_t *)names, strlen(names), mine, work_len);
    struct second_decision b = second_decide((const uint8_t *)listing, strlen(listing), (const uint8_t *)path, path_len, (const uint8_t *)method,
                                             method_len, login, (const uint8_t *)names, strlen(names), theirs, work_len);
    int placed = number >= 2 && number <= 10 ? a.side == 1 && b.side == 1 : !a.side && !a.line && !b.side && !b.line;
    check(placed && a.number == number && a.answer == answer && left_right(mine, number) && b.number == number && b.answer == answer
              && left_right(theirs, number),
          "decide", what, 100 * number + answer, 100 * a.number + a.answer, 100 * b.number + b.answer);
}

static void asks(const char *listing, const char *path, const char *method, uint32_t login, const char *names, uint32_t number, uint32_t answer) {
    decides(path, listing, path, strlen(path), method, strlen(method), login, names, number, answer);
}

static void grants(const char *names, uint32_t number) { asks(NOTHING, "/", "G", 1, names, number, number == 0); }

/* each byte value in a role name, a method line, a pattern, a path, a parameter and a method */
static void classes(void) {
    static const char others[] = "!#$%&'*+-.^_`|~";
    for (int b = 0; b < 256; b++) {
        char s[200], path[] = "/-x", method[] = "G-x", parameter[] = "/a;x-y";
        int is_text = (b >= 32 && b <= 126) || b >= 128;
        int is_token = (b >= 'A' && b <= 'Z') || (b >= 'a' && b <= 'z') || (b >= '0' && b <= '9') || (b && strchr(others, b));
        uint32_t parted = b == 9 || b == 10 ? 4 : 6; /* a tab makes a field more, a byte 10 a line that is no record */
        int n = sprintf(s, FIRST "role\ta-a\nend\n");
        s[n - 7] = (char)b;
        reads("a byte of a name", s, (size_t)n, is_text ? 0 : parted, is_text ? 0 : b == 10 ? 3 : 2);
        n = sprintf(s, FIRST AUTH "pattern\t/a\nmethod\tA-A\nend\n");
        s[n - 7] = (char)b;
        reads("a byte of a method line", s, (size_t)n, is_token ? 0 : parted, is_token ? 0 : b == 10 ? 6 : 5);
        n = sprintf(s, FIRST AUTH "pattern\t/a-a\nend\n");
        s[n - 7] = (char)b;
        reads("a byte of a pattern", s, (size_t)n, is_text && b != ';' ? 0 : parted == 4 ? 4 : 7, is_text && b != ';' ? 0 : b == 10 ? 5 : 4);
        path[1] = method[1] = parameter[4] = (char)b;
        decides("a byte of a path", NOTHING, path, 3, "G", 1, 0, "", is_text ? 0 : 11, (uint32_t)is_text);
        /* all of it is dropped, but a `/` and what follows that */
        decides("a byte of a parameter", FIRST AUTH "pattern\t/a\nend\n", parameter, 6, "G", 1, 0, "", is_text ? 0 : 11, !is_text ? 0 : b == '/' ? 1 : 3);
        decides("a byte of a method", NOTHING, "/", 1, method, 3, 0, "", is_token ? 0 : 12, (uint32_t)is_token);
    }
}

static void requests(void) {
    static const uint32_t logins[] = { 2, 256, 0xffffffffu };
    char b[1100], s[100];
    many(b, '/', 1025);
    decides("0 bytes", NOTHING, b, 0, "G", 1, 0, "", 11, 0), decides("1,024 bytes", NOTHING, b, 1024, "G", 1, 0, "", 0, 1), decides("1,025 bytes", NOTHING, b, 1025, "G", 1, 0, "", 11, 0);
    many(b, 'G', 25);
    decides("a method of 24", NOTHING, "/", 1, b, 24, 0, "", 0, 1), decides("a method of 25", NOTHING, "/", 1, b, 25, 0, "", 12, 0);
    asks(NOTHING, "/ ;%//\x80\xff", "G", 0, "", 0, 1);
    asks(FIRST "foo\n", "x", "", 9, "x", 4, 0), asks(NOTHING, "x", "", 9, "x", 11, 0), asks(NOTHING, "/", "", 9, "x", 12, 0), asks(NOTHING, "/", "G", 9, "x", 13, 0);
    for (int i = 0; i < 3; i++) asks(NOTHING, "/", "G", logins[i], "", 13, 0);
    asks(NOTHING, "/", "G", 0, "\n", 13, 0), asks(NOTHING, "/", "G", 0, "a\n", 13, 0);
    grants("", 0), grants("**\n", 0), grants("\n", 13), grants("*\n", 13), grants("a", 13), grants("a \n", 13), grants("a\tb\n", 13);
    b[0] = 0;
    for (int i = 0; i < 32; i++) strcat(b, "a\n");
    grants(b, 0), grants(strcat(b, "a\n"), 13);
    sprintf(s, "%s\n", many(b, 'a', 64)), grants(s, 0);
    sprintf(s, "%s\n", many(b, 'a', 65)), grants(s, 13);
}

/* on the path `/`: empty, then `//` and star, then `/` and star, then `/`, in all subsets; each allows a role of its own */
static void at_root(void) {
    static const char *const texts[4] = { "", "//*", "/*", "/" }, *const roles[4] = { "e\n", "p\n", "q\n", "d\n" };
    for (int set = 1; set < 16; set++) {
        char s[1000] = FIRST;
        int best = 4;
        for (int i = 3; i >= 0; i--)
            if (set >> i & 1) sprintf(s + strlen(s), "constraint\tauth\nallow\t%scollection\npattern\t%s\n", roles[i], texts[i]), best = i;
        strcat(s, "end\n");
        for (int i = 0; i < 4; i++) asks(s, "/", "G", 1, roles[i], 0, i == best ? 2 : 5);
    }
}

static void matching_and_combining(void) {
    static const char clock[] = FIRST AUTH "pattern\t/clock/*\nend\n", csv[] = FIRST AUTH "pattern\t*.csv\nend\n";
    asks(clock, "/clock", "G", 0, "", 0, 3), asks(clock, "/clock/", "G", 0, "", 0, 3), asks(clock, "/clockwork", "G", 0, "", 0, 1), asks(clock, "/cloc", "G", 0, "", 0, 1);
    asks(csv, "/.csv", "G", 0, "", 0, 3), asks(csv, "/a.b.csv", "G", 0, "", 0, 3), asks(csv, "/x.", "G", 0, "", 0, 1), asks(csv, "/x.csv/", "G", 0, "", 0, 1);
    asks(csv, "/a.csv/b", "G", 0, "", 0, 1), asks(csv, "/a.csv.b", "G", 0, "", 0, 1);
    asks(FIRST ALLOW("a") "pattern\t/a/*\n" ALLOW("b") "pattern\t/a//*\nend\n", "/a//b", "G", 1, "b\n", 0, 2);
    asks(FIRST AUTH "pattern\t/a\nmethod\tG\ncollection\npattern\t/b\nmethod\tP\nend\n", "/a", "P", 0, "", 0, 1);
    asks(FIRST "role\tr\nconstraint\tauth\nallow\t*\nallow\tu\ncollection\npattern\t/a\nend\n", "/a", "P", 1, "r\n", 0, 2);
    asks(FIRST ALLOW("u") "pattern\t/b\n" ALLOW("*") "pattern\t/a\nend\n", "/a", "P", 1, "u\n", 0, 5);
    asks(FIRST ALLOW("*") "pattern\t/a\nend\n", "/a", "P", 0, "", 0, 4);
    asks(FIRST AUTH "pattern\t/a\n" OPEN "pattern\t/a\nend\n", "/a", "P", 1, "r\n", 0, 3);
    asks(FIRST ALLOW("r") "pattern\t/a\n" OPEN "pattern\t/a\nend\n", "/a", "P", 0, "", 0, 1);
}

/* "In every segment drop the bytes from the first `;` up to the next `/` or the end, then match": each path as the one beside it, by what closes it alone
 * and by a listing in which every kind of pattern has a role of its own */
static void parameters(void) {
    static const struct { const char *path, *dropped; } as[] = {
        { "/a;", "/a" }, { "/a;x", "/a" }, { "/a;x=1;y=2", "/a" }, { "/a;;", "/a" }, { "/a;x.csv", "/a" }, { "/a;*", "/a" }, { "/a; \x80\xff", "/a" },
        { "/a;x/b", "/a/b" }, { "/a;/b", "/a/b" }, { "/a;x;y/b;z", "/a/b" }, { "/a/b;a/", "/a/b/" }, { "/a;/b;/", "/a/b/" }, { "/a;x/b/c", "/a/b/c" },
        { "/;", "/" }, { "/;x", "/" }, { "/;/", "//" }, { "/;x/;y", "//" }, { "/;x/a", "//a" }, { "/a/;x", "/a/" }, { "/a/;x/b", "/a//b" }, { "/a/;b", "/a/" },
        { "/x.csv;v=1", "/x.csv" }, { "/x.csv;.b", "/x.csv" }, { "/x.c;v=1sv", "/x.c" }, { "/x;v=1.csv", "/x" }, { "/x.;csv", "/x." }, { "/x.csv;/", "/x.csv/" },
        { "/x;.b/y.csv", "/x/y.csv" }, { "/x.csv;/y.b;", "/x.csv/y.b" }, { "/clock/offset;s=12", "/clock/offset" }, { "/clo;ck/offset", "/clo/offset" },
        { "/a%3Bx", "/a%3Bx" }, { "/a=b;c", "/a=b" } };
    static const char *const texts[] = { "", "/", "/*", "//*", "/a", "/a/*", "/a/b", "/a/b/*", "/a/b/c", "*.csv", "*.c", "*.b", "/clock/offset", "/a/", "/x" };
    /* which text of these is best for the dropped path, read off 01: by its place, or none of them */
    static const struct { const char *dropped; int best; } best[] = {
        { "/a", 4 }, { "/a/b", 6 }, { "/a/b/", 7 }, { "/a/b/c", 8 }, { "/", 0 }, { "//", 3 }, { "//a", 3 }, { "/a/", 13 }, { "/a//b", 5 }, { "/x.csv", 2 }, { "/x.c", 2 },
        { "/x", 14 }, { "/x.", 2 }, { "/x.csv/", 2 }, { "/x/y.csv", 2 }, { "/x.csv/y.b", 2 }, { "/clock/offset", 12 }, { "/clo/offset", 2 }, { "/a%3Bx", 2 }, { "/a=b", 2 } };
    enum { TEXTS = sizeof texts / sizeof *texts };
    char s[2000] = FIRST, closing[400], name[8], b[1100];
    for (int k = 0; k < TEXTS; k++) sprintf(s + strlen(s), "constraint\tauth\nallow\tr%d\ncollection\npattern\t%s\n", k, texts[k]);
    strcat(s, "end\n");
    for (size_t i = 0; i < sizeof as / sizeof *as; i++) {
        sprintf(closing, FIRST AUTH "pattern\t%s\nend\n", strcmp(as[i].dropped, "/") ? as[i].dropped : "");
        asks(closing, as[i].path, "G", 0, "", 0, 3);
        size_t k = 0;
        while (strcmp(best[k].dropped, as[i].dropped)) k++;
        for (int r = 0; r < TEXTS; r++) sprintf(name, "r%d\n", r), asks(s, as[i].path, "G", 1, name, 0, r == best[k].best ? 2 : 5);
    }
    /* extensions, which the prefix of all above beats */
    asks(FIRST AUTH "pattern\t*.csv\nend\n", "/x.csv;v=1.b", "G", 0, "", 0, 3), asks(FIRST AUTH "pattern\t*.csv\nend\n", "/x.c;v=1sv", "G", 0, "", 0, 1);
    asks(FIRST AUTH "pattern\t*.csv\nend\n", "/x;v=1.csv", "G", 0, "", 0, 1), asks(FIRST AUTH "pattern\t*.csv\nend\n", "/x;.b/y.csv;", "G", 0, "", 0, 3);
    asks(FIRST AUTH "pattern\t*.csv\nend\n", "/x.csv;/", "G", 0, "", 0, 1), asks(FIRST AUTH "pattern\t*.csv\nend\n", "/;.csv", "G", 0, "", 0, 1);
    /* "the 1,024 limit counts the bytes before dropping", and 11 is of the path as received */
    many(b, 'x', 1025), memcpy(b, "/a;", 3);
    decides("1,024 bytes, 2 after dropping", FIRST AUTH "pattern\t/a\nend\n", b, 1024, "G", 1, 0, "", 0, 3);
    decides("1,025 bytes, 2 after dropping", FIRST AUTH "pattern\t/a\nend\n", b, 1025, "G", 1, 0, "", 11, 0);
    b[1023] = '/';
    decides("1,024 bytes, 3 after dropping", FIRST AUTH "pattern\t/a/\nend\n", b, 1024, "G", 1, 0, "", 0, 3);
    asks(NOTHING, ";/", "G", 0, "", 11, 0), asks(NOTHING, ";", "G", 0, "", 11, 0), asks(NOTHING, "/;\t", "G", 0, "", 11, 0), asks(NOTHING, "/", "G;", 0, "", 12, 0);
    asks(FIRST AUTH "pattern\t/;\nend\n", ";", "", 9, "x", 7, 0);
    /* names keep their `;` */
    asks(FIRST ALLOW("a;b") "pattern\t/\nend\n", "/x", "G", 1, "a;b\n", 0, 2), asks(FIRST ALLOW("a;b") "pattern\t/\nend\n", "/x", "G", 1, "a\n", 0, 5);
    asks(FIRST ALLOW("a") "pattern\t/\nend\n", "/x", "G", 1, "a;b\n", 0, 5), asks(FIRST ALLOW(";") "pattern\t/\nend\n", "/x", "G", 1, ";\n", 0, 2);
}

/* ---- comparing */

static void compares(const char *what, const char *old, size_t old_len, const char *new, size_t new_len, uint32_t number, uint32_t side, uint32_t line, const char *answer) {
    uint8_t want[ANSWER];
    size_t n = strlen(answer);
    memset(want, 0xAA, sizeof want);
    memcpy(want, answer, n);
    lend();
    struct budquarry_comparison a = budquarry_compare((const uint8_t *)old, old_len, (const uint8_t *)new, new_len, my_answer, answer_len, mine, work_len);
    struct second_comparison b = second_compare((const uint8_t *)old, old_len, (const uint8_t *)new, new_len, their_answer, answer_len, theirs, work_len);
    check(a.number == number && a.side == side && a.line == line && a.length == n && !memcmp(my_answer, want, ANSWER) && left_right(mine, number)
              && b.number == number && b.side == side && b.line == line && b.length == n && !memcmp(their_answer, want, ANSWER) && left_right(theirs, number),
          "compare", what, number, a.number, b.number);
}

static void refuses(const char *old, const char *new, uint32_t number, uint32_t side, uint32_t line) {
    compares(new, old, strlen(old), new, strlen(new), number, side, line, "");
}

static void wider(const char *old, const char *new, const char *rest) {
    char s[1000];
    sprintf(s, "verdict\twider\npath\t%s\n", rest);
    compares(rest, old, strlen(old), new, strlen(new), 0, 0, 0, s);
}

static void no_wider(const char *old, const char *new) { compares("no wider", old, strlen(old), new, strlen(new), 0, 0, 0, "verdict\tno wider\n"); }

static void short_buffers(void) {
    static char s[24577];
    memset(s, 'x', sizeof s);
    for (int i = 0; i < 2; i++) {
        work_len = i ? 4095 : 0;
        text(NOTHING, 1, 0), text("x", 1, 0), asks(NOTHING, "x", "", 7, "x", 1, 0), refuses("x", "y", 1, 0, 0);
    }
    work_len = 4096, text(NOTHING, 0, 0), text("x", 3, 1);
    work_len = 4095, answer_len = 1023, compares("1 before 14", s, sizeof s, "x", 1, 1, 0, 0, "");
    work_len = 5000, compares("14 before 2", s, sizeof s, "x", 1, 14, 0, 0, "");
    answer_len = 1024, compares("2 of old", s, sizeof s, "x", 1, 2, 1, 0, "");
    compares("10 of old before 2 of new", FIRST, strlen(FIRST), s, sizeof s, 10, 1, 2, ""), compares("2 of new", NOTHING, strlen(NOTHING), s, sizeof s, 2, 2, 0, "");
    answer_len = 2000, refuses(NOTHING, FIRST "role\t*\nend\n", 6, 2, 2), refuses(FIRST "foo\n", FIRST "bar", 4, 1, 2);
    refuses(FIRST AUTH "pattern\t/;\nend\n", FIRST "bar", 7, 1, 4), refuses(NOTHING, FIRST AUTH "pattern\t/a\npattern\t/a;b\nend\n", 7, 2, 5);
}

static void verdicts(void) {
    static const char all[] = FIRST AUTH "pattern\t/*\nend\n";
    /* the filler: `q1` is inside `q10`; several digits; the filler method: named by omit */
    wider(all, FIRST OPEN "pattern\t/*\ncollection\npattern\t/zzq10\nmethod\tG\nend\n", "/q0\nmethod\tG\ncaller\tnone");
    wider(all, FIRST OPEN "pattern\t/*\ncollection\npattern\t/zzq0q10\nmethod\tG\nend\n", "/q2\nmethod\tG\ncaller\tnone");
    wider(FIRST AUTH "pattern\t/q0q1q2q3q4q5q6q7q8q9q10q11/*\nend\n", NOTHING, "/q0q1q2q3q4q5q6q7q8q9q10q11/q12\nmethod\tQ0\ncaller\tnone");
    wider(FIRST AUTH "pattern\t/*\nomit\tQ0\nend\n", NOTHING, "/q0\nmethod\tQ1\ncaller\tnone");
    /* paths that no listing writes out, P itself, and `/` */
    wider(FIRST AUTH "pattern\t*.csv\nend\n", FIRST AUTH "pattern\t*.csv\n" OPEN "pattern\t/clock/*\nend\n", "/clock/q0.csv\nmethod\tQ0\ncaller\tnone");
    wider(FIRST AUTH "pattern\t/a.csv/*\nend\n", FIRST OPEN "pattern\t*.csv\nend\n", "/a.csv/q0\nmethod\tQ0\ncaller\tnone");
    no_wider(FIRST OPEN "pattern\t*.csv\nend\n", FIRST AUTH "pattern\t/a.csv/*\nend\n");
    wider(all, FIRST AUTH "pattern\t/*\n" OPEN "pattern\t\nend\n", "/\nmethod\tQ0\ncaller\tnone");
    wider(FIRST AUTH "pattern\t/a/*\nend\n", FIRST AUTH "pattern\t/a/*\n" OPEN "pattern\t/a\nend\n", "/a\nmethod\tQ0\ncaller\tnone");
    wider(all, FIRST ALLOW("a b\x80\xff") "pattern\t/*\nend\n", "/q0\nmethod\tQ0\ncaller\trole\ta b\x80\xff");
}

/* 32 roles on each side, all different; 31 methods, and 62 together */
static void tops(void) {
    char old[3000] = FIRST, new[3000] = FIRST;
    for (int i = 0; i < 32; i++) sprintf(old + strlen(old), "role\to%d\n", i), sprintf(new + strlen(new), "role\tn%d\n", i);
    strcat(old, ALLOW("*") "pattern\t/*\nend\n"), strcat(new, ALLOW("n31") "pattern\t/*\nend\n");
    wider(old, new, "/q0\nmethod\tQ0\ncaller\trole\tn31");
    strcpy(new, FIRST AUTH "pattern\t/*\n");
    for (int i = 0; i < 31; i++) sprintf(new + strlen(new), "method\tQ%d\n", i);
    strcat(new, "end\n");
    wider(FIRST AUTH "pattern\t/*\nend\n", new, "/q0\nmethod\tQ31\ncaller\tnone");
    strcpy(old, FIRST AUTH "pattern\t/*\n");
    for (int i = 31; i < 62; i++) sprintf(old + strlen(old), "omit\tQ%d\n", i);
    strcat(old, "collection\npattern\t/*\nend\n");
    wider(old, new, "/q0\nmethod\tQ31\ncaller\tnone");
}

int main(void) {
    first_lines(), places(), fields_and_names(), patterns(), limits(), orders_and_ends();
    classes(), requests(), at_root(), matching_and_combining(), parameters();
    short_buffers(), verdicts(), tops();
    printf("typed: %d of %d cases are as 01 and 02 say, on both\n", cases - wrong, cases);
    return wrong != 0;
}
