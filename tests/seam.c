/* seam.c: what no proof can see, since a contract goes by names: that the archive has the arguments and the fields where include/budquarry.h has
 * them, and the header's numbers. A test of its own for each, that fails by its name:
 *   sides    budquarry_compare with old and new in each other's place; by the answer's bytes alone, wherever the fields are
 *   texts    budquarry_decide with two of its four texts in each other's place; by the sum of the fields, wherever they are
 *   rooms    budquarry_from_web_xml with two of its three buffers in each other's place; by the bytes of the buffers alone, wherever the fields are
 *   fields   a struct with two fields in each other's place; by outcomes in which no two fields are the same
 *   numbers  a refusal, or an answer, whose number isn't the header's
 * Exit 1 where one fails; behind a test that fails the next are not tried. */
#include <stdio.h>
#include <string.h>
#include "../include/budquarry.h"

#define FIRST "constraints\t1\n"
#define CLOCK FIRST "role\tassessor\nconstraint\tauth\nallow\tassessor\ncollection\npattern\t/clock\n"
#define TEXT(s) (const uint8_t *)(s), strlen(s)

static uint32_t work[BUDQUARRY_WORK];
static uint8_t answer[BUDQUARRY_ANSWER];
static char text[BUDQUARRY_XML + 100];
static uint8_t listing[BUDQUARRY_LISTING];
static int wrong;

static struct budquarry_report reads(const char *t) { return budquarry_read(TEXT(t), work, BUDQUARRY_WORK); }

static struct budquarry_decision asks(const char *t, const char *path, const char *method, uint32_t login, const char *roles) {
    return budquarry_decide(TEXT(t), TEXT(path), TEXT(method), login, TEXT(roles), work, BUDQUARRY_WORK);
}

static struct budquarry_comparison compares(const char *old, const char *new) {
    return budquarry_compare(TEXT(old), TEXT(new), answer, BUDQUARRY_ANSWER, work, BUDQUARRY_WORK);
}

static struct budquarry_written imports(const char *xml) {
    return budquarry_from_web_xml(TEXT(xml), listing, BUDQUARRY_LISTING, work, BUDQUARRY_WORK);
}

static void fails(const char *test, const char *what) {
    wrong++;
    printf("seam: %s: not as the header has it: %s\n", test, what);
}

static void is(const char *test, const char *what, size_t want, size_t got) {
    if (got == want) return;
    fails(test, what);
    printf("  want %zu, got %zu\n", want, got);
}

/* ---- a listing without constraints is wider than one that asks for a role, and not the other way round */
static void says(const char *old, const char *new, const char *want, const char *what) {
    memset(answer, 0, sizeof answer);
    compares(old, new);
    if (strcmp((const char *)answer, want)) fails("sides", what), printf("%s", (const char *)answer);
}

static void sides(void) {
    says(CLOCK "end\n", FIRST "end\n", "verdict\twider\npath\t/clock\nmethod\tQ0\ncaller\tnone\n", "the old listing asks for a role, the new one for nothing");
    says(FIRST "end\n", CLOCK "end\n", "verdict\tno wider\n", "the new listing asks for a role, the old one for nothing");
}

/* ---- two texts in each other's place are refused: no other of the four is a listing, a path or a method */
static void texts(void) {
    struct budquarry_decision d = asks(CLOCK "end\n", "/clock", "GET", 1, "assessor\n");
    is("texts", "listing, path, method and roles of a grant", BUDQUARRY_BY_ROLE, d.number + d.side + d.line + d.answer);
}

/* ---- two web.xml files, of which the first is read and the second written over. Both are shorter than a work table: one in its place is refused. */
#define ROLE(name) "<security-role><role-name>" name "</role-name></security-role>"
#define ROOT(in) "<web-app>" in "</web-app>"

static void rooms(void) {
    static char one[] = ROOT(ROLE("assessor")), other[] = ROOT(ROLE("adjuster"));
    static const char want[] = FIRST "role\tassessor\nend\n";
    budquarry_from_web_xml(TEXT(one), (uint8_t *)other, sizeof other - 1, work, BUDQUARRY_WORK);
    if (memcmp(other, want, sizeof want - 1)) fails("rooms", "the listing is not in the second buffer"), printf("%.*s\n", (int)sizeof other - 1, other);
    if (strcmp(one, ROOT(ROLE("assessor")))) fails("rooms", "the web.xml is not as it was"), printf("%.*s\n", (int)sizeof one - 1, one);
}

/* ---- number, side, line and the fourth field, no two of them the same */
static void are(const char *what, uint32_t number, uint32_t side, uint32_t line, size_t last, const uint32_t want[4]) {
    static const char *const names[4] = {"number", "side", "line", "the last field"};
    const size_t got[4] = {number, side, line, last};
    for (int i = 0; i < 4; i++) {
        char field[100];
        sprintf(field, "%s of %s", names[i], what);
        is("fields", field, want[i], got[i]);
    }
}

static void fields(void) {
    static const uint32_t bad_name[4] = {BUDQUARRY_BAD_NAME, 1, 3, 0}, bad_new[4] = {BUDQUARRY_BAD_NAME, 2, 3, 0};
    static const uint32_t by_role[4] = {0, 0, 0, BUDQUARRY_BY_ROLE}, no_wider[4] = {0, 0, 0, BUDQUARRY_NO_WIDER};
    static const uint32_t short_table[4] = {BUDQUARRY_SHORT_TABLE, 0, 0, 0}; /* with number and answer swapped it would read as BUDQUARRY_OPEN */
    static const char bad[] = FIRST "role\ta\nrole\t*\nend\n";
    struct budquarry_report r = reads(bad);
    are("struct budquarry_report", r.number, r.side, r.line, 0, bad_name);
    struct budquarry_decision d = asks(bad, "/", "GET", 0, "");
    are("struct budquarry_decision, refused", d.number, d.side, d.line, d.answer, bad_name);
    d = budquarry_decide(TEXT(FIRST "end\n"), TEXT("/"), TEXT("GET"), 0, NULL, 0, work, 0);
    are("struct budquarry_decision, work table too short", d.number, d.side, d.line, d.answer, short_table);
    d = asks(CLOCK "end\n", "/clock", "GET", 1, "assessor\n");
    are("struct budquarry_decision, granted", d.number, d.side, d.line, d.answer, by_role);
    struct budquarry_comparison c = compares(CLOCK "end\n", bad);
    are("struct budquarry_comparison, refused", c.number, c.side, c.line, c.length, bad_new);
    c = compares(CLOCK "end\n", CLOCK "end\n");
    are("struct budquarry_comparison, no wider", c.number, c.side, c.line, c.length, no_wider);
}

static void written_fields(void) {
    static const uint32_t refused[4] = {BUDQUARRY_BAD_XML, 1, 3, 0}, longer[4] = {BUDQUARRY_LONG_XML, 1, 0, 0};
    static const uint32_t accepted[4] = {0, 0, 0, 32}, room_short[4] = {BUDQUARRY_ROOM_SHORT, 0, 0, 32}; /* FIRST, `role` and its name, `end` */
    struct budquarry_written w = imports("<web-app>\n\n<role-name/></web-app>");
    are("struct budquarry_written, refused", w.number, w.side, w.line, w.length, refused);
    w = imports(ROOT(ROLE("assessor")));
    are("struct budquarry_written, accepted", w.number, w.side, w.line, w.length, accepted);
    w = budquarry_from_web_xml((const uint8_t *)text, BUDQUARRY_XML + 1, listing, BUDQUARRY_LISTING, work, BUDQUARRY_WORK);
    are("struct budquarry_written, file too long", w.number, w.side, w.line, w.length, longer);
    w = budquarry_from_web_xml(TEXT(ROOT(ROLE("assessor"))), listing, 31, work, BUDQUARRY_WORK);
    are("struct budquarry_written, buffer too short", w.number, w.side, w.line, w.length, room_short);
}

/* ---- each refusal and each answer once */
#define NUMBER(name, got) is("numbers", #name, name, got)

static const char *with_roles(int n) {
    int at = sprintf(text, FIRST);
    for (int i = 0; i < n; i++) at += sprintf(text + at, "role\tr%d\n", i);
    sprintf(text + at, "end\n");
    return text;
}

static void refusals(void) {
    NUMBER(BUDQUARRY_SHORT_TABLE, budquarry_read(TEXT(FIRST "end\n"), work, BUDQUARRY_WORK - 1).number);
    NUMBER(BUDQUARRY_SMALL_ANSWER, budquarry_compare(TEXT(FIRST), TEXT(FIRST), answer, BUDQUARRY_ANSWER - 1, work, BUDQUARRY_WORK).number);
    memset(text, 'x', BUDQUARRY_LISTING + 1);
    NUMBER(BUDQUARRY_BAD_FIRST_LINE, budquarry_read((const uint8_t *)text, BUDQUARRY_LISTING, work, BUDQUARRY_WORK).number);
    NUMBER(BUDQUARRY_LONG_LISTING, budquarry_read((const uint8_t *)text, BUDQUARRY_LISTING + 1, work, BUDQUARRY_WORK).number);
    NUMBER(BUDQUARRY_BAD_FORM, reads(FIRST "roles\ta\n").number);
    NUMBER(BUDQUARRY_WRONG_PLACE, reads(FIRST "collection\n").number);
    NUMBER(BUDQUARRY_BAD_NAME, reads(FIRST "role\t*\n").number);
    NUMBER(BUDQUARRY_BAD_PATTERN, reads(FIRST "constraint\topen\ncollection\npattern\ta\n").number);
    NUMBER(BUDQUARRY_ROLE_TWICE, reads(FIRST "role\ta\nrole\ta\n").number);
    NUMBER(BUDQUARRY_PAST_MOST, reads(with_roles(33)).number);
    NUMBER(BUDQUARRY_NO_END, reads(FIRST).number);
    NUMBER(BUDQUARRY_BAD_PATH, asks(FIRST "end\n", "a", "GET", 0, "").number);
    NUMBER(BUDQUARRY_BAD_METHOD, asks(FIRST "end\n", "/", "", 0, "").number);
    NUMBER(BUDQUARRY_BAD_CALLER, asks(FIRST "end\n", "/", "GET", 2, "").number);
}

/* So many times the same, inside `before` and `behind`. */
static const char *with_many(const char *before, int n, const char *each, const char *behind) {
    int at = sprintf(text, "%s", before);
    for (int i = 0; i < n; i++) at += sprintf(text + at, "%s", each);
    sprintf(text + at, "%s", behind);
    return text;
}

#define COLLECTION(in) "<web-resource-collection>" in "</web-resource-collection>"
#define CONSTRAINT(in) "<security-constraint>" in "</security-constraint>"
#define NAME32 "nnnnnnnnnnnnnnnnnnnnnnnnnnnnnnnn"

static void xml_refusals(void) {
    NUMBER(BUDQUARRY_SHORT_TABLE, budquarry_from_web_xml(TEXT("<web-app/>"), listing, BUDQUARRY_LISTING, work, BUDQUARRY_WORK - 1).number);
    memset(text, ' ', BUDQUARRY_XML + 1);
    NUMBER(BUDQUARRY_LONG_XML, budquarry_from_web_xml((const uint8_t *)text, BUDQUARRY_XML + 1, listing, BUDQUARRY_LISTING, work, BUDQUARRY_WORK).number);
    NUMBER(BUDQUARRY_BAD_XML, budquarry_from_web_xml((const uint8_t *)text, BUDQUARRY_XML, listing, BUDQUARRY_LISTING, work, BUDQUARRY_WORK).number);
    NUMBER(BUDQUARRY_DEEP_XML, imports(ROOT("<a><a><a><a><a><a><a><a/></a></a></a></a></a></a></a>")).number);
    NUMBER(BUDQUARRY_REFUSED_ELEMENT, imports(ROOT("<user-data-constraint/>")).number);
    NUMBER(BUDQUARRY_REFUSED_ELEMENT, imports(ROOT("<deny-uncovered-http-methods/>")).number);
    NUMBER(BUDQUARRY_BAD_NAME, imports(ROOT(ROLE("*"))).number);
    NUMBER(BUDQUARRY_BAD_PATTERN, imports(ROOT(CONSTRAINT(COLLECTION("<url-pattern>a</url-pattern>")))).number);
    NUMBER(BUDQUARRY_ROLE_TWICE, imports(ROOT(ROLE("a") ROLE("a"))).number);
    NUMBER(BUDQUARRY_PAST_MOST, imports(with_many("<web-app>", 65, CONSTRAINT(COLLECTION("<url-pattern>/</url-pattern>")), "</web-app>")).number);
    NUMBER(BUDQUARRY_LONG_LISTING, imports(with_many("<web-app><security-constraint>" COLLECTION("<url-pattern>/</url-pattern>") "<auth-constraint>", 600,
                                                     "<role-name>" NAME32 NAME32 "</role-name>", "</auth-constraint></security-constraint></web-app>")).number);
    NUMBER(BUDQUARRY_ROOM_SHORT, budquarry_from_web_xml(TEXT("<web-app/>"), listing, 17, work, BUDQUARRY_WORK).number);
}

static void answers(void) {
    NUMBER(BUDQUARRY_OPEN, asks(CLOCK "end\n", "/", "GET", 0, "").answer);
    NUMBER(BUDQUARRY_BY_ROLE, asks(CLOCK "end\n", "/clock", "GET", 1, "assessor\n").answer);
    NUMBER(BUDQUARRY_CLOSED, asks(FIRST "constraint\tauth\ncollection\npattern\t/\nend\n", "/", "GET", 0, "").answer);
    NUMBER(BUDQUARRY_LOGIN_WANTED, asks(CLOCK "end\n", "/clock", "GET", 0, "").answer);
    NUMBER(BUDQUARRY_ROLE_LACKING, asks(CLOCK "end\n", "/clock", "GET", 1, "").answer);
    NUMBER(BUDQUARRY_NO_WIDER, compares(CLOCK "end\n", CLOCK "end\n").length);
}

int main(void) {
    static void (*const tests[])(void) = {sides, texts, rooms, fields, written_fields, refusals, xml_refusals, answers};
    for (size_t i = 0; i < sizeof tests / sizeof *tests; i++) {
        tests[i]();
        if (wrong) return 1;
    }
    puts("seam: sides, texts, rooms, fields and numbers are as the header has them");
    return 0;
}
