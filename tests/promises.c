/* promises.c: what budquarry.h promises a C caller about buffers, tried through an installed header and archive. */
#define _DEFAULT_SOURCE /* mmap's MAP_ANONYMOUS */
#include <budquarry.h>
#include <stdio.h>
#include <string.h>
#include <sys/mman.h>

enum { WORK = BUDQUARRY_WORK + 8, ANSWER = BUDQUARRY_ANSWER + 8, ROOM = BUDQUARRY_LISTING + 8 };
static const char good[] = "constraints\t1\nend\n", bad[] = "constraints\t1\nend\n\n";
static uint32_t work[WORK];
static uint8_t answer[ANSWER];
static int failures, tried;

#define TEXT(s) (const uint8_t *)(s), strlen(s)
#define HOLDS(c) (tried++, (c) ? 0 : (failures++, printf("%s:%d: not so: %s\n", __FILE__, __LINE__, #c)))

static void fill(void) {
    memset(work, 0xa5, sizeof work);
    memset(answer, 'x', sizeof answer);
}

static int work_is(size_t from, size_t to, uint32_t value) {
    for (size_t i = from; i < to; i++)
        if (work[i] != value) return 0;
    return 1;
}

static int answer_kept(size_t from) {
    for (size_t i = from; i < ANSWER; i++)
        if (answer[i] != 'x') return 0;
    return 1;
}

static int is(struct budquarry_comparison c, uint32_t number, uint32_t side, uint32_t line, uint32_t length) {
    return c.number == number && c.side == side && c.line == line && c.length == length;
}

static void nulls(void) {
    struct budquarry_report r = budquarry_read(NULL, 0, NULL, 0);
    HOLDS(r.number == 1 && r.side == 0 && r.line == 0);
    r = budquarry_read(NULL, 0, work, WORK);
    HOLDS(r.number == 3 && r.side == 1 && r.line == 1);
    struct budquarry_decision d = budquarry_decide(TEXT(good), NULL, 0, NULL, 0, 0, NULL, 0, work, WORK);
    HOLDS(d.number == 11 && d.side == 0 && d.line == 0 && d.answer == 0);
    d = budquarry_decide(TEXT(good), TEXT("/"), TEXT("GET"), 0, NULL, 0, work, WORK);
    HOLDS(d.number == 0 && d.answer == BUDQUARRY_OPEN);
    HOLDS(is(budquarry_compare(NULL, 0, NULL, 0, NULL, 0, NULL, 0), 1, 0, 0, 0));
    HOLDS(is(budquarry_compare(NULL, 0, NULL, 0, NULL, 0, work, WORK), 14, 0, 0, 0));
    HOLDS(is(budquarry_compare(NULL, 0, NULL, 0, answer, ANSWER, work, WORK), 3, 1, 1, 0));
}

static void short_buffers(void) {
    fill();
    HOLDS(is(budquarry_compare(TEXT(bad), TEXT(bad), answer, BUDQUARRY_ANSWER - 1, work, BUDQUARRY_WORK - 1), 1, 0, 0, 0));
    HOLDS(work_is(0, WORK, 0xa5a5a5a5u) && answer_kept(0));
    HOLDS(is(budquarry_compare(TEXT(bad), TEXT(bad), answer, BUDQUARRY_ANSWER - 1, work, BUDQUARRY_WORK), 14, 0, 0, 0));
    HOLDS(work_is(0, BUDQUARRY_WORK, 0) && work_is(BUDQUARRY_WORK, WORK, 0xa5a5a5a5u) && answer_kept(0));
}

static void whole_buffers(void) {
    fill();
    HOLDS(is(budquarry_compare(TEXT(bad), TEXT(bad), answer, BUDQUARRY_ANSWER, work, WORK), 10, 1, 3, 0));
    HOLDS(is(budquarry_compare(TEXT(good), TEXT(bad), answer, BUDQUARRY_ANSWER, work, WORK), 10, 2, 3, 0));
    HOLDS(answer_kept(0));
    HOLDS(is(budquarry_compare(TEXT(good), TEXT(good), answer, BUDQUARRY_ANSWER, work, WORK), 0, 0, 0, BUDQUARRY_NO_WIDER));
    HOLDS(!memcmp(answer, "verdict\tno wider\n", BUDQUARRY_NO_WIDER) && answer_kept(BUDQUARRY_NO_WIDER));
    HOLDS(work_is(0, BUDQUARRY_WORK, 0) && work_is(BUDQUARRY_WORK, WORK, 0xa5a5a5a5u));
}

/* ---- reading a web.xml: the file and its listing */
#define PORTAL \
    "<web-app><security-constraint><web-resource-collection><url-pattern>/a&amp;b</url-pattern><http-method>GET</http-method></web-resource-collection>" \
    "<auth-constraint><role-name>clerk</role-name></auth-constraint></security-constraint><!-- no more --></web-app>\n"
static const char portal[] = PORTAL;
static const char meant[] = "constraints\t1\nconstraint\tauth\nallow\tclerk\ncollection\npattern\t/a&b\nmethod\tGET\nend\n";
enum { MEANT = sizeof meant - 1 };
static uint8_t room[ROOM];

static int wrote(struct budquarry_written w, uint32_t number, uint32_t side, uint32_t line, size_t length) {
    return w.number == number && w.side == side && w.line == line && w.length == length;
}

static int room_kept(size_t from) {
    for (size_t i = from; i < ROOM; i++)
        if (room[i] != 'x') return 0;
    return 1;
}

static int work_left(void) { return work_is(0, BUDQUARRY_WORK, 0) && work_is(BUDQUARRY_WORK, WORK, 0xa5a5a5a5u); }

static void fill_all(void) {
    fill();
    memset(room, 'x', sizeof room);
}

static void xml_nulls(void) {
    HOLDS(wrote(budquarry_from_web_xml(NULL, 0, NULL, 0, NULL, 0), 1, 0, 0, 0));
    HOLDS(wrote(budquarry_from_web_xml(NULL, 0, NULL, 0, work, WORK), 17, 1, 1, 0));
    HOLDS(wrote(budquarry_from_web_xml(NULL, 0, room, ROOM, work, WORK), 17, 1, 1, 0));
    HOLDS(wrote(budquarry_from_web_xml(TEXT(portal), NULL, 0, work, WORK), 15, 0, 0, MEANT));
}

/* Beside a refusal the listing buffer is as before; the work table is too with refusal 1, else its first numbers are zero. */
static void xml_refused(void) {
    static const uint8_t longer[BUDQUARRY_XML + 1];
    fill_all();
    HOLDS(wrote(budquarry_from_web_xml(TEXT(portal), room, ROOM, work, BUDQUARRY_WORK - 1), 1, 0, 0, 0));
    HOLDS(work_is(0, WORK, 0xa5a5a5a5u) && room_kept(0));
    HOLDS(wrote(budquarry_from_web_xml(longer, sizeof longer, room, 0, work, WORK), 16, 1, 0, 0));
    HOLDS(work_left() && room_kept(0));
    fill_all();
    HOLDS(wrote(budquarry_from_web_xml(TEXT("<web-app>\n<role-name/></web-app>"), room, ROOM, work, WORK), 17, 1, 2, 0));
    HOLDS(work_left() && room_kept(0));
    fill_all();
    HOLDS(wrote(budquarry_from_web_xml(TEXT(PORTAL "<"), room, ROOM, work, WORK), 17, 1, 2, 0));
    HOLDS(work_left() && room_kept(0));
}

/* Every length of the buffer, up to some more than is needed; the table is what a call before left, or garbage. */
static void xml_rooms(void) {
    for (size_t n = 0; n < MEANT + 3; n++) {
        fill_all();
        HOLDS(wrote(budquarry_from_web_xml(TEXT(portal), room, n, work, WORK), n < MEANT ? 15 : 0, 0, 0, MEANT));
        HOLDS(room_kept(n < MEANT ? 0 : MEANT) && work_left());
        HOLDS(n < MEANT || !memcmp(room, meant, MEANT));
    }
}

/* What the table, and the buffer, hold before the call makes no difference; nor where they begin. */
static void xml_garbage(void) {
    static const uint8_t garbage[] = {0, 1, 0x7f, 0x80, 0xa5, 0xff};
    static char moved[sizeof portal + 8];
    for (size_t i = 0; i < sizeof garbage; i++)
        for (size_t at = 0; at < 8; at++) {
            memset(work, garbage[i], sizeof work);
            memset(room, garbage[i], sizeof room);
            memcpy(moved + at, portal, sizeof portal);
            HOLDS(wrote(budquarry_from_web_xml(TEXT(moved + at), room + at, MEANT, work + at, BUDQUARRY_WORK), 0, 0, 0, MEANT));
            HOLDS(!memcmp(room + at, meant, MEANT) && room[at + MEANT] == garbage[i] && (at == 0 || room[at - 1] == garbage[i]));
            HOLDS(work_is(at, at + BUDQUARRY_WORK, 0) && work[at + BUDQUARRY_WORK] == garbage[i] * 0x01010101u);
        }
}

enum { PAGE = 4096, PAGES = 16 };

/* So many pages with no memory before and behind them. */
static uint8_t *edge(void) {
    uint8_t *m = mmap(NULL, (PAGES + 2) * PAGE, PROT_NONE, MAP_PRIVATE | MAP_ANONYMOUS, -1, 0);
    if (m == MAP_FAILED || mprotect(m + PAGE, PAGES * PAGE, PROT_READ | PROT_WRITE)) return NULL;
    return m + PAGE;
}

/* The file cut at every place, and buffers just large enough, with no memory behind them, and with none before them. */
static void xml_edges(void) {
    uint8_t *file = edge(), *out = edge(), *table = edge();
    HOLDS(file && out && table);
    if (!file || !out || !table) return;
    uint8_t *file_end = file + PAGES * PAGE, *out_end = out + PAGES * PAGE;
    uint32_t *numbers = (uint32_t *)(void *)(table + PAGES * PAGE) - BUDQUARRY_WORK;
    for (size_t n = 0; n < sizeof portal; n++) {
        int whole = n > sizeof portal - 3; /* without the last byte, which ends the line, it still is */
        memcpy(file_end - n, portal, n);
        memcpy(file, portal, n);
        HOLDS(wrote(budquarry_from_web_xml(file_end - n, n, out_end - MEANT, MEANT, numbers, BUDQUARRY_WORK), whole ? 0 : 17, !whole, !whole, whole ? MEANT : 0));
        HOLDS(wrote(budquarry_from_web_xml(file, n, out, MEANT, (uint32_t *)(void *)table, BUDQUARRY_WORK), whole ? 0 : 17, !whole, !whole, whole ? MEANT : 0));
    }
    HOLDS(!memcmp(out_end - MEANT, meant, MEANT) && !memcmp(out, meant, MEANT));
}

/* What is written is accepted. */
static void xml_read(void) {
    struct budquarry_written w = budquarry_from_web_xml(TEXT(portal), room, ROOM, work, WORK);
    struct budquarry_report r = budquarry_read(room, w.length, work, WORK);
    HOLDS(w.number == 0 && r.number == 0 && r.side == 0 && r.line == 0);
}

static void version(void) {
    HOLDS(!strcmp(budquarry_version(), BUDQUARRY_VERSION));
}

int main(void) {
    version();
    nulls();
    short_buffers();
    whole_buffers();
    xml_nulls();
    xml_refused();
    xml_rooms();
    xml_garbage();
    xml_edges();
    xml_read();
    printf("promises: %d of %d hold\n", tried - failures, tried);
    return failures != 0;
}
