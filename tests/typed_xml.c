/* What 02's Item 3 says of the files typed in tests/typed_xml.txt, asked of the proved archive and of the second implementation. Each call gets buffers
 * full of garbage; the whole of them is looked at afterwards. typed_xml FILE; exit 1 where one of the two differs. Compiled with ONLY_SECOND it asks the
 * second implementation alone. */
#include "../include/budquarry.h"
#include "../second/second.h"
#include "xml_cases.h"

enum { WORK = 5000, ROOM = 25000 };
static uint32_t work[WORK];
static uint8_t room[ROOM];
static struct xml_case c;
static int cases, wrong;

static uint32_t garbage(size_t i) { return 0xAAAAAAAAu + (uint32_t)i; }

static void lend(void) {
    for (size_t i = 0; i < WORK; i++) work[i] = garbage(i);
    memset(room, 0xAA, ROOM);
}

static int work_left_right(void) {
    for (size_t i = 0; i < WORK; i++)
        if (work[i] != (c.number != 1 && i < 4096 ? 0 : garbage(i))) return 0;
    return 1;
}

static int room_left_right(void) {
    size_t n = c.number == 0 ? c.listing_len : 0;
    if (memcmp(room, c.listing, n)) return 0;
    for (size_t i = n; i < ROOM; i++)
        if (room[i] != 0xAA) return 0;
    return 1;
}

static void judge(const char *who, uint32_t number, uint32_t side, uint32_t line, size_t length) {
    int back = number == c.number && side == c.side && line == c.line && length == c.listing_len;
    if (back && work_left_right() && room_left_right()) return;
    wrong++;
    printf("typed_xml.txt:%u: the %s gives %u %u %u %zu%s: %.120s\n", c.at, who, (unsigned)number, (unsigned)side, (unsigned)line, length,
           back ? " and other buffers" : "", c.typed);
}

int main(int argc, char **argv) {
    FILE *f = fopen(argc > 1 ? argv[1] : "tests/typed_xml.txt", "r");
    if (f == NULL) return perror("typed_xml.txt"), 2;
    while (xml_case_next(f, &c)) {
        cases++;
#ifndef ONLY_SECOND
        lend();
        struct budquarry_written a = budquarry_from_web_xml(c.xml, c.xml_len, room, c.room, work, c.work_len);
        judge("proved one", a.number, a.side, a.line, a.length);
#endif
        lend();
        struct second_written b = second_from_web_xml(c.xml, c.xml_len, room, c.room, work, c.work_len);
        judge("second", b.number, b.side, b.line, b.length);
    }
    fclose(f);
    printf("typed web.xml: %d cases, %d wrong\n", cases, wrong);
    return wrong != 0 || cases < 150;
}
