/* read_web_xml FILE..: a line for each, `read<tab>ROLES<tab>CONSTRAINTS<tab>FILE` with what the listing has, or `refused<tab>NUMBER<tab>LINE<tab>FILE`, by the
 * second implementation. Exit 2 where a file can't be read. */
#include <stdio.h>
#include <string.h>
#include "../second/second.h"

static uint8_t xml[1 << 20], listing[24577];
static uint32_t work[4096];

/* Lines that start with the record. */
static unsigned count(const char *record, size_t length) {
    unsigned n = 0;
    for (size_t i = 0; i + strlen(record) <= length; i++)
        if ((i == 0 || listing[i - 1] == 10) && !memcmp(listing + i, record, strlen(record))) n++;
    return n;
}

int main(int argc, char **argv) {
    for (int i = 1; i < argc; i++) {
        FILE *f = fopen(argv[i], "rb");
        if (f == NULL) return perror(argv[i]), 2;
        size_t n = fread(xml, 1, sizeof xml, f);
        fclose(f);
        struct second_written w = second_from_web_xml(xml, n, listing, sizeof listing, work, 4096);
        if (w.number == 0) printf("read\t%u\t%u\t%s\n", count("role\t", w.length), count("constraint\t", w.length), argv[i]);
        else printf("refused\t%u\t%u\t%s\n", (unsigned)w.number, (unsigned)w.line, argv[i]);
    }
    return 0;
}
