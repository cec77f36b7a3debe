/* compare_runs.c: what the compare program has to print of two files, from the
 * second implementation.
 *
 *   compare_runs OLD NEW
 *
 * "On a refusal it prints one line, `refused⇥NUMBER⇥SIDE⇥LINE`.  A file that
 * can't be opened counts as no bytes."  So does one that can't be read.
 */
#include "second.h"

#include <stdio.h>

#define ROOM 1000000

static size_t load(const char *name, uint8_t *bytes)
{
    FILE *f = fopen(name, "rb");
    if (f == NULL)
        return 0;
    size_t n = fread(bytes, 1, ROOM, f);
    if (ferror(f))
        n = 0;
    fclose(f);
    return n;
}

int main(int argc, char **argv)
{
    static uint8_t old[ROOM], new[ROOM], answer[1024];
    static uint32_t work[4096];
    if (argc != 3) {
        fprintf(stderr, "compare_runs OLD NEW\n");
        return 2;
    }
    size_t old_length = load(argv[1], old);
    size_t new_length = load(argv[2], new);
    struct second_comparison c =
        second_compare(old, old_length, new, new_length, answer, sizeof answer, work, 4096);
    if (c.number != 0)
        printf("refused\t%u\t%u\t%u\n", c.number, c.side, c.line);
    else
        fwrite(answer, 1, c.length, stdout);
    return fflush(stdout) != 0;
}
