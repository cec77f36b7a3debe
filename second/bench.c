/* bench.c: one call of the yardstick, to be counted.
 *
 *   bench CALL [TIMES]
 *
 * CALL: read, decide, self, worst, other.  Prints the outcome; with TIMES above
 * 1 the nanoseconds a call takes.  Count instructions with
 *   valgrind --tool=callgrind --toggle-collect=yardstick_read ./bench read
 * (yardstick_decide, yardstick_compare for the others).
 */
#define _POSIX_C_SOURCE 199309L
#include "generate.h"
#include "yardstick.h"

#include <stdio.h>
#include <stdlib.h>
#include <string.h>
#include <time.h>

int main(int argc, char **argv)
{
    static struct generated g;
    static uint32_t work[4096];
    static uint8_t answer[1024];
    const char *call = argc > 1 ? argv[1] : "read";
    unsigned long times = argc > 2 ? strtoul(argv[2], NULL, 10) : 1;
    /* large case 0: a full listing with itself; 2: the worst pair; 3: the same
     * with other methods on each side */
    generate_large(strcmp(call, "worst") == 0 ? 2 : strcmp(call, "other") == 0 ? 3 : 0, &g);
    struct timespec from, to;
    uint32_t number = 0, said = 0;
    clock_gettime(CLOCK_MONOTONIC, &from);
    for (unsigned long i = 0; i < times; i++) {
        if (strcmp(call, "read") == 0) {
            number = yardstick_read(g.listing, g.listing_len, work, 4096).number;
        } else if (strcmp(call, "decide") == 0) {
            static const uint8_t path[] = "/n/n/p2cdefg_abcdefg_abcdefg/x.e1";
            struct yardstick_decision d =
                yardstick_decide(g.listing, g.listing_len, path, sizeof path - 1,
                                 (const uint8_t *)"M4", 2, 1,
                                 (const uint8_t *)"role1\nrole2\n", 12, work, 4096);
            number = d.number;
            said = d.answer;
        } else {
            struct yardstick_comparison c =
                yardstick_compare(g.listing, g.listing_len, g.new_listing, g.new_len, answer,
                                  sizeof answer, work, 4096);
            number = c.number;
            said = (uint32_t)c.length;
        }
    }
    clock_gettime(CLOCK_MONOTONIC, &to);
    printf("%s: %zu bytes, number %u, answer or length %u", call, g.listing_len, number, said);
    if (times > 1)
        printf(", %.0f ns a call",
               ((double)(to.tv_sec - from.tv_sec) * 1e9 + (double)(to.tv_nsec - from.tv_nsec)) /
                   (double)times);
    printf("\n");
    return 0;
}
