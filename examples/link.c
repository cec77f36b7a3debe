/* link.c: a whole program over the library. cc link.c $(pkg-config --cflags --libs budquarry) -o link && ./link */
#include <budquarry.h>
#include <stdio.h>
#include <string.h>

#define TEXT(s) (const uint8_t *)(s), strlen(s)

static const char old_listing[] = "constraints\t1\nrole\tassessor\nconstraint\tauth\nallow\tassessor\ncollection\npattern\t/clock/*\nend\n";
static const char new_listing[] = "constraints\t1\nrole\tassessor\nconstraint\tauth\nallow\tassessor\ncollection\npattern\t/clock/*\nmethod\tPUT\nend\n";

int main(void) {
    budquarry_work work; /* on the stack: two calls at once must not share one */
    uint8_t answer[BUDQUARRY_ANSWER];

    struct budquarry_decision d =
        budquarry_decide(TEXT(old_listing), TEXT("/clock/offset"), TEXT("PUT"), 1, TEXT("adjuster\nassessor\n"), work, BUDQUARRY_WORK);
    if (d.number) return printf("refused: %u, side %u, line %u\n", d.number, d.side, d.line), 2;
    printf("%s\n", d.answer == BUDQUARRY_OPEN || d.answer == BUDQUARRY_BY_ROLE ? "granted" : "denied");

    struct budquarry_comparison c = budquarry_compare(TEXT(old_listing), TEXT(new_listing), answer, sizeof answer, work, BUDQUARRY_WORK);
    if (c.number) return printf("refused: %u, side %u, line %u\n", c.number, c.side, c.line), 2;
    fwrite(answer, 1, c.length, stdout);
    return c.length == BUDQUARRY_NO_WIDER ? 0 : 1;
}
