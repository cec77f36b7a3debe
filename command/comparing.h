/* comparing.h: what `compare` writes and says about two accepted listings. */
#ifndef COMPARING_H
#define COMPARING_H

#include "accept.h"

struct comparing {
    const struct listing *old, *new;
    struct acceptance *accepting; /* or NULL */
    int all, json, quiet;
};

/* `answer` is that of budquarry_compare. Returns 0 for no wider, or all accepted; 1 for wider; 2 if something went wrong. */
int report_comparison(const struct comparing *c, struct text answer);

#endif
