/* accept.h: a file of intended widenings, lines as `compare --all` writes them, against those that happen.
 *
 * A line is widening<tab>PATH<tab>METHODS<tab>anyone or widening<tab>PATH<tab>METHODS<tab>role<tab>NAME.., with METHODS like GET,POST or every method or
 * every method but GET,POST. Empty lines, lines that start with #, and the lines verdict and gone are passed over. A widening is accepted as far as
 * its path, method and caller are in a line, however the lines were folded when they were written. Who accepts anyone accepts every role. */
#ifndef ACCEPT_H
#define ACCEPT_H

#include "widenings.h"

struct accepted { /* one line */
    struct text path, methods, roles; /* the roles parted by tabs */
    int all_but, anyone, used;
    uint32_t line;
};

struct acceptance {
    const char *name; /* the file's */
    struct text bytes;
    struct accepted *line; /* sorted by path */
    size_t lines;
};

/* Cuts the file's bytes into lines. Returns 0, with words on standard error, if one of them is no widening. */
int cut_acceptance(struct acceptance *a);

/* Adds the methods that it names to the trials. Returns 0, with words, if there are too many. */
int add_accepted_methods(struct trials *t, const struct acceptance *a);

/* Who of those that may newly use a method at the path taken last is in no line. */
void keep_unaccepted(const struct trials *t, const struct acceptance *a, struct who who[ALL_METHODS]);

/* What no longer happens of a line: methods and callers, its roles by their place in `role`. */
struct gone {
    const struct accepted *line;
    struct fold fold;
    struct text role[TRIAL_ROLES];
    int is_all; /* nothing of the line happens any more */
};
void find_gone(struct trials *t, struct acceptance *a, void found(void *to, const struct trials *, const struct gone *), void *to);

#endif
