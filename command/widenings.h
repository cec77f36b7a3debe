/* widenings.h: every widening of a pair of accepted listings: what the new one grants and the old one denies, over all of 01's trials.
 *
 * All of it rests on answers of budquarry_decide about trial paths, trial methods and trial callers. They are not asked about one by one (up to 16,641
 * paths, 63 methods and 65 callers), but once for all that 01 decides alike:
 *   - 01 decides by which collections have the best pattern and, of these, which cover the method, and a collection covers a method by whether it
 *     names it. So two requests of one caller are answered alike if their best patterns stand in the same collections, and of these the same ones name
 *     their methods. The first such request is asked about.
 *   - A caller who is not logged in is asked about first. A grant to that caller is one to everybody, and closed is closed to everybody.
 *   - Else roles are asked about, many in one caller: a caller who is denied would be denied with fewer of them (login_never_loses), and a caller who
 *     is granted is asked about again with each half of them. */
#ifndef WIDENINGS_H
#define WIDENINGS_H

#include <stdio.h>
#include "listing.h"

enum {
    TRIAL_ROLES = 2 * ROLES,
    TRIAL_METHODS = 2 * METHODS + 1, /* and the filler */
    ALL_METHODS = 256,               /* and further ones, of a file of accepted widenings */
    TRIAL_PATHS = 16641,             /* 128 prefixes, each alone and with 128 endings; the endings; and the filler alone */
    LONGEST_PATH = 1024
};

/* Who may newly do something: everyone whom the old listing denies it (then nobody has to log in); or, logged in, who holds one of these roles. */
struct who {
    int anyone;
    uint64_t roles; /* by their place among the trial roles */
};

/* What was asked about one listing, for all requests with these sets. */
struct asked {
    struct set having, naming; /* the collections that have the best pattern; those of them that name the method */
    uint32_t answer;           /* to a caller who is not logged in */
    int roles_asked;
    uint64_t roles; /* each of which is granted it alone */
};
enum { ASKED = (PATTERNS + 1) * (METHODS + 1) };

struct side {
    const struct listing *listing;
    struct map map;
    uint8_t own[TRIAL_METHODS]; /* the place of a trial method among the map's methods, or METHODS */
    struct asked asked[ASKED];
    size_t asks;
    uint16_t where[PATTERNS + 1][METHODS + 1]; /* by best pattern (none last) and method (unnamed last): 1 + its place in asked, or 0 */
};

struct trial { /* a pattern that is a path, or a stem with the filler and perhaps an ending behind it */
    struct text stem, ending;
    int filled;
};

struct trials {
    struct side new, old;
    struct trial path[TRIAL_PATHS];
    struct text method[ALL_METHODS], role[TRIAL_ROLES];
    size_t paths, methods, filler_method, roles; /* the method at filler_method stands for all that neither listing names */
    char filler[8], filler_name[8];

    /* the path that was taken last, with its best patterns, and for each method who may newly use it there */
    size_t taken;
    uint8_t bytes[LONGEST_PATH];
    struct text here;
    size_t best_new, best_old;
    struct who who[ALL_METHODS];
};

/* Both listings are accepted. */
void start_trials(struct trials *t, const struct listing *old, const struct listing *new);

/* A method, which is told apart from the others that neither listing names. Returns 0 if there are too many. */
int add_method(struct trials *t, struct text method);

/* From the first trial path again. */
void rewind_trials(struct trials *t);

/* Takes the next trial path on which something is wider; returns 0 if there is none any more. Each path is taken once, by its first appearance. */
int next_widened(struct trials *t);

int is_nobody(struct who w);
/* Whether a caller with this role alone may newly use the method at the path taken last; a role outside the trial roles is at their count. */
int role_widens(struct trials *t, size_t method, size_t role);

/* Methods whose callers are the same, in one line. */
struct fold {
    uint8_t has[ALL_METHODS];
    struct who who;
};
/* The next one on the path taken last; `done` starts as all 0. Returns 0 if there is none any more. */
int next_fold(const struct trials *t, const struct who who[], uint8_t done[ALL_METHODS], struct fold *f);
/* Whether it is every method but some. */
int is_all_but(const struct trials *t, const struct fold *f);

/* One line: NAME<tab>PATH<tab>METHODS<tab>anyone or NAME<tab>PATH<tab>METHODS<tab>role<tab>ROLE.., with the roles' names at `role`. */
void write_fold(FILE *to, const char *name, struct text path, const struct trials *t, const struct fold *f, const struct text role[]);
/* What is said about them in words. */
struct summary {
    size_t paths, to_anyone; /* of the paths that are wider, those where it is so for anyone */
    int made_up;             /* a path among them has the filler in it */
};
/* Adds the path taken last, with these callers by method. Returns whether there are any. */
int add_up(struct summary *s, const struct trials *t, const struct who who[]);

/* Whether the path taken last is wider by more than one method for one caller; no role: for anyone. */
int is_more_than(const struct trials *t, struct text method, struct text role);

#endif
