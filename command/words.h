/* words.h: what the command says in plain English on standard error, beside the exact text on standard output. */
#ifndef WORDS_H
#define WORDS_H

#include "showing.h"
#include "widenings.h"

/* The request that an answer of budquarry_compare shows; no role: a caller who is not logged in. */
struct request {
    struct text path, method, role;
};
struct request shown_request(struct text answer);

void say_no_wider(const struct listing *old, const struct listing *new);

/* Who may do what under the new listing, what the old listing answers to it, and how much more is wider: on this path, and on all. */
void say_wider(const struct trials *t, const struct request *q, int more_here, const struct summary *s);

/* How much is wider in all, behind the list of it; with a file of accepted widenings, beside these. */
void say_all(const struct trials *t, const struct summary *s, const char *accepting);

/* That the file has all of it. */
void say_accepted(const struct trials *t, const char *accepting);

#endif
