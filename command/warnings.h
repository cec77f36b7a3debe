/* warnings.h: what is right by the rules and probably not meant. */
#ifndef WARNINGS_H
#define WARNINGS_H

#include "showing.h"

/* What a warning is about, in a word for machines and a sentence for people; line 0: about the request, or somewhere in a web.xml. */
struct warning {
    uint32_t line;
    const char *about;
    struct words words;
};

/* Hands each warning about an accepted listing to `found`, top down, those about a web.xml's elements first; returns their number. */
size_t warn(const struct listing *listing, void found(const struct listing *, const struct warning *));

/* The same about the path of a request. */
size_t warn_path(struct text path, void found(const struct listing *, const struct warning *));

/* On standard error. */
void say_warning(const struct listing *listing, const struct warning *warning);

#endif
