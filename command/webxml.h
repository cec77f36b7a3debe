/* webxml.h: why a web.xml is refused, and what of an accepted one is probably misspelt. That it is refused, and at which line, is the library's verdict: the
 * file is read here once more up to its first fault, and what that is, is said where it has the library's number and line. */
#ifndef WEBXML_H
#define WEBXML_H

#include "causes.h"

void explain_web_xml(struct words *w, const struct refusal *r);

/* An element that is passed over where one that counts was probably meant: its name is misspelt, or has a prefix. */
struct misspelt {
    struct text name;
    const char *meant;
    uint32_t line;
};
enum { MOST_MISSPELT = 32 };

/* The first ones in an accepted web.xml; returns their number. */
size_t find_misspelt(const struct listing *l, struct misspelt found[MOST_MISSPELT]);

#endif
