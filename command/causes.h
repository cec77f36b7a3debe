/* causes.h: why a listing, a web.xml or a request is refused, and what to do about it. That it is refused, and at which line, is the library's verdict; the
 * cause is looked up in the bytes of that line, and for a web.xml in those before it. */
#ifndef CAUSES_H
#define CAUSES_H

#include "showing.h"

struct refusal {
    uint32_t number, side, line;
    const struct listing *listing; /* which is refused, with side 1 or 2 */
    const char *which;             /* "old ", "new " or "" */
    const char *path, *method;     /* of the request that is refused, with side 0 */
    struct text roles;             /* its caller's, each ended by byte 10 */
};

/* One sentence about the cause, and one about what to do. */
void explain(struct words *w, const struct refusal *r);

/* The same on standard error, behind FILE:LINE: as compilers write it, and the line's own text below. */
void say_refusal(const struct refusal *r);

/* The file's name, or what stands for it. */
const char *shown_name(const struct listing *listing);

/* 01's methods. */
int is_method(struct text t);

/* What is wrong with a name, a method or a pattern, and which byte of a text; nothing is said where it is right. control_byte returns whether it said something. */
void bad_role(struct words *w, struct text name);
void bad_method(struct words *w, struct text name);
void bad_pattern(struct words *w, struct text p);
int control_byte(struct words *w, struct text t, const char *what);

/* That the file is in UTF-16; returns whether it is. */
int utf16(struct words *w, struct text file);

/* The one of the words, if any, that was probably meant: it differs by a letter or two, or by small and large letters. */
const char *meant(struct text t, const char *const words[], size_t count);

#endif
