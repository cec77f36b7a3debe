/* markup.h: the tags, comments and references of an XML file, read up to the first that is wrong. A function that meets it says what it is and returns 0. */
#ifndef MARKUP_H
#define MARKUP_H

#include "showing.h"

struct markup {
    struct text file;
    size_t at;       /* the next byte's place */
    uint32_t number; /* of the fault, by the library's numbers */
    size_t fault;    /* and its place */
    struct words *w; /* what is said of it */
};

struct tag {
    size_t here; /* the place of its < */
    struct text name;
    int is_empty; /* like <a/> */
};

int ended(const struct markup *m);
int is_at(const struct markup *m, const char *bytes);
int is_white(uint8_t b);
void skip_white(struct markup *m);
/* Lines count from 1. */
uint32_t line_of(const struct markup *m, size_t place);

int fault(struct markup *m, uint32_t number, size_t place);
/* A fault of form, and one where the file ends too early. */
int ill_formed(struct markup *m, size_t place, const char *why);
int runs_out(struct markup *m, const char *where);

int read_declaration(struct markup *m);
int read_start_tag(struct markup *m, struct tag *tag);
int read_end_tag(struct markup *m, const struct tag *start);
/* At <!: a comment, and nothing else may stand there. */
int read_comment(struct markup *m);
/* A byte of text or a reference, in an element or in the value of an attribute; `here` is the tag's place. */
int read_byte(struct markup *m, size_t here, uint8_t *meant);

#endif
