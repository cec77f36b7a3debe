/* showing.h: other people's bytes on their way to a reader, and sentences with such bytes in them.
 *
 * A byte of a file, of a file's name or of an argument never drives a terminal: there control bytes (also the ones that Unicode has above 127, and
 * those that turn or hide what stands beside them) and what is no UTF-8 are shown by number, like \x1b. Well-formed UTF-8 is shown as it is where
 * LC_ALL, LC_CTYPE or LANG, the first of them that says something, says UTF-8. Where no terminal is, the exact bytes come out. */
#ifndef SHOWING_H
#define SHOWING_H

#include <stdio.h>
#include "listing.h"

int is_terminal(FILE *to);

void show(FILE *to, struct text t);
void show_string(FILE *to, const char *s);

/* A text whose tabs and line feeds are the format's own. */
void show_answer(FILE *to, struct text t);

/* Hands over what was written to standard output, before any words about it. Returns 0, with words, if it can't. */
int handed_over(void);

/* A line of a listing, indented, at most 300 bytes of it: every line that can be right is shorter. On a terminal its tabs, and spaces at its end, can
 * be seen. */
void show_line(FILE *to, struct text line);

/* The length of the well-formed UTF-8 sequence that the text starts with, and its code point; 0 if it starts with none. */
size_t utf8(struct text t, uint32_t *point);

/* A sentence in the making. */
struct words {
    uint8_t at[4096];
    size_t len;
};

/* Adds to it: %s is a string, %t a pointer to a text, of which at most 300 bytes are taken, %u an unsigned number; %% is %. */
void say(struct words *w, const char *form, ...);
struct text said(const struct words *w);

/* How far a long piece of work is: drawn on standard error if that is a terminal and the work takes longer than a second, and wiped off at its end. */
void start_progress(int wanted);
void show_progress(size_t done, size_t of);
void end_progress(void);

#endif
