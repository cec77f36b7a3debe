/* log.c: what the gateway says on standard error. See gateway.h. */
#include <stdio.h>
#include <string.h>
#include "gateway.h"

/* A listing may hold any byte from 128 on, and some of those (C1) are orders to a terminal, as those below 32 and 127 are. */
void log_text(const uint8_t *text, size_t len) {
    for (size_t i = 0; i < len; i++)
        if (text[i] == '\n' || text[i] == '\t' || (text[i] >= 32 && text[i] <= 126))
            putc(text[i], stderr);
        else
            fprintf(stderr, "\\x%02x", text[i]);
}

static void log_name(const char *file) {
    log_text((const uint8_t *)file, strlen(file));
}

void log_about(const char *before, const char *file, const char *after) {
    fputs(before, stderr);
    log_name(file);
    fprintf(stderr, "%s\n", after);
}

void log_problem(const char *file, const char *problem) {
    log_name(file);
    fprintf(stderr, ": %s\n", problem);
}

/* Only the own refusals of a listing and of a web.xml: what a request is refused for goes to whoever sent it. */
static const char *rule(uint32_t number) {
    switch (number) {
    case BUDQUARRY_LONG_LISTING: return "the listing has more bytes than one may have";
    case BUDQUARRY_BAD_FIRST_LINE: return "the first line must be exactly constraints<tab>1";
    case BUDQUARRY_BAD_FORM: return "unknown record name, wrong number of fields (one tab parts two), or no line feed at the end";
    case BUDQUARRY_WRONG_PLACE: return "this record may not stand here";
    case BUDQUARRY_BAD_NAME: return "bad role name, method name or constraint kind";
    case BUDQUARRY_BAD_PATTERN: return "bad pattern";
    case BUDQUARRY_ROLE_TWICE: return "this role is declared already";
    case BUDQUARRY_PAST_MOST: return "one too many: of constraints, collections, patterns, methods or roles";
    case BUDQUARRY_NO_END: return "the last line must be end, with nothing behind it";
    case BUDQUARRY_LONG_XML: return "it has more bytes than a web.xml may have";
    case BUDQUARRY_BAD_XML: return "not well formed, an element out of place or missing, or more of XML than is read";
    case BUDQUARRY_DEEP_XML: return "an element stands too deep";
    case BUDQUARRY_REFUSED_ELEMENT: return "user-data-constraint and deny-uncovered-http-methods are not supported";
    default: return "a refusal that is not about the listing";
    }
}

void log_refusal(const char *file, struct budquarry_report refusal) {
    fputs("refused: ", stderr);
    log_name(file);
    if (refusal.line) fprintf(stderr, ", line %u", refusal.line);
    fprintf(stderr, ": %s (refusal %u)\n", rule(refusal.number), refusal.number);
}
