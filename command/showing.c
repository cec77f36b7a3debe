/* showing.c: see showing.h. */
#define _POSIX_C_SOURCE 200809L
#include <stdarg.h>
#include <stdlib.h>
#include <string.h>
#include <time.h>
#include <unistd.h>
#include "showing.h"

enum { LONGEST_SHOWN = 300, BAR = 40 };

int is_terminal(FILE *to) {
    static int known[3]; /* of standard output and standard error: 0 not asked yet, 1 no, 2 yes */
    int file = fileno(to);
    if (file < 0 || file > 2) return 0;
    if (!known[file]) known[file] = 1 + (isatty(file) == 1);
    return known[file] == 2;
}

/* By hand, since the command is linked statically and a terminal may speak a language whose locale this machine lacks. */
static int shows_utf8(void) {
    static const char *const variables[] = {"LC_ALL", "LC_CTYPE", "LANG"};
    static int known; /* 0 not looked up yet, 1 no, 2 yes */
    for (size_t i = 0; !known && i < 3; i++) {
        const char *value = getenv(variables[i]);
        if (!value || !*value) continue;
        known = 1;
        for (; *value; value++) {
            char five[6] = "";
            for (size_t k = 0; k < 5 && value[k]; k++) five[k] = (char)(value[k] >= 'A' && value[k] <= 'Z' ? value[k] + 32 : value[k]);
            if (!memcmp(five, "utf8", 4) || !memcmp(five, "utf-8", 5)) known = 2;
        }
    }
    if (!known) known = 1;
    return known == 2;
}

size_t utf8(struct text t, uint32_t *point) {
    static const struct {
        uint8_t mask, is;
        uint32_t least;
    } forms[] = {{0x80, 0, 0}, {0xe0, 0xc0, 0x80}, {0xf0, 0xe0, 0x800}, {0xf8, 0xf0, 0x10000}};
    for (size_t n = 0; n < 4 && n < t.len; n++) {
        if ((t.at[0] & forms[n].mask) != forms[n].is) continue;
        *point = t.at[0] & (uint8_t)~forms[n].mask;
        for (size_t i = 1; i <= n; i++) {
            if ((t.at[i] & 0xc0) != 0x80) return 0;
            *point = *point << 6 | (t.at[i] & 0x3f);
        }
        int half = *point >= 0xd800 && *point <= 0xdfff; /* of a pair in UTF-16: no character */
        return *point < forms[n].least || *point > 0x10ffff || half ? 0 : n + 1;
    }
    return 0;
}

/* Control characters, and those that turn or hide what stands beside them. */
static int is_driving(uint32_t point) {
    return point < 32 || (point >= 127 && point < 160) || (point >= 0x200b && point <= 0x200f) || (point >= 0x2028 && point <= 0x202e) ||
           (point >= 0x2060 && point <= 0x206f) || point == 0xfeff || (point >= 0xe0000 && point <= 0xe007f);
}

/* How many bytes from here on a terminal may get as they are. */
static size_t plain(struct text t) {
    uint32_t point = 0;
    size_t n = utf8(t, &point);
    return n && !is_driving(point) && (point < 128 || shows_utf8()) ? n : 0;
}

static void show_but(FILE *to, struct text t, const char *kept) {
    if (!is_terminal(to)) {
        fwrite(t.at, 1, t.len, to);
        return;
    }
    while (t.len) {
        size_t n = memchr(kept, t.at[0], strlen(kept)) ? 1 : plain(t);
        if (n)
            fwrite(t.at, 1, n, to);
        else
            fprintf(to, "\\x%02x", t.at[0]);
        t = behind(t, n ? n : 1);
    }
}

void show(FILE *to, struct text t) { show_but(to, t, ""); }
void show_string(FILE *to, const char *s) { show(to, text_of(s)); }
void show_answer(FILE *to, struct text t) { show_but(to, t, "\t\n"); }

int handed_over(void) {
    if (!fflush(stdout) && !ferror(stdout)) return 1;
    perror("budquarry: standard output");
    return 0;
}

static void show_field(FILE *to, struct text field) {
    size_t blanks = 0;
    while (is_terminal(to) && blanks < field.len && field.at[field.len - 1 - blanks] == ' ') blanks++;
    show(to, (struct text){field.at, field.len - blanks});
    while (blanks--) fputs("<space>", to);
}

void show_line(FILE *to, struct text line) {
    struct text shown = {line.at, line.len < LONGEST_SHOWN ? line.len : LONGEST_SHOWN};
    fputs("  ", to);
    for (size_t start = 0, i = 0; i <= shown.len; i++) {
        if (i < shown.len && shown.at[i] != '\t') continue;
        show_field(to, (struct text){shown.at + start, i - start});
        if (i < shown.len) fputs(is_terminal(to) ? "<tab>" : "\t", to);
        start = i + 1;
    }
    if (line.len > LONGEST_SHOWN) fprintf(to, ".. (%zu bytes in all)", line.len);
    putc('\n', to);
}

static void add(struct words *w, struct text t) {
    if (t.len > sizeof w->at - w->len) t.len = sizeof w->at - w->len;
    if (t.len) memcpy(w->at + w->len, t.at, t.len);
    w->len += t.len;
}

void say(struct words *w, const char *form, ...) {
    va_list arguments;
    va_start(arguments, form);
    while (*form) {
        size_t plain_len = strcspn(form, "%");
        char number[16];
        struct text t;
        add(w, (struct text){(const uint8_t *)form, plain_len});
        form += plain_len;
        if (!*form) break;
        switch (form[1]) {
        case 's': add(w, text_of(va_arg(arguments, const char *))); break;
        case 't':
            t = *va_arg(arguments, const struct text *);
            add(w, t.len < LONGEST_SHOWN ? t : (struct text){t.at, LONGEST_SHOWN});
            break;
        case 'u':
            snprintf(number, sizeof number, "%u", va_arg(arguments, unsigned));
            add(w, text_of(number));
            break;
        default: add(w, text_of("%")); break;
        }
        form += 2;
    }
    va_end(arguments);
}

struct text said(const struct words *w) { return (struct text){w->at, w->len}; }

static struct {
    int wanted, drawn;
    struct timespec last; /* the start, and then when it was last drawn */
} progress;

void start_progress(int wanted) {
    progress.wanted = wanted && is_terminal(stderr);
    progress.drawn = 0;
    clock_gettime(CLOCK_MONOTONIC, &progress.last);
}

void show_progress(size_t done, size_t of) {
    struct timespec now;
    char bar[BAR + 1] = "";
    if (!progress.wanted) return;
    clock_gettime(CLOCK_MONOTONIC, &now);
    long passed = (now.tv_sec - progress.last.tv_sec) * 1000 + (now.tv_nsec - progress.last.tv_nsec) / 1000000;
    if (passed < (progress.drawn ? 100 : 1000)) return;
    progress.drawn = 1;
    progress.last = now;
    memset(bar, '.', BAR);
    memset(bar, '#', BAR * done / of);
    fprintf(stderr, "\r[%s] %zu of %zu paths tried", bar, done, of);
    fflush(stderr);
}

void end_progress(void) {
    if (progress.drawn) fprintf(stderr, "\r%*s\r", BAR + 40, "");
    progress.drawn = 0;
}
