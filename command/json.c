/* json.c: see json.h. */
#include <string.h>
#include "json.h"

static int is_utf8(struct text t) {
    uint32_t point;
    while (t.len) {
        size_t n = utf8(t, &point);
        if (!n) return 0;
        t = behind(t, n);
    }
    return 1;
}

/* A character: itself, or by number, in two halves where UTF-16 needs two. */
static void put_point(FILE *to, uint32_t point) {
    if (point >= 0x10000)
        fprintf(to, "\\u%04x\\u%04x", 0xd7c0 + (unsigned)(point >> 10), 0xdc00 + (unsigned)(point & 0x3ff));
    else if (point < 32 || point > 126)
        fprintf(to, "\\u%04x", (unsigned)point);
    else
        fprintf(to, point == '"' || point == '\\' ? "\\%c" : "%c", (int)point);
}

void json_text(FILE *to, struct text t) {
    if (!is_utf8(t)) {
        fputs("{\"bytes\":\"", to);
        for (size_t i = 0; i < t.len; i++) fprintf(to, "%02x", t.at[i]);
        fputs("\"}", to);
        return;
    }
    putc('"', to);
    while (t.len) {
        uint32_t point;
        t = behind(t, utf8(t, &point));
        put_point(to, point);
    }
    putc('"', to);
}

void json_string(FILE *to, const char *s) { json_text(to, text_of(s)); }

void json_member(FILE *to, const char *name, struct text t) {
    fprintf(to, ",\"%s\":", name);
    json_text(to, t);
}

void json_words(FILE *to, const char *name, const struct words *w) {
    struct text t = said(w);
    fprintf(to, ",\"%s\":\"", name);
    while (t.len) {
        uint32_t point;
        size_t n = utf8(t, &point);
        if (n)
            put_point(to, point);
        else
            fprintf(to, "\\\\x%02x", t.at[0]);
        t = behind(t, n ? n : 1);
    }
    putc('"', to);
}

void json_fold(FILE *to, struct text path, const struct trials *t, const struct fold *f, const struct text role[]) {
    int all_but = is_all_but(t, f), written = 0;
    fputs("{\"path\":", to);
    json_text(to, path);
    fprintf(to, ",\"all_but\":%s,\"methods\":[", all_but ? "true" : "false");
    for (size_t m = 0; m < t->methods; m++) {
        if (f->has[m] == all_but) continue;
        if (written++) putc(',', to);
        json_text(to, t->method[m]);
    }
    fprintf(to, "],\"anyone\":%s,\"roles\":[", f->who.anyone ? "true" : "false");
    written = 0;
    for (size_t r = 0; !f->who.anyone && r < TRIAL_ROLES; r++) {
        if (!(f->who.roles >> r & 1)) continue;
        if (written++) putc(',', to);
        json_text(to, role[r]);
    }
    fputs("]}", to);
}

void json_refusal(FILE *to, const struct refusal *r) {
    struct words w = {.len = 0};
    explain(&w, r);
    fprintf(to, "\"refused\":{\"number\":%u,\"side\":%u,\"line\":%u,\"listing\":", r->number, r->side, r->line);
    if (r->side)
        json_string(to, r->listing->name);
    else
        fputs("null", to);
    json_words(to, "cause", &w);
    putc('}', to);
}

void json_warning(FILE *to, const struct warning *w) {
    fprintf(to, "{\"line\":%u", w->line);
    json_member(to, "about", text_of(w->about));
    json_words(to, "text", &w->words);
    putc('}', to);
}
