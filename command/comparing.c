/* comparing.c: see comparing.h. */
#include <string.h>
#include "comparing.h"
#include "json.h"
#include "words.h"

static struct trials trials;

/* Takes the next trial path on which something is wider that is not accepted; `who` for each method. */
static int next_to_tell(const struct comparing *c, struct summary *s, struct who who[ALL_METHODS]) {
    while (next_widened(&trials)) {
        memcpy(who, trials.who, sizeof trials.who);
        if (c->accepting) keep_unaccepted(&trials, c->accepting, who);
        if (add_up(s, &trials, who)) return 1;
    }
    return 0;
}

static struct summary sum_up(const struct comparing *c) {
    static struct who who[ALL_METHODS];
    struct summary s = {0, 0, 0};
    rewind_trials(&trials);
    while (next_to_tell(c, &s, who)) continue;
    return s;
}

/* Whether the first path on which something is wider is the one that comparing shows, with its method and caller: that verdict is proved, and what is listed
 * here must not miss it. */
static int has_shown(const struct request *shown) {
    rewind_trials(&trials);
    if (!next_widened(&trials) || !same(trials.here, shown->path)) return 0;
    struct who w = trials.who[find_text(trials.method, trials.filler_method, shown->method)];
    size_t role = find_text(trials.role, trials.roles, shown->role);
    return shown->role.len ? role < trials.roles && w.roles >> role & 1 : w.anyone;
}

/* ---- the lists, as lines or in JSON */

struct list {
    const struct comparing *c;
    size_t written;
};

static void write_one(struct list *l, const char *name, struct text path, const struct fold *f, const struct text role[]) {
    if (!l->c->json) {
        write_fold(stdout, name, path, &trials, f, role);
        return;
    }
    if (l->written++) putchar(',');
    json_fold(stdout, path, &trials, f, role);
}

static void write_widenings(const struct comparing *c) {
    static struct who who[ALL_METHODS];
    struct list list = {c, 0};
    struct summary ignored = {0, 0, 0};
    struct fold f;
    rewind_trials(&trials);
    while (next_to_tell(c, &ignored, who)) {
        uint8_t done[ALL_METHODS] = {0};
        while (next_fold(&trials, who, done, &f)) write_one(&list, "widening", trials.here, &f, trials.role);
    }
}

static void write_gone(void *to, const struct trials *t, const struct gone *gone) {
    (void)t;
    write_one(to, "gone", gone->line->path, &gone->fold, gone->role);
}

static void say_gone(void *to, const struct trials *t, const struct gone *gone) {
    const struct comparing *c = to;
    show_string(stderr, c->accepting->name);
    fprintf(stderr, ":%u: %s no longer happens", gone->line->line, gone->is_all ? "this widening" : "a part of this widening");
    fputs(gone->is_all ? ". Take the line out.\n" : ": ", stderr);
    if (!gone->is_all) write_fold(stderr, "gone", gone->line->path, t, &gone->fold, gone->role);
}

static void write_json(const struct comparing *c, const char *verdict, const struct request *shown) {
    struct list list = {c, 0};
    fputs("{\"command\":\"compare\"", stdout);
    json_member(stdout, "old", text_of(c->old->name));
    json_member(stdout, "new", text_of(c->new->name));
    json_member(stdout, "verdict", text_of(verdict));
    fputs(",\"shown\":", stdout);
    if (shown) {
        fputs("{\"path\":", stdout);
        json_text(stdout, shown->path);
        json_member(stdout, "method", shown->method);
        fputs(",\"role\":", stdout);
        if (shown->role.len)
            json_text(stdout, shown->role);
        else
            fputs("null", stdout);
        putchar('}');
    } else {
        fputs("null", stdout);
    }
    fputs(",\"widenings\":[", stdout);
    if (shown) write_widenings(c);
    fputs("],\"gone\":[", stdout);
    if (c->accepting) find_gone(&trials, c->accepting, write_gone, &list);
    fputs("]}\n", stdout);
}

static void write_lines(const struct comparing *c, const char *verdict, const struct request *shown) {
    struct list list = {c, 0};
    printf("verdict\t%s\n", verdict);
    if (shown) write_widenings(c);
    if (c->accepting) find_gone(&trials, c->accepting, write_gone, &list);
}

/* ---- all of it */

static void say_comparison(const struct comparing *c, const struct request *shown, const struct summary *s) {
    const char *accepting = c->accepting ? c->accepting->name : NULL;
    if (!shown) {
        say_no_wider(c->old, c->new);
    } else if (accepting && !s->paths) {
        say_accepted(&trials, accepting);
    } else if (c->all || accepting) {
        say_all(&trials, s, accepting);
    } else {
        rewind_trials(&trials);
        next_widened(&trials); /* the path that comparing shows is the first */
        say_wider(&trials, shown, is_more_than(&trials, shown->method, shown->role), s);
    }
    if (accepting) find_gone(&trials, c->accepting, say_gone, (void *)c);
}

int report_comparison(const struct comparing *c, struct text answer) {
    int is_listed = c->all || c->json || c->accepting, is_wider = answer.len != BUDQUARRY_NO_WIDER;
    struct summary s = {0, 0, 0};
    struct request request = {0};
    const struct request *shown = is_wider ? &request : NULL;
    if (is_wider) request = shown_request(answer);
    if (!is_listed) show_answer(stdout, answer);
    if (!is_listed && !handed_over()) return 2;
    if (!is_listed && c->quiet) return is_wider;
    start_trials(&trials, c->old, c->new);
    if (c->accepting && !add_accepted_methods(&trials, c->accepting)) return 2;
    start_progress(!c->quiet);
    int is_sound = !is_wider || has_shown(shown);
    if (is_wider) s = sum_up(c);
    end_progress();
    if (!is_sound) return fputs("budquarry: what comparing shows is not among the widenings found, which must never be: please report it\n", stderr), 2;
    const char *verdict = !is_wider ? "no wider" : s.paths ? "wider" : "accepted";
    if (c->json)
        write_json(c, verdict, shown);
    else if (is_listed)
        write_lines(c, verdict, shown);
    if (!handed_over()) return 2;
    if (!c->quiet) say_comparison(c, shown, &s);
    return is_wider && s.paths > 0;
}
