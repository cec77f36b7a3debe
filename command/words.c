/* words.c: see words.h. */
#include <string.h>
#include "words.h"

enum { MOST_EXCEPTED = 8 }; /* methods that a sentence names; more of them are only counted */

static void tell(const struct words *w) {
    show(stderr, said(w));
    putc('\n', stderr);
}

/* The answer's next line without its name; 01 fixes the names and their order. */
static struct text take_field(struct text *answer, const char *name) { return behind(take_line(answer), strlen(name) + 1); }

struct request shown_request(struct text answer) {
    struct request q = {.role = text_of("")};
    take_line(&answer);
    q.path = take_field(&answer, "path");
    q.method = take_field(&answer, "method");
    if (!same(answer, text_of("caller\tnone\n"))) q.role = take_field(&answer, "caller\trole");
    return q;
}

void say_no_wider(const struct listing *old, const struct listing *new) {
    fprintf(stderr, "NO WIDER: nobody may do anything under the new %s that the old %s denies.\n", kind_of_file(new), kind_of_file(old));
}

/* Where one is a listing, the other is taken for one too: a web.xml means one. */
static int are_web_xml(const struct trials *t) { return t->old.listing->is_xml && t->new.listing->is_xml; }

/* A method that people know and neither listing names. */
static struct text example_method(const struct trials *t) {
    static const char *const known[] = {"POST", "PUT", "DELETE", "PATCH", "GET", "HEAD", "OPTIONS"};
    for (size_t i = 0; i < sizeof known / sizeof *known; i++)
        if (find_text(t->method, t->filler_method, text_of(known[i])) == t->filler_method) return text_of(known[i]);
    return t->method[t->filler_method];
}

/* The filler method is tried last: on its path no method that a listing names is wider. */
static void say_method(struct words *w, const struct trials *t, struct text method) {
    struct text example = example_method(t);
    if (!same(method, t->method[t->filler_method])) {
        say(w, "use %t", &method);
        return;
    }
    if (t->filler_method > MOST_EXCEPTED)
        say(w, "use every method that neither %s names", are_web_xml(t) ? "web.xml" : "listing");
    else
        say(w, "use every method");
    for (size_t m = 0; m < t->filler_method && t->filler_method <= MOST_EXCEPTED; m++)
        say(w, "%s%t", !m ? " except " : m + 1 < t->filler_method ? ", " : " and ", &t->method[m]);
    say(w, ", for example %t,", &example);
}

static void say_best(struct words *w, const struct map *map, size_t best) {
    if (best == map->patterns)
        say(w, "none");
    else
        say(w, "%t", &map->pattern[best].text);
}

/* 01 decides a path by its best patterns alone: a path that no listing writes out stands for those with the same best patterns, and for no others. */
static void say_path(struct words *w, const struct trials *t, struct text path) {
    const struct map *new = &t->new.map, *old = &t->old.map;
    size_t in_new = best_pattern(new, path), in_old = best_pattern(old, path);
    int has_new = in_new < new->patterns, has_old = in_old < old->patterns;
    if ((has_new && kind_of(new->pattern[in_new].text) == EXACT) || (has_old && kind_of(old->pattern[in_old].text) == EXACT)) {
        say(w, "%t", &path);
        return;
    }
    say(w, "every path like %t (closest pattern: ", &path);
    if (has_new && has_old && same(new->pattern[in_new].text, old->pattern[in_old].text)) {
        say_best(w, new, in_new);
        say(w, " in both %s)", are_web_xml(t) ? "web.xml files" : "listings");
    } else {
        say_best(w, new, in_new);
        say(w, " in the new %s, ", kind_of_file(t->new.listing));
        say_best(w, old, in_old);
        say(w, " in the old one)");
    }
}

/* What the old listing answers to the request shown. */
static const char *old_answer(const struct trials *t, const struct request *q) {
    static budquarry_work work;
    const struct listing *old = t->old.listing;
    /* a role with its byte 10, which follows it in the answer, as budquarry_decide takes names */
    struct budquarry_decision d = budquarry_decide(old->bytes, old->len, q->path.at, q->path.len, q->method.at, q->method.len, q->role.len > 0,
                                                   q->role.at, q->role.len + (q->role.len > 0), work, BUDQUARRY_WORK);
    switch (d.answer) {
    case BUDQUARRY_CLOSED: return "closes that to everyone";
    case BUDQUARRY_LOGIN_WANTED: return "wants a login for that";
    case BUDQUARRY_ROLE_LACKING: return "does not admit that role to it";
    default: return "does not deny that when asked again, which must never be: please report it";
    }
}

/* Whether the request shown is one by role: then there may be worse. */
static void say_more(struct words *w, int more_here, const struct summary *s, int by_role) {
    size_t more = s->paths - 1;
    if (!more && !more_here) {
        say(w, "That is all that is wider.");
        return;
    }
    say(w, "That is not all: ");
    if (more_here) say(w, "more is wider on %s", more ? "the same path, and " : "the same path");
    if (more) say(w, more == 1 ? "1 more path is wider" : "%u more paths are wider", (unsigned)more);
    say(w, ". ");
    if (s->to_anyone && !more && by_role) say(w, "Some of it anyone may do, without a login. ");
    if (s->to_anyone && more) {
        if (s->to_anyone == s->paths)
            say(w, "On each of these paths");
        else
            say(w, "On %u of these %u paths", (unsigned)s->to_anyone, (unsigned)s->paths);
        say(w, " anyone gets in without a login. ");
    }
    say(w, "Add --all to see everything.");
}

void say_wider(const struct trials *t, const struct request *q, int more_here, const struct summary *s) {
    struct words w = {.len = 0}, more = {.len = 0};
    if (q->role.len)
        say(&w, "WIDER: a caller with the role %t may ", &q->role);
    else
        say(&w, "WIDER: anyone, without logging in, may ");
    say_method(&w, t, q->method);
    say(&w, " on ");
    say_path(&w, t, q->path);
    say(&w, ". The old %s %s.", kind_of_file(t->old.listing), old_answer(t, q));
    tell(&w);
    say_more(&more, more_here, s, q->role.len > 0);
    tell(&more);
}

void say_all(const struct trials *t, const struct summary *s, const char *accepting) {
    struct words w = {.len = 0};
    say(&w, s->paths == 1 ? "WIDER: on 1 path" : "WIDER: on %u paths", (unsigned)s->paths);
    say(&w, " someone may do more than under the old %s", kind_of_file(t->old.listing));
    if (accepting) say(&w, ", and it is not in %s", accepting);
    if (s->to_anyone)
        say(&w, s->to_anyone == s->paths ? "; anyone may, without a login" : "; on %u of them anyone may, without a login", (unsigned)s->to_anyone);
    say(&w, ".");
    if (s->made_up) say(&w, " A path with %s in it stands for every path with the same closest patterns.", t->filler);
    tell(&w);
}

void say_accepted(const struct trials *t, const char *accepting) {
    struct words w = {.len = 0};
    say(&w, "ACCEPTED: the new %s is wider than the old one, and all of that is in %s.", kind_of_file(t->new.listing), accepting);
    tell(&w);
}
