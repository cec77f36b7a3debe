/* rules.c: the listing that decides, and its reload. See gateway.h.
 *
 * Work tables are on the stack, a new one for each call. Two threads that share one would make grants out of denials.
 */
#define _GNU_SOURCE /* for the lock that prefers writers */
#include <pthread.h>
#include <string.h>
#include "gateway.h"

/* Requests hold the lock to read, for one decision each; only the main thread writes. */
static struct {
    pthread_rwlock_t lock;
    uint8_t text[BUDQUARRY_LISTING];
    size_t len;
} running;

/* A listing: one byte more than it may have, so that the library sees that a longer one is longer. */
struct fresh {
    uint8_t text[BUDQUARRY_LISTING + 1];
    size_t len;
};

/* Whether a file's first bytes are those of XML, as no listing's are: a byte order mark or none, white space, and then `<`. */
static int looks_like_xml(const uint8_t *text, size_t len) {
    size_t at = len >= 3 && !memcmp(text, "\xef\xbb\xbf", 3) ? 3 : 0;
    while (at < len && (text[at] == ' ' || text[at] == '\t' || text[at] == '\r' || text[at] == '\n')) at++;
    return at < len && text[at] == '<';
}

/* The listing that the text is, or that it means as a web.xml, where the library accepts it. */
static struct budquarry_report take(const uint8_t *text, size_t len, struct fresh *to) {
    budquarry_work work;
    if (looks_like_xml(text, len)) {
        struct budquarry_written w = budquarry_from_web_xml(text, len, to->text, sizeof to->text, work, BUDQUARRY_WORK);
        to->len = w.length;
        return (struct budquarry_report){w.number, w.side, w.line};
    }
    to->len = len < sizeof to->text ? len : sizeof to->text;
    memcpy(to->text, text, to->len);
    return budquarry_read(to->text, to->len, work, BUDQUARRY_WORK);
}

/* The new listing, where it can be read and the library accepts it. A file that someone is still writing has no `end`, or no `</web-app>`, and is refused. */
static int read_listing(const char *file, struct fresh *to) {
    uint8_t text[BUDQUARRY_XML + 1];
    size_t len;
    if (!read_file(file, text, sizeof text, &len)) return 0;
    struct budquarry_report r = take(text, len, to);
    if (r.number) log_refusal(file, r);
    return !r.number;
}

static void swap(const struct fresh *listing) {
    pthread_rwlock_wrlock(&running.lock);
    memcpy(running.text, listing->text, listing->len);
    running.len = listing->len;
    pthread_rwlock_unlock(&running.lock);
}

/* A steady stream of requests must not keep a narrower listing out: with a plain lock readers go first. */
int rules_start(const char *file) {
    struct fresh listing;
    pthread_rwlockattr_t writers_first;
    pthread_rwlockattr_init(&writers_first);
    pthread_rwlockattr_setkind_np(&writers_first, PTHREAD_RWLOCK_PREFER_WRITER_NONRECURSIVE_NP);
    if (pthread_rwlock_init(&running.lock, &writers_first) || !read_listing(file, &listing)) return 0;
    swap(&listing);
    return 1;
}

/* Whether the library says that nobody may do more by the new listing; where someone may, the log shows who and what. */
static int is_no_wider(const struct fresh *listing) {
    budquarry_work work;
    uint8_t answer[BUDQUARRY_ANSWER];
    struct budquarry_comparison c =
        budquarry_compare(running.text, running.len, listing->text, listing->len, answer, BUDQUARRY_ANSWER, work, BUDQUARRY_WORK);
    log_text(answer, c.length);
    return !c.number && c.length == BUDQUARRY_NO_WIDER;
}

/* Anything but `no wider`, a refusal included, keeps the running listing. */
void rules_reload(const char *file) {
    struct fresh listing;
    if (!read_listing(file, &listing)) {
        log_about("kept the running listing: ", file, " can't be read or is refused");
    } else if (!is_no_wider(&listing)) {
        log_about("kept the running listing: ", file, " lets someone do more, as shown above");
    } else {
        swap(&listing);
        log_about("took the new listing: ", file, " lets nobody do more");
    }
}

struct budquarry_decision rules_decide(const char *path, const char *method, const struct user *caller) {
    budquarry_work work;
    pthread_rwlock_rdlock(&running.lock);
    struct budquarry_decision d = budquarry_decide(running.text, running.len, (const uint8_t *)path, strlen(path), (const uint8_t *)method,
                                                   strlen(method), caller != NULL, caller ? caller->roles : NULL,
                                                   caller ? caller->roles_len : 0, work, BUDQUARRY_WORK);
    pthread_rwlock_unlock(&running.lock);
    return d;
}
