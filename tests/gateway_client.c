/* gateway_client: what curl and ab can't do to a gateway on loopback. It writes its requests itself, byte for byte.
 *   raw PORT                              sends standard input, hangs up its side, prints the status of each reply on one line
 *   agree PORT LISTING USERS SEED N ODD   N requests; each reply must be what budquarry_decide says, called here with the same bytes; ODD is `refuse`
 *                                         where paths that could be read as another path must be refused, `pass` where they are decided as well
 *   damage PORT SEED N                    N requests with damaged bytes; the gateway must answer below 500 (or 505), or hang up
 *   hold PORT N                           N connections at once, all in the middle of a request; half of them go on, half hang up
 *   crowd PORT N MS                       N connections that send a byte now and then; another client must get its reply within MS milliseconds, and one
 *                                         that asks all the time must get all of them
 *   silent PORT N PID MS                  N connections that say nothing; SIGTERM to PID must end them all within MS milliseconds
 *   upload PORT KIND                      a denied request with an endless body (KIND is `length` or `chunked`): it must be denied and cut off
 *   overhear PORT PID                     a connection that says nothing; SIGHUP to PID, and nothing may come
 * Exit status: 0 as it must be, 1 not so (said on standard error). Nothing waits longer than WAIT seconds.
 */
#define _GNU_SOURCE
#include <arpa/inet.h>
#include <poll.h>
#include <signal.h>
#include <stdint.h>
#include <stdio.h>
#include <stdlib.h>
#include <string.h>
#include <sys/socket.h>
#include <sys/time.h>
#include <time.h>
#include <unistd.h>
#include "../include/budquarry.h"

enum { WAIT = 8, REPLY = 65536, REQUEST = 131072, USERS = 16, UPLOAD = 64 << 20 };

static unsigned short port;
static uint64_t seed;

static void fail(const char *what) {
    fprintf(stderr, "gateway_client: %s\n", what);
    exit(1);
}

static unsigned below(unsigned n) {
    seed = seed * 6364136223846793005u + 1442695040888963407u;
    return (unsigned)(seed >> 33) % n;
}

static int dial(void) {
    struct sockaddr_in there = {.sin_family = AF_INET, .sin_port = htons(port), .sin_addr.s_addr = htonl(INADDR_LOOPBACK)};
    struct timeval wait = {.tv_sec = WAIT};
    int s = socket(AF_INET, SOCK_STREAM, 0);
    if (s < 0 || setsockopt(s, SOL_SOCKET, SO_RCVTIMEO, &wait, sizeof wait) || setsockopt(s, SOL_SOCKET, SO_SNDTIMEO, &wait, sizeof wait) ||
        connect(s, (struct sockaddr *)&there, sizeof there))
        fail("no connection");
    return s;
}

/* A peer that hung up already is no failure here: what it answered tells. */
static void put(int s, const char *text, size_t len) {
    for (ssize_t n; len && (n = send(s, text, len, MSG_NOSIGNAL)) > 0; text += n) len -= (size_t)n;
}

/* All that comes until the gateway hangs up. */
static size_t get_all(int s, char *to) {
    size_t len = 0;
    ssize_t n;
    while ((n = recv(s, to + len, REPLY - 1 - len, 0)) > 0) len += (size_t)n;
    to[len] = 0;
    return len;
}

/* One reply of a connection that stays; false where the gateway hung up instead. *closes says that it will. */
static int get_reply(int s, int bodiless, char *to, char **body, int *closes) {
    size_t len = 0, want = 0;
    *body = NULL;
    while (!*body || len < want) {
        ssize_t n = recv(s, to + len, REPLY - 1 - len, 0);
        if (n <= 0) return 0;
        to[len += (size_t)n] = 0;
        if (*body || !(*body = strstr(to, "\r\n\r\n"))) continue;
        *body += 4;
        char *length = strcasestr(to, "\r\nContent-Length:");
        want = (size_t)(*body - to) + (bodiless || !length ? 0 : strtoul(length + 17, NULL, 10));
    }
    *closes = strcasestr(to, "\r\nConnection: close") != NULL;
    return 1;
}

static int status_of(const char *reply) {
    return !strncmp(reply, "HTTP/1.", 7) ? atoi(reply + 9) : 0;
}

static int raw(void) {
    static char text[REQUEST], reply[REPLY];
    size_t len = fread(text, 1, sizeof text, stdin);
    int s = dial();
    put(s, text, len);
    shutdown(s, SHUT_WR);
    get_all(s, reply);
    close(s);
    const char *gap = "";
    for (char *at = reply; (at = strstr(at, "HTTP/1.")); at += 7)
        if (at == reply || at[-1] == '\n') printf("%s%d", gap, status_of(at)), gap = " ";
    puts("");
    return 0;
}

/* --- agree --- */

struct caller {
    char name[64], password[64], roles[2048];
};
static struct caller callers[USERS];
static unsigned caller_count;
static uint8_t listing[BUDQUARRY_LISTING + 1];
static size_t listing_len;

static void load(const char *listing_name, const char *users_name) {
    FILE *f = fopen(listing_name, "rb");
    if (!f) fail("no listing");
    listing_len = fread(listing, 1, sizeof listing, f);
    fclose(f);
    if (!(f = fopen(users_name, "rb"))) fail("no users");
    static char line[4096];
    while (caller_count < USERS && fgets(line, sizeof line, f)) {
        struct caller *c = &callers[caller_count++];
        if (sscanf(line, "%63[^\t]\t%63[^\t]\t%2046[^\n]", c->name, c->password, c->roles) < 2) fail("bad users");
        if (*c->roles) strcat(c->roles, "\n");
        for (char *p = c->roles; *p; p++)
            if (*p == ',') *p = '\n';
    }
    fclose(f);
}

static void base64(const char *text, char *to) {
    static const char digits[] = "ABCDEFGHIJKLMNOPQRSTUVWXYZabcdefghijklmnopqrstuvwxyz0123456789+/";
    size_t len = strlen(text);
    for (size_t i = 0; i < len; i += 3) {
        uint32_t three = (uint32_t)(uint8_t)text[i] << 16 | (i + 1 < len ? (uint32_t)(uint8_t)text[i + 1] << 8 : 0) | (i + 2 < len ? (uint8_t)text[i + 2] : 0);
        *to++ = digits[three >> 18];
        *to++ = digits[three >> 12 & 63];
        *to++ = i + 1 < len ? digits[three >> 6 & 63] : '=';
        *to++ = i + 2 < len ? digits[three & 63] : '=';
    }
    *to = 0;
}

/* Paths near the patterns, some grown by any bytes that leave the request line whole. */
static void make_path(char *to) {
    static const char *const stems[] = {"/", "/x", "/clock", "/clock/", "/clock/a", "/clockwork", "/clock/offset", "/log.csv", "/clock/log.csv", "/a/b.c.csv",
                                        "/%63lock/a", "/clock%2Foffset", "/clock/offset%00", "/clock/../x", "/x/../clock/offset", "//clock/offset",
                                        "/clock/./offset", "/clock/..", "/clock/.;a/offset", "/clock/.../offset", "/clock/.a", "/clock\\offset", "/clock/offset#a", "/clock/offset;v=1", "/clock/offset/", "/.csv", "/csv", "/x.CSV", "x", "*", "http://h/clock/offset"};
    size_t len = (size_t)sprintf(to, "%s", stems[below(sizeof stems / sizeof *stems)]);
    unsigned grow = below(4) ? 0 : below(6) ? below(12) : 1000 + below(40), any = below(2);
    while (grow--) {
        char c = any ? (char)(1 + below(255)) : (char)('a' + below(26));
        if (c != ' ' && c != '?' && c != '\r' && c != '\n') to[len++] = c;
    }
    to[len] = 0;
}

static void make_method(char *to) {
    static const char *const methods[] = {"GET", "PUT", "DELETE", "POST", "HEAD", "OPTIONS", "PATCH", "TRACE", "get", "M-SEARCH", "Q0", "!#$%&'*+-.^_`|~"};
    if (below(8)) {
        strcpy(to, methods[below(sizeof methods / sizeof *methods)]);
        return;
    }
    unsigned len = 1 + below(30);
    for (unsigned i = 0; i < len; i++) to[i] = "ABCxyz019-_~"[below(12)];
    to[len] = 0;
}

static int refuses_odd;

/* Whether a server could make this one with another path: one of the bytes % # \, or a segment that is empty and not the last, or . or .. up to its
 * `;`. */
static int is_odd(const char *path) {
    char copy[2048], *rest = strcpy(copy, path);
    if (strchr(path, '%') || strchr(path, '#') || strchr(path, '\\')) return 1;
    strsep(&rest, "/");
    while (rest) {
        char *segment = strsep(&rest, "/");
        if (!*segment && rest) return 1;
        segment[strcspn(segment, ";")] = 0;
        if (!strcmp(segment, ".") || !strcmp(segment, "..")) return 1;
    }
    return 0;
}

/* What the gateway must say: status and line, from the library alone but for odd paths. */
static int expected(const char *path, const char *method, const struct caller *c, int wrong, const char **line) {
    static const char *const answers[] = {"", "open\n", "by role\n", "closed\n", "login wanted\n", "role lacking\n"};
    static const int statuses[] = {0, 200, 200, 403, 401, 403};
    static uint32_t work[BUDQUARRY_WORK];
    *line = "bad credentials\n";
    if (wrong) return 401;
    *line = "odd path: it could be read as another one\n";
    if (refuses_odd && is_odd(path)) return 400;
    struct budquarry_decision d = budquarry_decide(listing, listing_len, (const uint8_t *)path, strlen(path), (const uint8_t *)method, strlen(method), c != NULL,
                                                   (const uint8_t *)(c ? c->roles : ""), c ? strlen(c->roles) : 0, work, BUDQUARRY_WORK);
    *line = d.number == BUDQUARRY_BAD_PATH ? "bad path\n" : d.number == BUDQUARRY_BAD_METHOD ? "bad method\n" : answers[d.answer];
    return d.number == 0 ? statuses[d.answer] : d.number == BUDQUARRY_BAD_PATH || d.number == BUDQUARRY_BAD_METHOD ? 400 : 500;
}

static size_t make_request(char *to, const char *path, const char *method, const struct caller *c, int wrong) {
    char pair[160], code[256];
    size_t len = (size_t)sprintf(to, "%s %s%s HTTP/1.1\r\nHost: h\r\n", method, path, below(4) ? "" : "?q=/clock/offset?%00");
    if (c) {
        snprintf(pair, sizeof pair, "%s:%s%s", c->name, c->password, wrong ? "x" : "");
        base64(pair, code);
        len += (size_t)sprintf(to + len, "Authorization: Basic %s\r\n", code);
    }
    len += (size_t)sprintf(to + len, !strcmp(method, "POST") || !strcmp(method, "PUT") ? "Content-Length: 5\r\n\r\nhello" : "\r\n");
    return len;
}

/* MHD 1.0 refuses some of these by itself, before it asks who calls: with a page of its own, or by hanging up. */
static int has_control(const char *path) {
    for (; *path; path++)
        if ((uint8_t)*path < 32 || *path == 127) return 1;
    return 0;
}

static int agree(unsigned count) {
    static char path[2048], method[64], request[8192], reply[REPLY];
    unsigned seen[600] = {0}, same = 0;
    int s = -1;
    for (unsigned i = 0; i < count; i++) {
        const struct caller *c = below(3) ? &callers[below(caller_count)] : NULL;
        int wrong = c && !below(8), closes = 0;
        char *body;
        const char *line;
        make_path(path);
        make_method(method);
        int want = expected(path, method, c, wrong, &line), bodiless = !strcmp(method, "HEAD");
        if (s < 0) s = dial();
        put(s, request, make_request(request, path, method, c, wrong));
        int replied = get_reply(s, bodiless, reply, &body, &closes), got = replied ? status_of(reply) : 0;
        int as_said = got == want && (bodiless || !strcmp(body, line));
        if (!as_said && !(has_control(path) && (!replied || got == 400))) {
            fprintf(stderr, "%s %s caller %s: got %d %s, the library says %d %s", method, path, c ? c->name : "none", got, replied ? body : "", want, line);
            return 1;
        }
        same += as_said;
        seen[got]++;
        if (!replied || closes || !below(50)) close(s), s = -1;
    }
    if (s >= 0) close(s);
    printf("%u replies as the library says (200: %u, 401: %u, 403: %u, 400: %u), %u refused by MHD itself\n", same, seen[200], seen[401], seen[403], seen[400],
           count - same);
    return !(seen[200] && seen[401] && seen[403] && seen[400]);
}

/* --- damage, hold --- */

static int damage(unsigned count) {
    static const char whole[] = "POST /clock/a?b=c HTTP/1.1\r\nHost: h\r\nAuthorization: Basic YW5uOnNlY3JldA==\r\nCookie: a=b\r\nTransfer-Encoding: chunked\r\n\r\n"
                                "5\r\nhello\r\n0\r\n\r\nGET /x HTTP/1.1\r\nHost: h\r\nContent-Length: 3\r\n\r\nabc";
    static const char marks[] = "\0\r\n :?%/=,\t\"";
    static char text[sizeof whole], reply[REPLY];
    for (unsigned i = 0; i < count; i++) {
        size_t len = sizeof whole - 1;
        memcpy(text, whole, len);
        for (unsigned n = 1 + below(6); n; n--) text[below((unsigned)len)] = below(2) ? marks[below(sizeof marks - 1)] : (char)below(256);
        if (!below(3)) len = below((unsigned)len);
        int s = dial();
        put(s, text, len);
        shutdown(s, SHUT_WR);
        get_all(s, reply);
        close(s);
        if (status_of(reply) >= 500 && status_of(reply) != 505) return fprintf(stderr, "damaged request %u: %s\n", i, reply), 1;
    }
    printf("damage: %u damaged requests survived\n", count);
    return 0;
}

static int hold(unsigned count) {
    static const char first[] = "GET /x HTTP/1.1\r\nHost:", last[] = " h\r\nConnection: close\r\n\r\n";
    static char reply[REPLY];
    int *s = calloc(count, sizeof *s);
    if (!s) fail("no memory");
    for (unsigned i = 0; i < count; i++) put(s[i] = dial(), first, sizeof first - 1);
    for (unsigned i = 1; i < count; i += 2) {
        struct linger at_once = {.l_onoff = i % 4 == 1};
        setsockopt(s[i], SOL_SOCKET, SO_LINGER, &at_once, sizeof at_once);
        close(s[i]);
    }
    for (unsigned i = 0; i < count; i += 2) put(s[i], last, sizeof last - 1);
    for (unsigned i = 0; i < count; i += 2) {
        get_all(s[i], reply);
        if (status_of(reply) != 200) fail("a held request had no 200");
        close(s[i]);
    }
    free(s);
    printf("hold: %u connections at once\n", count);
    return 0;
}

/* --- slow, silent and endless clients --- */

static int64_t milliseconds(void) {
    struct timespec now;
    clock_gettime(CLOCK_MONOTONIC, &now);
    return (int64_t)now.tv_sec * 1000 + now.tv_nsec / 1000000;
}

/* COUNT connections, each of which has sent this. */
static int *dial_all(unsigned count, const char *text) {
    int *s = calloc(count, sizeof *s);
    if (!s) fail("no memory");
    for (unsigned i = 0; i < count; i++) put(s[i] = dial(), text, strlen(text));
    return s;
}

static void close_all(int *s, unsigned count) {
    for (unsigned i = 0; i < count; i++) close(s[i]);
    free(s);
}

/* A connection is made before the gateway knows of it. */
static void wait_till_accepted(void) {
    struct timespec wait = {.tv_nsec = 150000000};
    nanosleep(&wait, NULL);
}

/* One request and its 200, on a connection that stays. */
static int is_served(int s) {
    static const char ask[] = "GET /x HTTP/1.1\r\nHost: h\r\n\r\n";
    static char reply[REPLY];
    char *body;
    int closes;
    put(s, ask, sizeof ask - 1);
    return get_reply(s, 0, reply, &body, &closes) && status_of(reply) == 200 && !closes;
}

/* The busy client came first and asks all the time; the late one comes last. Neither may suffer. */
static int crowd(unsigned count, int most) {
    static const char ask[] = "GET /x HTTP/1.1\r\nHost: h\r\nConnection: close\r\n\r\n";
    static char reply[REPLY];
    int busy = dial(), is_busy_served = is_served(busy);
    int *slow = dial_all(count, "GET /x HTTP/1.1\r\nHost: h\r\nX: ");
    struct pollfd late = {.fd = dial(), .events = POLLIN};
    int64_t start = milliseconds();
    put(late.fd, ask, sizeof ask - 1);
    while (!poll(&late, 1, 100) && milliseconds() - start < most) {
        for (unsigned i = 0; i < count; i++) put(slow[i], "a", 1);
        is_busy_served = is_busy_served && is_served(busy);
    }
    int64_t waited = milliseconds() - start;
    int is_late_served = poll(&late, 1, 0) && get_all(late.fd, reply) && status_of(reply) == 200;
    is_busy_served = is_busy_served && is_served(busy);
    close(busy), close(late.fd);
    close_all(slow, count);
    printf("crowd: beside %u slow clients a late one is %sserved after %lld ms, a busy one %s\n", count, is_late_served ? "" : "not ", (long long)waited,
           is_busy_served ? "all the time" : "is cut off");
    return !is_late_served || !is_busy_served;
}

static int silent(unsigned count, pid_t pid, int most) {
    static char reply[REPLY];
    int *s = dial_all(count, "");
    wait_till_accepted();
    int64_t start = milliseconds();
    kill(pid, SIGTERM);
    for (unsigned i = 0; i < count; i++) get_all(s[i], reply);
    int64_t waited = milliseconds() - start;
    close_all(s, count);
    printf("silent: SIGTERM ended %u connections after %lld ms\n", count, (long long)waited);
    return waited > most;
}

static int upload(int chunked) {
    static char piece[65536], reply[REPLY];
    size_t sent = 0, len;
    ssize_t n = 0;
    int s = dial();
    memset(piece, 'a', sizeof piece);
    len = (size_t)sprintf(reply, "DELETE /x HTTP/1.1\r\nHost: h\r\n%s\r\n\r\n%s", chunked ? "Transfer-Encoding: chunked" : "Content-Length: 999999999999",
                          chunked ? "fffffffff\r\n" : "");
    put(s, reply, len);
    while (sent < UPLOAD && (n = send(s, piece, sizeof piece, MSG_NOSIGNAL)) > 0) sent += (size_t)n;
    get_all(s, reply);
    close(s);
    printf("upload: status %d, cut off after %zu bytes\n", status_of(reply), sent);
    return sent >= UPLOAD || status_of(reply) != 403;
}

static int overhear(pid_t pid) {
    static char heard[4096];
    struct pollfd s = {.fd = dial(), .events = POLLIN};
    wait_till_accepted();
    kill(pid, SIGHUP);
    ssize_t n = poll(&s, 1, 300) > 0 ? recv(s.fd, heard, sizeof heard - 1, 0) : 0;
    close(s.fd);
    printf("overhear: %s\n", n > 0 ? heard : "nothing");
    return n > 0;
}

int main(int argc, char **argv) {
    const char *verb = argc > 1 ? argv[1] : "";
    if (argc > 2) port = (unsigned short)atoi(argv[2]);
    if (argc == 3 && !strcmp(verb, "raw")) return raw();
    if (argc == 4 && !strcmp(verb, "hold")) return hold((unsigned)atoi(argv[3]));
    if (argc == 4 && !strcmp(verb, "upload")) return upload(!strcmp(argv[3], "chunked"));
    if (argc == 4 && !strcmp(verb, "overhear")) return overhear(atoi(argv[3]));
    if (argc == 5 && !strcmp(verb, "crowd")) return crowd((unsigned)atoi(argv[3]), atoi(argv[4]));
    if (argc == 5 && !strcmp(verb, "damage")) return seed = strtoull(argv[3], NULL, 10), damage((unsigned)atoi(argv[4]));
    if (argc == 6 && !strcmp(verb, "silent")) return silent((unsigned)atoi(argv[3]), atoi(argv[4]), atoi(argv[5]));
    if (argc != 8 || strcmp(verb, "agree")) return fputs("usage: see the head of gateway_client.c\n", stderr), 1;
    load(argv[3], argv[4]);
    seed = strtoull(argv[5], NULL, 10);
    refuses_odd = !strcmp(argv[7], "refuse");
    return agree((unsigned)atoi(argv[6]));
}
