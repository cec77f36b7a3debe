/* gateway: a small HTTP gateway on loopback that has the proved library decide each request. See README.md, and gateway.h for its parts.
 *
 * 200 granted, 401 login wanted or bad credentials, 403 closed or role lacking, 400 a head or path that can be read in two ways, or no path or
 * method in the library's sense; the body says which in one line. SIGHUP reads the listing again and takes it where it is no wider than the
 * running one; SIGTERM and SIGINT end the program. Control is by signals alone: no request can reach it.
 */
#define _POSIX_C_SOURCE 200809L
#include <arpa/inet.h>
#include <fcntl.h>
#include <signal.h>
#include <stdio.h>
#include <stdlib.h>
#include <string.h>
#include <unistd.h>
#include "gateway.h"

enum { THREADS = 4, IDLE_SECONDS = 10, TICK_NANOSECONDS = 250000000 };

static const char usage[] = "usage: gateway --port PORT --listing FILE --users FILE [--pass-odd-paths]\n"
                            "PORT 0 is any free port; the first line of standard output says which. Loopback only.\n"
                            "FILE of rules: a listing or a web.xml; SIGHUP reads it again. FILE of users: name<tab>password<tab>role,role.. a line.\n"
                            "--pass-odd-paths: decide on paths with // /./ /../ % # \\ as they came, instead of refusing them.\n";

struct options {
    const char *port, *listing, *users;
    int pass_odd_paths;
};

/* --- replies --- */

struct reply {
    unsigned status;
    const char *line;
};

static struct reply reply_to_decision(struct budquarry_decision d) {
    switch (d.number) {
    case 0: break;
    case BUDQUARRY_BAD_PATH: return (struct reply){MHD_HTTP_BAD_REQUEST, "bad path\n"};
    case BUDQUARRY_BAD_METHOD: return (struct reply){MHD_HTTP_BAD_REQUEST, "bad method\n"};
    case BUDQUARRY_BAD_CALLER: return (struct reply){MHD_HTTP_BAD_REQUEST, "bad caller\n"};
    default: return (struct reply){MHD_HTTP_INTERNAL_SERVER_ERROR, "refused\n"};
    }
    switch (d.answer) {
    case BUDQUARRY_OPEN: return (struct reply){MHD_HTTP_OK, "open\n"};
    case BUDQUARRY_BY_ROLE: return (struct reply){MHD_HTTP_OK, "by role\n"};
    case BUDQUARRY_LOGIN_WANTED: return (struct reply){MHD_HTTP_UNAUTHORIZED, "login wanted\n"};
    case BUDQUARRY_ROLE_LACKING: return (struct reply){MHD_HTTP_FORBIDDEN, "role lacking\n"};
    default: return (struct reply){MHD_HTTP_FORBIDDEN, "closed\n"};
    }
}

/* Credentials that came are one user's, or the request is turned away: a wrong password, an unknown name, another scheme, text that is no
 * base64, or two headers, of which each reader could take another. */
static struct reply decide(const struct options *options, const struct head *head, const char *path, const char *method) {
    const struct user *caller = head->authorizations == 1 ? users_find(head->authorization) : NULL;
    if (head->authorizations && !caller) return (struct reply){MHD_HTTP_UNAUTHORIZED, "bad credentials\n"};
    if (!options->pass_odd_paths && is_odd_path(path)) return (struct reply){MHD_HTTP_BAD_REQUEST, "odd path: it could be read as another one\n"};
    return reply_to_decision(rules_decide(path, method, caller));
}

static enum MHD_Result send_reply(struct MHD_Connection *connection, struct reply reply, int is_last) {
    struct MHD_Response *r = MHD_create_response_from_buffer(strlen(reply.line), (void *)reply.line, MHD_RESPMEM_PERSISTENT);
    if (!r) return MHD_NO;
    MHD_add_response_header(r, MHD_HTTP_HEADER_CONTENT_TYPE, "text/plain");
    if (reply.status == MHD_HTTP_UNAUTHORIZED) MHD_add_response_header(r, MHD_HTTP_HEADER_WWW_AUTHENTICATE, "Basic realm=\"budquarry\"");
    if (is_last) MHD_add_response_header(r, MHD_HTTP_HEADER_CONNECTION, "close");
    enum MHD_Result queued = MHD_queue_response(connection, reply.status, r);
    MHD_destroy_response(r);
    return queued;
}

/* --- requests --- */

/* The head is in. What is replied now is the connection's last: MHD reads neither the body nor another request. So a head that can be read in two
 * ways ends here, and so does a body that nobody may send, however long it would be. */
static enum MHD_Result answer_head(const struct options *options, struct MHD_Connection *connection, const struct first_line *line) {
    struct head head = head_of(connection);
    const char *fault = head_fault(connection, &head, line);
    if (fault) return send_reply(connection, (struct reply){MHD_HTTP_BAD_REQUEST, fault}, 1);
    if (!head.has_body) return MHD_YES;
    struct reply reply = decide(options, &head, line->path, line->method);
    return reply.status == MHD_HTTP_OK ? MHD_YES : send_reply(connection, reply, 1);
}

/* All is in. Behind a chunked body no other request is read: where it ends is the one thing in a request that this program didn't look at. */
static enum MHD_Result answer_whole(const struct options *options, struct MHD_Connection *connection, const char *path, const char *method) {
    struct head head = head_of(connection);
    return send_reply(connection, decide(options, &head, path, method), head.encodings > 0);
}

/* MHD calls this once when the head is in, for each piece of a body, which is dropped, and at the end. */
static enum MHD_Result answer(void *options, struct MHD_Connection *connection, const char *path, const char *method, const char *version,
                              const char *body, size_t *body_len, void **request) {
    static char begun;
    (void)body;
    if (*request != &begun) {
        struct first_line line = {method, path, *request, version};
        *request = &begun;
        return answer_head(options, connection, &line);
    }
    if (*body_len) return *body_len = 0, MHD_YES;
    return answer_whole(options, connection, path, method);
}

/* MHD calls this with the request target before it cuts it at the `?`, and hands what comes back to `answer`: the target's end, which shows there
 * whether a byte 0 has cut the path. */
static void *end_of_target(void *unused, const char *target, struct MHD_Connection *connection) {
    (void)unused, (void)connection;
    return target ? (void *)(target + strlen(target)) : NULL;
}

/* MHD would hand on the path with its %XX decoded. 01 doesn't cover decoding: the library matches the bytes that came, so it gets those, the
 * request target up to its first `?`. Whatever serves behind such a gateway has to find its files by the same bytes: if it decodes, /%63lock is a
 * way past the constraints on /clock. That is why paths of such forms are refused (is_odd_path) unless --pass-odd-paths is given. */
static size_t leave_as_it_came(void *unused, struct MHD_Connection *connection, char *text) {
    (void)unused, (void)connection;
    return strlen(text);
}

/* --- the program --- */

/* With epoll MHD would see that a client has hung up in the middle of a request only when the idle time is over; with poll it sees it at once.
 * Without ITC its threads would hear of the end only when a connection stirs. */
static struct MHD_Daemon *start(unsigned short port, struct options *options) {
    struct sockaddr_in here = {.sin_family = AF_INET, .sin_port = htons(port), .sin_addr.s_addr = htonl(INADDR_LOOPBACK)};
    return MHD_start_daemon(MHD_USE_POLL_INTERNAL_THREAD | MHD_USE_ITC, port, NULL, NULL, answer, options, MHD_OPTION_SOCK_ADDR, &here,
                            MHD_OPTION_THREAD_POOL_SIZE, (unsigned)THREADS, MHD_OPTION_CONNECTION_LIMIT, (unsigned)CONNECTIONS,
                            MHD_OPTION_CONNECTION_TIMEOUT, (unsigned)IDLE_SECONDS, MHD_OPTION_STRICT_FOR_CLIENT, 1,
                            MHD_OPTION_UNESCAPE_CALLBACK, leave_as_it_came, NULL, MHD_OPTION_URI_LOG_CALLBACK, end_of_target, NULL,
                            MHD_OPTION_NOTIFY_CONNECTION, seats_connection, NULL, MHD_OPTION_NOTIFY_COMPLETED, seats_request, NULL,
                            MHD_OPTION_END);
}

/* Where standard error is closed, the next socket would get its number, and a client would be sent the log. */
static int fill_standard_streams(void) {
    int fd;
    do fd = open("/dev/null", O_RDWR);
    while (fd >= 0 && fd <= STDERR_FILENO);
    return fd >= 0 && !close(fd);
}

/* False where an argument is unknown or lacks its value. */
static int read_arguments(int argc, char **argv, struct options *to) {
    for (int i = 1; i < argc; i++) {
        const char **value = !strcmp(argv[i], "--port") ? &to->port : !strcmp(argv[i], "--listing") ? &to->listing : !strcmp(argv[i], "--users") ? &to->users : NULL;
        if (!strcmp(argv[i], "--pass-odd-paths"))
            to->pass_odd_paths = 1;
        else if (value && i + 1 < argc)
            *value = argv[++i];
        else
            return 0;
    }
    return to->port && to->listing && to->users;
}

/* HUP reads the listing again, TERM and INT end it; in between room is made, some times a second. */
static void serve(const sigset_t *control, const char *listing) {
    const struct timespec tick = {.tv_nsec = TICK_NANOSECONDS};
    for (;;) {
        int signal = sigtimedwait(control, NULL, &tick);
        if (signal == SIGTERM || signal == SIGINT) return;
        if (signal == SIGHUP) rules_reload(listing);
        seats_make_room();
    }
}

int main(int argc, char **argv) {
    struct options options = {0};
    char *rest;
    if (!fill_standard_streams()) return 2;
    setvbuf(stderr, NULL, _IOLBF, BUFSIZ);
    if (!read_arguments(argc, argv, &options)) return fputs(usage, stderr), 2;
    unsigned long port = strtoul(options.port, &rest, 10);
    if (!*options.port || *rest || port > UINT16_MAX) return fputs(usage, stderr), 2;

    /* blocked in every thread, so that `serve` gets them all, one after the other */
    sigset_t control;
    sigemptyset(&control);
    sigaddset(&control, SIGHUP), sigaddset(&control, SIGTERM), sigaddset(&control, SIGINT);
    pthread_sigmask(SIG_BLOCK, &control, NULL);
    signal(SIGPIPE, SIG_IGN);

    if (!rules_start(options.listing) || !users_read(options.users)) return 2;
    struct MHD_Daemon *daemon = start((unsigned short)port, &options);
    if (!daemon) return fprintf(stderr, "can't listen on 127.0.0.1:%lu\n", port), 2;
    printf("listening on 127.0.0.1:%u\n", (unsigned)MHD_get_daemon_info(daemon, MHD_DAEMON_INFO_BIND_PORT)->port);
    fflush(stdout);
    serve(&control, options.listing);
    MHD_stop_daemon(daemon);
    return 0;
}
