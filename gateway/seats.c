/* seats.c: which connections have to go when too many are held open. See gateway.h.
 *
 * MHD's own limit on idle time is no help against a client that sends a byte now and then: some hundred of those hold every connection, and
 * nobody else gets in. So connections stand in a queue by when they last finished a request, or came. While more than ROOM are there, those at the
 * front that have had their second have to go. Whoever sends a request in one go takes milliseconds and never waits at the front.
 */
#define _POSIX_C_SOURCE 200809L
#include <pthread.h>
#include <stdlib.h>
#include <sys/queue.h>
#include <sys/socket.h>
#include <time.h>
#include "gateway.h"

enum { FAIR_MILLISECONDS = 1000 };

struct seat {
    TAILQ_ENTRY(seat) next;
    int socket, has_to_go;
    int64_t since;
};
static TAILQ_HEAD(, seat) queue = TAILQ_HEAD_INITIALIZER(queue);
static unsigned seated;
static pthread_mutex_t lock = PTHREAD_MUTEX_INITIALIZER;

static int64_t milliseconds(void) {
    struct timespec now;
    clock_gettime(CLOCK_MONOTONIC, &now);
    return (int64_t)now.tv_sec * 1000 + now.tv_nsec / 1000000;
}

static void sit_at_the_end(struct seat *s) {
    s->since = milliseconds();
    TAILQ_INSERT_TAIL(&queue, s, next);
    seated++;
}

static void stand_up(struct seat *s) {
    TAILQ_REMOVE(&queue, s, next);
    seated--;
}

/* MHD says that a connection is closed before it closes the socket: a socket in the queue is never another one's by now. */
void seats_connection(void *unused, struct MHD_Connection *connection, void **seat, enum MHD_ConnectionNotificationCode what) {
    struct seat *s = what == MHD_CONNECTION_NOTIFY_STARTED ? *seat = calloc(1, sizeof *s) : *seat;
    (void)unused;
    if (!s) return;
    pthread_mutex_lock(&lock);
    if (what == MHD_CONNECTION_NOTIFY_STARTED) {
        s->socket = MHD_get_connection_info(connection, MHD_CONNECTION_INFO_CONNECTION_FD)->connect_fd;
        sit_at_the_end(s);
    } else if (!s->has_to_go) {
        stand_up(s);
    }
    pthread_mutex_unlock(&lock);
    if (what == MHD_CONNECTION_NOTIFY_CLOSED) free(s), *seat = NULL;
}

void seats_request(void *unused, struct MHD_Connection *connection, void **request, enum MHD_RequestTerminationCode how) {
    struct seat *s = MHD_get_connection_info(connection, MHD_CONNECTION_INFO_SOCKET_CONTEXT)->socket_context;
    (void)unused, (void)request;
    if (!s || how != MHD_REQUEST_TERMINATED_COMPLETED_OK) return;
    pthread_mutex_lock(&lock);
    if (!s->has_to_go) stand_up(s), sit_at_the_end(s);
    pthread_mutex_unlock(&lock);
}

/* A socket that is shut down wakes the thread that waits for it, and MHD closes it there. */
void seats_make_room(void) {
    pthread_mutex_lock(&lock);
    for (struct seat *s; seated > ROOM && (s = TAILQ_FIRST(&queue))->since + FAIR_MILLISECONDS <= milliseconds();) {
        stand_up(s);
        s->has_to_go = 1;
        shutdown(s->socket, SHUT_RDWR);
    }
    pthread_mutex_unlock(&lock);
}
