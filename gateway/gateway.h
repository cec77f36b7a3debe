/* gateway.h: the parts of the gateway, in the order in which a request meets them.
 *   seats.c   which connections have to go when too many are held open
 *   head.c    heads that two readers could read in two ways, paths that a server could read as another path
 *   users.c   who calls
 *   rules.c   the listing that decides, and its reload
 *   gateway.c HTTP around them; arguments, signals
 *   files.c, log.c   regular files are read; standard error says things in words
 */
#ifndef GATEWAY_H
#define GATEWAY_H

#include <microhttpd.h>
#include <stddef.h>
#include <stdint.h>
#include "../include/budquarry.h"

/* CONNECTIONS are accepted at most; of more than ROOM those that let the others wait have to go. */
enum { CONNECTIONS = 512, ROOM = 384 };

/* --- seats.c --- */

/* For MHD_OPTION_NOTIFY_CONNECTION and MHD_OPTION_NOTIFY_COMPLETED. */
void seats_connection(void *unused, struct MHD_Connection *connection, void **seat, enum MHD_ConnectionNotificationCode what);
void seats_request(void *unused, struct MHD_Connection *connection, void **request, enum MHD_RequestTerminationCode how);

/* To be called some times a second. */
void seats_make_room(void);

/* --- head.c --- */

struct head {
    unsigned hosts, lengths, encodings, authorizations; /* how many headers of that name */
    const char *encoding, *authorization;
    int bad_byte, has_body; /* a name that is no token or a control byte in a value; a body to come */
};

/* The bytes of a request's first line, as libmicrohttpd hands them out; see head.c. */
struct first_line {
    const char *method, *path, *target_end, *version;
};

struct head head_of(struct MHD_Connection *connection);

/* Why this head is refused, in a line for the client; NULL where it can be read in one way only. */
const char *head_fault(struct MHD_Connection *connection, const struct head *head, const struct first_line *line);

int is_odd_path(const char *path);

/* --- users.c --- */

enum { LONGEST_PASSWORD = 128 };

/* roles as the library takes them: each name ended by byte 10; the password filled up with bytes 0 */
struct user {
    const uint8_t *name, *roles;
    size_t name_len, roles_len, password_len;
    uint8_t password[LONGEST_PASSWORD];
};

int users_read(const char *file);

/* The user whose name and password the value of an Authorization header gives; NULL for none. */
const struct user *users_find(const char *authorization);

/* --- rules.c --- */

int rules_start(const char *file);
void rules_reload(const char *file);
struct budquarry_decision rules_decide(const char *path, const char *method, const struct user *caller);

/* --- files.c --- */

/* The first `most` bytes of a regular file. False, with a word in the log, where it can't be read. */
int read_file(const char *file, uint8_t *to, size_t most, size_t *len);

/* --- log.c: for the main thread alone --- */

void log_problem(const char *file, const char *problem);
void log_refusal(const char *file, struct budquarry_report refusal);

/* `before`, the file's name, `after`, as one line. */
void log_about(const char *before, const char *file, const char *after);

/* Text of a listing: its lines stay lines, and no byte of it drives the terminal. */
void log_text(const uint8_t *text, size_t len);

#endif
