/* head.c: what in a request's head is refused before anyone asks who calls. See gateway.h.
 *
 * A gateway and the server behind it must see the same requests on a connection, and the same path in each. Where a head can be read in two ways,
 * one of them may see a second request inside what the other takes for a body ("request smuggling"). Refused are:
 *   two Host, Content-Length or Transfer-Encoding headers; Content-Length beside Transfer-Encoding
 *   a Transfer-Encoding other than `chunked`, and any in HTTP/1.0
 *   a header name that isn't a token: `Content-Length : 5`
 *   a folded line, a line feed without a carriage return, a control byte in a value, more than one blank after the method, a byte 0 anywhere
 */
#define _POSIX_C_SOURCE 200809L
#include <string.h>
#include <strings.h>
#include "gateway.h"

static const char token_bytes[] = "ABCDEFGHIJKLMNOPQRSTUVWXYZabcdefghijklmnopqrstuvwxyz0123456789!#$%&'*+-.^_`|~";

/* --- headers as MHD hands them out, each of them --- */

static int is_token(const char *text) {
    return *text && !text[strspn(text, token_bytes)];
}

static int has_control(const char *text) {
    for (; *text; text++)
        if (((uint8_t)*text < 32 && *text != '\t') || *text == 127) return 1;
    return 0;
}

static enum MHD_Result look_at(void *to, enum MHD_ValueKind kind, const char *name, const char *value) {
    struct head *head = to;
    (void)kind;
    if (!value) value = "";
    head->bad_byte |= !is_token(name) || has_control(value);
    head->hosts += !strcasecmp(name, MHD_HTTP_HEADER_HOST);
    if (!strcasecmp(name, MHD_HTTP_HEADER_CONTENT_LENGTH)) head->lengths++, head->has_body |= strspn(value, "0") != strlen(value);
    if (!strcasecmp(name, MHD_HTTP_HEADER_TRANSFER_ENCODING)) head->encodings++, head->has_body = 1, head->encoding = value;
    if (!strcasecmp(name, MHD_HTTP_HEADER_AUTHORIZATION)) head->authorizations++, head->authorization = value;
    return MHD_YES;
}

struct head head_of(struct MHD_Connection *connection) {
    struct head head = {0};
    MHD_get_connection_values(connection, MHD_HEADER_KIND, look_at, &head);
    return head;
}

/* --- the head's own bytes --- */

/* The lines behind the first one, up to and with the empty line; `at` is where the first one ends. */
static int has_plain_lines(const char *at, const char *end) {
    while (end - at > 2 && !at[0] && !at[1]) {
        const char *name = at += 2;
        while (at < end && *at && strchr(token_bytes, *at)) at++;
        if (at == name) return end - at == 2 && !at[0] && !at[1];
        if (at == end || *at++) return 0;
        while (at < end && *at) at++;
    }
    return 0;
}

/* MHD glues a folded line to the header's name in release 0.9.75, Debian 12's, takes a lone line feed for a line's end, and cuts names and values
 * at a byte 0: headers as it hands them out don't show that. But the head itself is still there, in one piece from the method on: all that this
 * release does to it is to write a byte 0 over the blanks of the first line, over the colon behind a name, and over both bytes at the end of a line. So
 * its bytes are looked at there; only a byte 0 right before a lone line feed can't be told from a carriage return. Release 1.0.1 refuses all of
 * this itself; others were not tried. */
static int is_plain(struct MHD_Connection *connection, const struct first_line *line) {
    if (strcmp(MHD_get_version(), "0.9.75")) return 1;
    const union MHD_ConnectionInfo *size = MHD_get_connection_info(connection, MHD_CONNECTION_INFO_REQUEST_HEADER_SIZE);
    return size && line->path == line->method + strlen(line->method) + 1 && line->target_end && line->version == line->target_end + 1 &&
           has_plain_lines(line->version + strlen(line->version), line->method + size->header_size);
}

const char *head_fault(struct MHD_Connection *connection, const struct head *head, const struct first_line *line) {
    if (head->lengths > 1) return "more than one Content-Length\n";
    if (head->encodings && head->lengths) return "Content-Length beside Transfer-Encoding\n";
    if (head->encodings > 1 || (head->encodings && (strcasecmp(head->encoding, "chunked") || !strcmp(line->version, MHD_HTTP_VERSION_1_0))))
        return "Transfer-Encoding not taken\n";
    if (head->hosts > 1) return "more than one Host\n";
    if (head->bad_byte) return "bad byte in a header\n";
    if (!is_plain(connection, line)) return "folded line, lone line feed, doubled blank or byte 0\n";
    return NULL;
}

/* --- the path --- */

/* Forms that a server may make one with another path, so that the library would decide about one path and the server show another:
 *   //   %   #   \   and a segment . or .. in the middle, at the end, or before a ; */
int is_odd_path(const char *path) {
    if (strstr(path, "//") || strpbrk(path, "%#\\")) return 1;
    for (const char *segment = strchr(path, '/'); segment; segment = strchr(segment, '/')) {
        size_t dots = strspn(++segment, ".");
        char behind = segment[dots];
        if ((dots == 1 || dots == 2) && (behind == 0 || behind == '/' || behind == ';')) return 1;
    }
    return 0;
}
