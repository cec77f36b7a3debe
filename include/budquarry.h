/* budquarry.h: access rules of one web application, read, decided and compared. This is the library's manual; README.md says what it is for, and
 * budquarry-listing(5) what a listing is, budquarry-web-xml(5) what is read of a web.xml.
 *
 * Link with libbudquarry.a (x86-64). It needs memset and memcpy and nothing else: `cc gateway.c $(pkg-config --cflags --libs budquarry)`.
 * examples/link.c is a whole program. May this caller write the clock offset?
 *
 *     int may_write_offset(const uint8_t *listing, size_t listing_len, const uint8_t *roles, size_t roles_len) {
 *         budquarry_work work;
 *         struct budquarry_decision d = budquarry_decide(listing, listing_len, (const uint8_t *)"/clock/offset", 13, (const uint8_t *)"PUT", 3,
 *                                                        1, roles, roles_len, work, BUDQUARRY_WORK);
 *         return d.answer == BUDQUARRY_OPEN || d.answer == BUDQUARRY_BY_ROLE;
 *     }
 *
 * roles is "assessor\n", say. Where the listing or the request is bad, d.number says which rule it breaks (below), and d.answer is no grant.
 *
 * Every listing, request and buffer gets a definite answer: no call needs a check by its caller. No call allocates, calls back, prints or keeps
 * anything between calls, and there is no global state: calls from several threads are safe where the buffers that they write to (work tables, answer
 * buffers) are separate.
 *
 * THE WORK TABLE IS OF ONE CALL ALONE. So take it from the stack of the call, as above, and never `static` in a function that two threads may run.
 * The listing and the roles it grants stand in the table during the call: two calls in one table mix them, and a request that is denied can be
 * answered as granted. Tried with two threads and one static table, a closed request was answered BUDQUARRY_OPEN in 1,268 of 2,362,106 calls.
 *
 * The table is scratch: of at least BUDQUARRY_WORK numbers, whatever they are; a budquarry_work is one, of 16 KiB. Its length is given in numbers
 * (BUDQUARRY_WORK), its size for malloc is sizeof(budquarry_work). After a call the first BUDQUARRY_WORK numbers are zero and the rest as before; with
 * BUDQUARRY_SHORT_TABLE none changes.
 *
 * Buffers are the caller's, lent for the time of the call. A text is a pointer and a length in bytes, with no NUL at its end; the work table is a
 * pointer and a length in numbers. Null with length 0 is fine. Texts that are only read (const) may be one and the same or overlap; the work table and
 * the answer buffer overlap nothing.
 *
 * Stack of one call, besides the buffers: under 1 KiB for reading, under 3 KiB for deciding and for comparing, under 6 KiB for reading a web.xml; see
 * bench/RESULTS.md.
 */
#ifndef BUDQUARRY_H
#define BUDQUARRY_H

#include <stddef.h>
#include <stdint.h>

#define BUDQUARRY_VERSION "1.2"

#ifdef __cplusplus
extern "C" {
#endif

enum {
    BUDQUARRY_WORK = 4096,     /* least numbers in the work table */
    BUDQUARRY_ANSWER = 1024,   /* least bytes in the answer buffer */
    BUDQUARRY_LISTING = 24576, /* most bytes of a listing */
    BUDQUARRY_XML = 65536      /* most bytes of a web.xml */
};

typedef uint32_t budquarry_work[BUDQUARRY_WORK]; /* a work table */

/* The version of the library that is linked, as BUDQUARRY_VERSION is that of the header. */
const char *budquarry_version(void);

/* Refusals: number, side and line; all three are 0 where nothing is refused. The first that applies, in this order, is given. Its side is 1 for
 * the only or the old listing, 2 for the new one, and 0 where no listing is at fault; its line counts from 1, and is 0 with side 0 and for a
 * listing that is too long. All of the old listing's come before the new one's; the lines go top down, and within a line the order is this one.
 * Text bytes are 32 to 126 and 128 to 255, token bytes letters, digits and !#$%&'*+-.^_`|~ (RFC 9110). */
enum {
    BUDQUARRY_SHORT_TABLE = 1,    /* side 0: work table below BUDQUARRY_WORK numbers */
    BUDQUARRY_SMALL_ANSWER = 14,  /* side 0: answer buffer below BUDQUARRY_ANSWER bytes (comparing) */
    BUDQUARRY_LONG_LISTING = 2,   /* line 0: listing over BUDQUARRY_LISTING bytes */
    BUDQUARRY_BAD_FIRST_LINE = 3, /* the first line isn't exactly `constraints<tab>1`, or lacks its byte 10, or the listing has no bytes */
    BUDQUARRY_BAD_FORM = 4,       /* on a later line: unknown record name, wrong number of fields, or no byte 10 */
    BUDQUARRY_WRONG_PLACE = 5,    /* a record that may not stand behind the one before it */
    BUDQUARRY_BAD_NAME = 6,       /* bad role or method name, or constraint kind */
    BUDQUARRY_BAD_PATTERN = 7,    /* bad pattern, also one with a `;` in it */
    BUDQUARRY_ROLE_TWICE = 9,     /* role declared twice */
    BUDQUARRY_PAST_MOST = 8,      /* this line is one too many: most are 64 constraints, 128 collections, 128 pattern lines, 512 method and omit
                                     lines together, 32 distinct role names (declared or allowed, `*` not counted), 31 distinct methods */
    BUDQUARRY_NO_END = 10,        /* no `end` (at the line after the last), or bytes after it (at the next line) */
    BUDQUARRY_BAD_PATH = 11,      /* side 0 (deciding): not 1 to 1,024 text bytes that start with `/`, parameters counted */
    BUDQUARRY_BAD_METHOD = 12,    /* side 0 (deciding): not 1 to 24 token bytes */
    BUDQUARRY_BAD_CALLER = 13     /* side 0 (deciding): a name that isn't 1 to 64 text bytes, or has a space first or last, or is `*`; over 32 names;
                                     a last name that no byte 10 ends; names though not logged in; login above 1 */
};

struct budquarry_report {
    uint32_t number, side, line;
};

/* Reads a listing: accepted (number 0), or refused. */
struct budquarry_report budquarry_read(const uint8_t *listing, size_t listing_len, uint32_t *work, size_t work_len);

/* The answers to a request; the first two are grants. No answer is 0, and a refusal's answer is 0: a caller who forgets to look at number can't
 * read a refusal as a grant. */
enum {
    BUDQUARRY_OPEN = 1,         /* nothing is asked of the caller */
    BUDQUARRY_BY_ROLE = 2,      /* the caller holds a role that may */
    BUDQUARRY_CLOSED = 3,       /* nobody may */
    BUDQUARRY_LOGIN_WANTED = 4, /* some roles may, and the caller is not logged in */
    BUDQUARRY_ROLE_LACKING = 5  /* some roles may, and the caller holds none of them */
};

struct budquarry_decision {
    uint32_t number, side, line, answer;
};

/* Decides one request. login is 0 (not logged in: then roles has no bytes) or 1; roles holds the names of at most 32 roles, each ended by byte
 * 10. The path is matched without its parameters: in every segment the bytes from the first `;` up to the next `/` or the end are left out first, so
 * that `/clock/offset;s=12` is decided as `/clock/offset` is. Nothing is decoded. The 1,024 bytes count before that. */
struct budquarry_decision budquarry_decide(const uint8_t *listing, size_t listing_len, const uint8_t *path, size_t path_len,
                                           const uint8_t *method, size_t method_len, uint32_t login, const uint8_t *roles, size_t roles_len,
                                           uint32_t *work, size_t work_len);

struct budquarry_comparison {
    uint32_t number, side, line, length;
};

enum { BUDQUARRY_NO_WIDER = 17 }; /* the length of the answer `verdict<tab>no wider` and of no other */

/* Compares two listings: does the new one grant any request at all that the old one denies? The answer is text in the first length bytes of the
 * answer buffer, each line ended by byte 10, no NUL; the bytes past it stay as they were. It is the one line
 *     verdict<tab>no wider
 * or four lines that show such a request, the first by path (those of the new listing's pattern lines, then of the old one's, then of neither),
 * then by method (the new listing's as they appear, then the old one's, then one that neither names), then by caller (not logged in, then each
 * role, likewise):
 *     verdict<tab>wider
 *     path<tab>PATH
 *     method<tab>METHOD
 *     caller<tab>none                  not logged in;  or  caller<tab>role<tab>NAME, logged in with that one role
 * A METHOD `Q0` (`Q1`..) that neither listing names stands for every method that neither names; a PATH with a `q0` (`q1`..) that is inside no
 * pattern of either stands for every path to which the same patterns are closest in both. No wider exactly when length is BUDQUARRY_NO_WIDER. With a
 * refusal length is 0 and the whole answer buffer as before: a caller who forgets to look at number can't read a refusal as a verdict. */
struct budquarry_comparison budquarry_compare(const uint8_t *old_listing, size_t old_len, const uint8_t *new_listing, size_t new_len,
                                              uint8_t *answer, size_t answer_len, uint32_t *work, size_t work_len);

/* Refusals of reading a web.xml, beside BUDQUARRY_SHORT_TABLE, which comes first of all. Next comes BUDQUARRY_LONG_XML; then the first fault in the
 * file, and at one place in this order: BUDQUARRY_BAD_XML, BUDQUARRY_DEEP_XML, BUDQUARRY_REFUSED_ELEMENT, BUDQUARRY_BAD_NAME, BUDQUARRY_BAD_PATTERN,
 * BUDQUARRY_ROLE_TWICE, BUDQUARRY_PAST_MOST, all with side 1 and a line of the file; then BUDQUARRY_LONG_LISTING, where the listing would be too long
 * (side 1, line 0); last BUDQUARRY_ROOM_SHORT. The line is that of the `<` of the tag at fault, or of the start tag round the text at fault, or the
 * last where the file runs out. */
enum {
    BUDQUARRY_ROOM_SHORT = 15,     /* side 0, line 0: the lent buffer is shorter than the listing; length is the length needed */
    BUDQUARRY_LONG_XML = 16,       /* side 1, line 0: file over BUDQUARRY_XML bytes */
    BUDQUARRY_BAD_XML = 17,        /* not well formed, another arrangement, or outside the subset (no DTD, CDATA, numeric references, instructions) */
    BUDQUARRY_DEEP_XML = 18,       /* an element deeper than 8, the root being 1 */
    BUDQUARRY_REFUSED_ELEMENT = 19 /* a `user-data-constraint` or `deny-uncovered-http-methods`, anywhere */
};

struct budquarry_written {
    uint32_t number, side, line;
    size_t length;
};

/* Reads a web.xml and writes what it says as a listing, into the first length bytes of the listing buffer; the bytes past it stay as they were.
 * BUDQUARRY_LISTING bytes are always enough. `security-role` and `security-constraint` below `web-app` are read; attributes, comments, the XML
 * declaration and all other elements are passed over. A constraint without an `auth-constraint` is open, one with an empty one closes to everyone.
 * What is written is accepted by budquarry_read. With a refusal the buffer is as before and length 0, but beside BUDQUARRY_ROOM_SHORT. */
struct budquarry_written budquarry_from_web_xml(const uint8_t *xml, size_t xml_len, uint8_t *listing, size_t listing_len, uint32_t *work,
                                                size_t work_len);

#ifdef __cplusplus
}
#endif
#endif
