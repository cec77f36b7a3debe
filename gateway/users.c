/* users.c: who calls. See gateway.h. Passwords stand in the file as they are, which keeps the example small: a real gateway would keep salted
 * hashes. */
#define _POSIX_C_SOURCE 200809L
#include <stdio.h>
#include <string.h>
#include <strings.h>
#include "gateway.h"

enum { USERS = 64, USERS_BYTES = 16384, LONGEST_NAME = 128, LONGEST_PAIR = LONGEST_NAME + 1 + LONGEST_PASSWORD };

static struct user users[USERS];
static size_t user_count;

static const struct user *find_name(const uint8_t *name, size_t len) {
    for (size_t i = 0; i < user_count; i++)
        if (users[i].name_len == len && !memcmp(users[i].name, name, len)) return &users[i];
    return NULL;
}

/* --- the file --- */

/* One line, from `at` to its byte 10 at `end`. The roles' commas become bytes 10, and the line's own ends the last role. The library is asked
 * whether it takes these roles, so that no request is refused for them later. */
static int add_user(uint8_t *at, uint8_t *end) {
    uint8_t *tab = memchr(at, '\t', (size_t)(end - at));
    uint8_t *second = tab ? memchr(tab + 1, '\t', (size_t)(end - tab - 1)) : NULL;
    if (!second || user_count == USERS) return 0;
    struct user u = {.name = at, .roles = second + 1};
    u.name_len = (size_t)(tab - at);
    u.password_len = (size_t)(second - tab - 1);
    u.roles_len = end == second + 1 ? 0 : (size_t)(end - second);
    if (!u.name_len || u.name_len > LONGEST_NAME || !u.password_len || u.password_len > LONGEST_PASSWORD) return 0;
    if (find_name(u.name, u.name_len)) return 0;
    memcpy(u.password, tab + 1, u.password_len);
    for (uint8_t *p = second + 1; p < end; p++)
        if (*p == ',') *p = '\n';
    users[user_count++] = u;
    return rules_decide("/", "GET", &u).number == 0;
}

static void say_bad_line(const char *file, size_t line) {
    char problem[160];
    snprintf(problem, sizeof problem, "line %zu: not name<tab>password<tab>role,role.., a name again, over %d users, or a name or password over %d bytes", line, USERS,
             LONGEST_PASSWORD);
    log_problem(file, problem);
}

int users_read(const char *file) {
    static uint8_t text[USERS_BYTES + 1];
    size_t len, line = 1;
    if (!read_file(file, text, sizeof text, &len)) return 0;
    if (len > USERS_BYTES) return log_problem(file, "too long for a file of users"), 0;
    for (uint8_t *at = text; at < text + len; line++) {
        uint8_t *end = memchr(at, '\n', (size_t)(text + len - at));
        if (!end || !add_user(at, end)) return say_bad_line(file, line), 0;
        at = end + 1;
    }
    return 1;
}

/* --- a header's value --- */

static int digit(char c) {
    static const char digits[] = "ABCDEFGHIJKLMNOPQRSTUVWXYZabcdefghijklmnopqrstuvwxyz0123456789+/";
    const char *at = c ? strchr(digits, c) : NULL;
    return at ? (int)(at - digits) : -1;
}

/* Base64 as RFC 4648 writes it and no other text: four digits for three bytes, `=` at the very end alone, and no bits left over. MHD's own
 * reader would stop at the first `=`, and hand out a C string that ends at the first byte 0. */
static int decode(const char *text, uint8_t *to, size_t most, size_t *len) {
    size_t text_len = strlen(text), pad = 0;
    uint32_t three = 0;
    while (pad < 2 && pad < text_len && text[text_len - 1 - pad] == '=') pad++;
    if (text_len % 4 || text_len / 4 * 3 > most) return 0;
    for (size_t i = 0; i < text_len; i++) {
        int d = i < text_len - pad ? digit(text[i]) : 0;
        if (d < 0) return 0;
        three = three << 6 | (uint32_t)d;
        if (i % 4 < 3) continue;
        *to++ = (uint8_t)(three >> 16), *to++ = (uint8_t)(three >> 8), *to++ = (uint8_t)three;
    }
    *len = text_len / 4 * 3 - pad;
    return (!pad || !to[-1]) && (pad < 2 || !to[-2]);
}

/* Takes as long for a password that is wrong in its first byte as for one that is wrong in its last, so that nobody can find one byte by byte. */
static int is_same_password(const uint8_t *given, const uint8_t *right) {
    volatile uint8_t differences = 0;
    for (size_t i = 0; i < LONGEST_PASSWORD; i++) differences |= given[i] ^ right[i];
    return !differences;
}

/* A name that nobody has costs a comparison too. */
static const struct user *find_pair(const uint8_t *name, size_t name_len, const uint8_t *password, size_t password_len) {
    static const struct user nobody;
    const struct user *known = find_name(name, name_len), *u = known ? known : &nobody;
    uint8_t given[LONGEST_PASSWORD] = {0};
    if (password_len > LONGEST_PASSWORD) return NULL;
    memcpy(given, password, password_len);
    int same = is_same_password(given, u->password) & (password_len == u->password_len);
    return same ? known : NULL;
}

const struct user *users_find(const char *authorization) {
    static const char scheme[] = "Basic ";
    uint8_t pair[(LONGEST_PAIR + 2) / 3 * 3];
    size_t len;
    if (strncasecmp(authorization, scheme, sizeof scheme - 1) || !decode(authorization + sizeof scheme - 1, pair, sizeof pair, &len)) return NULL;
    uint8_t *colon = memchr(pair, ':', len);
    return colon ? find_pair(pair, (size_t)(colon - pair), colon + 1, (size_t)(pair + len - colon - 1)) : NULL;
}
