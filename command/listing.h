/* listing.h: a file of access rules, its listing cut into lines and records, and which of its patterns is best for a path. The verdict on a listing is the
 * library's alone: what is said here about records holds for a listing that budquarry_read accepts. */
#ifndef LISTING_H
#define LISTING_H

#include <stddef.h>
#include <stdint.h>
#include "../include/budquarry.h"

/* A piece of somebody else's bytes. */
struct text {
    const uint8_t *at;
    size_t len;
};

/* The listing that a file is, or that a web.xml means. Both have room for one byte more than they may have, so that a longer file is seen to be longer. */
struct listing {
    const char *name; /* the file's, or - */
    size_t len;
    uint8_t bytes[BUDQUARRY_LISTING + 1];
    int is_xml; /* the file is a web.xml, with these bytes */
    size_t xml_len;
    uint8_t xml[BUDQUARRY_XML + 1];
};

struct text text_of(const char *s);
struct text behind(struct text t, size_t skipped);
int same(struct text a, struct text b);
int starts_with(struct text t, const char *start);
int ends_with(struct text t, const char *end);

/* Whether a file's first bytes are those of XML: a byte order mark or none, white space, and then <. No listing starts so. */
int looks_like_xml(struct text file);
/* The file's own bytes, and what it is called: web.xml or listing. */
struct text file_of(const struct listing *l);
const char *kind_of_file(const struct listing *l);

/* Takes the first line off a text; the line comes without its byte 10. */
struct text take_line(struct text *rest);

enum name { ROLE, CONSTRAINT, ALLOW, COLLECTION, PATTERN, METHOD, OMIT, END, UNKNOWN };
extern const char *const record_names[UNKNOWN];
struct record {
    enum name name;
    struct text field; /* what follows the first tab */
};
struct record record_of(struct text line);

enum kind { EXACT, PREFIX, ENDING, DEFAULT };
enum kind kind_of(struct text pattern);

/* Sets of collections, by their place in the listing. */
enum { COLLECTIONS = 128, PATTERNS = 128, METHODS = 31, ROLES = 32 };
struct set {
    uint64_t half[COLLECTIONS / 64];
};
struct set both(struct set a, struct set b);
int same_set(struct set a, struct set b);

/* What an accepted listing names, each text once, by first appearance: a pattern with the collections that have it, a method with those that
 * name it, in a `method` or an `omit` line. */
struct named {
    struct text text;
    struct set in;
};
struct map {
    struct named pattern[PATTERNS], method[METHODS];
    struct text role[ROLES];
    size_t patterns, methods, roles;
};
void map_listing(const struct listing *listing, struct map *map);

/* The place of a text among those named, or their count. */
size_t find(const struct named *named, size_t count, struct text t);
size_t find_text(const struct text *texts, size_t count, struct text t);

/* The place of the pattern that is best for the path, by 01's best match, or the number of patterns if none fits. */
size_t best_pattern(const struct map *map, struct text path);

#endif
