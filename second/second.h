/* second.h: the literal implementation of 01-scope.md and of Items 1 and 3 of
 * 02-change-requests.md.  Readable beats fast. */
#ifndef SECOND_H
#define SECOND_H

#include <stddef.h>
#include <stdint.h>

struct second_report { uint32_t number, side, line; };
struct second_decision { uint32_t number, side, line, answer; };
struct second_comparison { uint32_t number, side, line; size_t length; };
struct second_written { uint32_t number, side, line; size_t length; };

/* Answers of deciding: 0 stands beside a refusal. */
enum {
    SECOND_OPEN = 1,
    SECOND_BY_ROLE = 2,
    SECOND_CLOSED = 3,
    SECOND_LOGIN_WANTED = 4,
    SECOND_ROLE_LACKING = 5
};

struct second_report second_read(const uint8_t *listing, size_t listing_len,
                                 uint32_t *work, size_t work_len);

struct second_decision second_decide(const uint8_t *listing, size_t listing_len,
                                     const uint8_t *path, size_t path_len,
                                     const uint8_t *method, size_t method_len,
                                     uint32_t login,
                                     const uint8_t *roles, size_t roles_len,
                                     uint32_t *work, size_t work_len);

struct second_comparison second_compare(const uint8_t *old_listing, size_t old_len,
                                        const uint8_t *new_listing, size_t new_len,
                                        uint8_t *answer, size_t answer_len,
                                        uint32_t *work, size_t work_len);

/* 02, Item 3; in webxml.c. */
struct second_written second_from_web_xml(const uint8_t *xml, size_t xml_len,
                                          uint8_t *listing, size_t listing_len,
                                          uint32_t *work, size_t work_len);

#endif
