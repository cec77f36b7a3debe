/* yardstick.h: the same three calls as second.h, written for speed. */
#ifndef YARDSTICK_H
#define YARDSTICK_H

#include <stddef.h>
#include <stdint.h>

struct yardstick_report { uint32_t number, side, line; };
struct yardstick_decision { uint32_t number, side, line, answer; };
struct yardstick_comparison { uint32_t number, side, line; size_t length; };

struct yardstick_report yardstick_read(const uint8_t *listing, size_t listing_len,
                                       uint32_t *work, size_t work_len);

struct yardstick_decision yardstick_decide(const uint8_t *listing, size_t listing_len,
                                           const uint8_t *path, size_t path_len,
                                           const uint8_t *method, size_t method_len,
                                           uint32_t login,
                                           const uint8_t *roles, size_t roles_len,
                                           uint32_t *work, size_t work_len);

struct yardstick_comparison yardstick_compare(const uint8_t *old_listing, size_t old_len,
                                              const uint8_t *new_listing, size_t new_len,
                                              uint8_t *answer, size_t answer_len,
                                              uint32_t *work, size_t work_len);

#endif
