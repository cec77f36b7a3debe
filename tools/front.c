/* front.c: the calls for a command without the library. Where the command has come so far that it calls one, its arguments are right and
 * its files are there; it ends with a status that tells `./budquarry` to build the library and to start over. */
#include <unistd.h>
#include "../include/budquarry.h"

enum { WANTS_LIBRARY = 100 };

struct budquarry_report budquarry_read(const uint8_t *listing, size_t listing_len, uint32_t *work, size_t work_len) {
    (void)listing, (void)listing_len, (void)work, (void)work_len;
    _exit(WANTS_LIBRARY);
}

struct budquarry_decision budquarry_decide(const uint8_t *listing, size_t listing_len, const uint8_t *path, size_t path_len,
                                           const uint8_t *method, size_t method_len, uint32_t login, const uint8_t *roles, size_t roles_len,
                                           uint32_t *work, size_t work_len) {
    (void)listing, (void)listing_len, (void)path, (void)path_len, (void)method, (void)method_len;
    (void)login, (void)roles, (void)roles_len, (void)work, (void)work_len;
    _exit(WANTS_LIBRARY);
}

struct budquarry_comparison budquarry_compare(const uint8_t *old_listing, size_t old_len, const uint8_t *new_listing, size_t new_len,
                                              uint8_t *answer, size_t answer_len, uint32_t *work, size_t work_len) {
    (void)old_listing, (void)old_len, (void)new_listing, (void)new_len, (void)answer, (void)answer_len, (void)work, (void)work_len;
    _exit(WANTS_LIBRARY);
}

struct budquarry_written budquarry_from_web_xml(const uint8_t *xml, size_t xml_len, uint8_t *listing, size_t listing_len, uint32_t *work,
                                                size_t work_len) {
    (void)xml, (void)xml_len, (void)listing, (void)listing_len, (void)work, (void)work_len;
    _exit(WANTS_LIBRARY);
}
