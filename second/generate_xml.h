/* generate_xml.h: web.xml files from a seed, for reading them.
 *
 * The same seed gives the same case always.  The generator knows nothing of
 * the implementations; it writes listings as web.xml in many styles, damages
 * some of the files, and makes some from nothing but tags.
 */
#ifndef GENERATE_XML_H
#define GENERATE_XML_H

#include <stddef.h>
#include <stdint.h>
#include "generate.h"

enum { GENERATED_XML = 80000 };

struct generated_xml {
    uint8_t xml[GENERATED_XML];
    size_t xml_len;
    /* The listing that the file was made from.  `whole` is 1 where nothing was
     * done to the file that changes what it means: if the listing is one of
     * 01's, and the file is within 02's length, it is what the file means. */
    uint8_t listing[GENERATED_LISTING];
    size_t listing_len;
    int whole;
    /* the lent buffers: their lengths, and what they hold before the call */
    size_t room;
    size_t work_len;
    uint64_t garbage;
};

/* One case from a seed. */
void generate_xml_case(uint64_t seed, struct generated_xml *g);

/* Short files, cut at every place, and with every place's byte dropped, and
 * with odd bytes in its stead and before it: cases 0 to count - 1. */
size_t generate_xml_small_count(void);
void generate_xml_small(size_t index, struct generated_xml *g);

#endif
