/* What is measured: 01's listing L and the pair of its case 12; the full listings are full.h's and the generator's. */
#ifndef INPUTS_H
#define INPUTS_H
#include "../second/generate.h"
#include "full.h"

static const char small[] =
    "constraints\t1\nrole\tadjuster\nrole\tassessor\nrole\towner\nconstraint\tauth\ncollection\npattern\t/*\nmethod\tDELETE\nconstraint\tauth\n"
    "allow\tassessor\ncollection\npattern\t/clock/*\nomit\tGET\nconstraint\tauth\nallow\tadjuster\ncollection\npattern\t/clock/*\nmethod\tPUT\n"
    "constraint\topen\ncollection\npattern\t*.csv\nconstraint\tauth\nallow\t*\ncollection\npattern\t/clock/offset\nmethod\tGET\nend\n";

#define OLD_12 "constraints\t1\nrole\tassessor\nconstraint\tauth\nallow\tassessor\ncollection\npattern\t/clock/*\n"
static const char old_12[] = OLD_12 "end\n";
static const char new_12[] = OLD_12 "constraint\tauth\nallow\tassessor\ncollection\npattern\t/clock/offset\nmethod\tGET\nend\n";
#endif
