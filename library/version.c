/* version.c: stands in the library beside the proved calls. */
#include "../include/budquarry.h"

const char *budquarry_version(void) { return BUDQUARRY_VERSION; }
