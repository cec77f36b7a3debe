/* Every refusal has a cause that the command can name, on seeded listings, requests and web.xml files, and on short web.xml files damaged at every place.
 * causes SEED CASES; exit 1 at the first that has none. */
#include <inttypes.h>
#include <stdio.h>
#include <stdlib.h>
#include <string.h>
#include "../command/causes.h"
#include "../second/generate.h"
#include "../second/generate_xml.h"

enum { RULES = BUDQUARRY_REFUSED_ELEMENT + 1 };

static struct generated g;
static struct generated_xml x;
static struct listing listing;
static uint32_t work[BUDQUARRY_WORK];
static unsigned long refused[RULES], refused_xml[RULES];

static void check(uint64_t at, struct refusal r) {
    static const char lost[] = "rule ";
    struct words w = {.len = 0};
    explain(&w, &r);
    (r.side && listing.is_xml ? refused_xml : refused)[r.number]++;
    if (w.len > 20 && memcmp(w.at, lost, strlen(lost)) && w.at[w.len - 1] != ' ') return;
    printf("causes: case %" PRIu64 ": refusal %u at line %u: %.*s\n", at, r.number, r.line, (int)w.len, w.at);
    exit(1);
}

/* As the command gets a request: what has a NUL in it can't be an argument. */
static void check_request(uint64_t at) {
    static char path[GENERATED_PATH + 1], method[GENERATED_METHOD + 1];
    struct budquarry_decision d = budquarry_decide(listing.bytes, listing.len, g.path, g.path_len, g.method, g.method_len, g.login, g.roles, g.roles_len,
                                                   work, BUDQUARRY_WORK);
    int ended = !g.roles_len || g.roles[g.roles_len - 1] == '\n';
    if (d.side || !d.number || memchr(g.path, 0, g.path_len) || memchr(g.method, 0, g.method_len) || !ended || g.login != 1) return;
    memcpy(path, g.path, g.path_len), path[g.path_len] = 0;
    memcpy(method, g.method, g.method_len), method[g.method_len] = 0;
    check(at, (struct refusal){.number = d.number, .path = path, .method = method, .roles = {g.roles, g.roles_len}});
}

static void check_listing(uint64_t at) {
    generate_case(at, &g);
    listing.is_xml = 0;
    listing.len = g.listing_len <= BUDQUARRY_LISTING ? g.listing_len : BUDQUARRY_LISTING + 1;
    memcpy(listing.bytes, g.listing, listing.len);
    struct budquarry_report r = budquarry_read(listing.bytes, listing.len, work, BUDQUARRY_WORK);
    if (r.number) check(at, (struct refusal){.number = r.number, .side = 1, .line = r.line, .listing = &listing, .which = ""});
    if (!r.number && g.kind == GENERATED_DECIDE) check_request(at);
}

/* The file in x. */
static void check_xml(uint64_t at) {
    listing.is_xml = 1;
    listing.xml_len = x.xml_len <= BUDQUARRY_XML ? x.xml_len : BUDQUARRY_XML + 1;
    memcpy(listing.xml, x.xml, listing.xml_len);
    struct budquarry_written r = budquarry_from_web_xml(listing.xml, listing.xml_len, listing.bytes, BUDQUARRY_LISTING, work, BUDQUARRY_WORK);
    if (r.number) check(at, (struct refusal){.number = r.number, .side = 1, .line = r.line, .listing = &listing, .which = ""});
}

/* How many there were by each rule; returns by how many rules. */
static size_t tell(const char *of, const unsigned long counts[RULES]) {
    size_t kinds = 0;
    printf("causes: each of these refusals of %s has one:", of);
    for (size_t n = 0; n < RULES; n++)
        if (counts[n]) printf("%s %lu by rule %zu", kinds++ ? "," : "", counts[n], n);
    putchar('\n');
    return kinds;
}

int main(int argc, char **argv) {
    uint64_t seed = argc > 1 ? strtoull(argv[1], 0, 10) : 1, cases = argc > 2 ? strtoull(argv[2], 0, 10) : 20000;
    listing.name = "seeded";
    for (uint64_t i = 0; i < cases; i++) {
        check_listing(seed * 1000003 + i);
        generate_xml_case(seed * 1000003 + i, &x);
        check_xml(seed * 1000003 + i);
    }
    for (size_t i = 0; i < generate_xml_small_count(); i++) {
        generate_xml_small(i, &x);
        check_xml(i);
    }
    size_t kinds = tell("listings and requests", refused), kinds_xml = tell("web.xml files", refused_xml);
    return kinds < 12 || kinds_xml < 9; /* rules 2 to 13, and 16 to 19, 6, 7, 9, 8, 2, each tried */
}
