/* The most stack that each call takes on many inputs, measured on a painted stack, and the first input that takes it; exit 1 where that is not under
 * the limit. Some words of the caller's are counted in. `stack all` prints every named input. x86-64. */
#include <stdint.h>
#include <stdio.h>
#include <string.h>
#include "../include/budquarry.h"
#include "../second/generate_xml.h"
#include "inputs.h"
#include "xml.h"

enum { ROOM = 65536, SEEDS = 2000 };
static uint8_t area[ROOM] __attribute__((aligned(4096)));
static uint32_t work[BUDQUARRY_WORK];
static uint8_t answer[GENERATED_LISTING];
static struct generated g;
static struct generated_xml f;

static void run_read(void) { budquarry_read(g.listing, g.listing_len, work, g.work_len); }

static void run_decide(void) {
    budquarry_decide(g.listing, g.listing_len, g.path, g.path_len, g.method, g.method_len, g.login, g.roles, g.roles_len, work, g.work_len);
}

static void run_compare(void) {
    budquarry_compare(g.listing, g.listing_len, g.new_listing, g.new_len, answer, g.answer_len, work, g.work_len);
}

static void run_web_xml(void) { budquarry_from_web_xml(f.xml, f.xml_len, answer, f.room, work, f.work_len); }

static struct {
    const char *name;
    void (*run)(void);
    size_t limit, most;
    unsigned inputs, worst; /* how many there were, and how many of them took the most */
    char first[160];        /* of those */
} calls[] = {{"read", run_read, 8192, 0, 0, 0, ""},
             {"decide", run_decide, 8192, 0, 0, 0, ""},
             {"compare", run_compare, 6144, 0, 0, 0, ""},
             {"web.xml", run_web_xml, 8192, 0, 0, 0, ""}};
enum { WEB_XML = 3, CALLS = 4 };
static void (*task)(void);
static int all;

/* Runs the task with the stack pointer at the top of the area. */
static void on_area(void) {
    uint8_t *top = area + sizeof area;
    __asm__ volatile("movq %%rsp, %%rbx\n\tmovq %[top], %%rsp\n\tcall *%[task]\n\tmovq %%rbx, %%rsp\n\t"
                     :
                     : [top] "r"(top), [task] "r"(task)
                     : "rbx", "rax", "rcx", "rdx", "rsi", "rdi", "r8", "r9", "r10", "r11", "memory", "cc", "xmm0", "xmm1", "xmm2", "xmm3",
                       "xmm4", "xmm5", "xmm6", "xmm7", "xmm8", "xmm9", "xmm10", "xmm11", "xmm12", "xmm13", "xmm14", "xmm15");
}

/* One call on what g or f holds. */
static void measure(int which, const char *input) {
    memset(area, 0xA5, sizeof area);
    task = calls[which].run;
    on_area();
    size_t i = 0;
    while (i < sizeof area && area[i] == 0xA5) i++;
    size_t used = sizeof area - i;
    if (all) printf("%-8s %5zu  %s\n", calls[which].name, used, input);
    calls[which].inputs++;
    calls[which].worst += used == calls[which].most;
    if (used <= calls[which].most) return;
    calls[which].most = used;
    calls[which].worst = 1;
    snprintf(calls[which].first, sizeof calls[which].first, "%s", input);
}

static void put(uint8_t *to, size_t *length, const void *from, size_t n) {
    memcpy(to, from, n);
    *length = n;
}

/* Both listings; the work table and the answer buffer are large enough. */
static void listings(const void *o, size_t o_len, const void *n, size_t n_len) {
    put(g.listing, &g.listing_len, o, o_len);
    put(g.new_listing, &g.new_len, n, n_len);
    g.work_len = BUDQUARRY_WORK;
    g.answer_len = BUDQUARRY_ANSWER;
}

static void both_ways(const char *input) {
    static struct generated kept;
    char turned[160];
    g.work_len = BUDQUARRY_WORK;
    g.answer_len = BUDQUARRY_ANSWER;
    measure(2, input);
    kept = g;
    listings(kept.new_listing, kept.new_len, kept.listing, kept.listing_len);
    snprintf(turned, sizeof turned, "%s, turned round", input);
    measure(2, turned);
    g = kept;
}

/* A request with the longest path and 32 names of roles, all but the last of 64 bytes. */
static void long_request(const char *start) {
    put(g.method, &g.method_len, "METHOD30", 8);
    memset(g.path, 'x', g.path_len = 1024);
    memcpy(g.path, start, strlen(start));
    memcpy(g.path + 1020, ".csv", 4);
    g.login = 1;
    memset(g.roles, 'n', 31 * 65);
    for (int i = 0; i < 31; i++) sprintf((char *)g.roles + 65 * i, "%02d", i), g.roles[65 * i + 2] = 'n', g.roles[65 * i + 64] = 10;
    memcpy(g.roles + 31 * 65, "role31\n", 7);
    g.roles_len = 31 * 65 + 7;
}

static void read_and_decide(const char *input, const char *start) {
    measure(0, input);
    long_request(start);
    char request[160];
    snprintf(request, sizeof request, "%s, longest path, 32 names", input);
    measure(1, request);
}

/* A refusal of each call. */
static void refused(const char *input) {
    long_request("/");
    for (int i = 0; i < 3; i++) measure(i, input);
}

/* New is open below a prefix of 255 bytes; old closes an extension of 253: the longest path that can be shown. */
static void longest_shown(void) {
    char e[256] = "", p[256] = "";
    memset(e, 'e', 253);
    memset(p, 'p', 252);
    listings("", 0, "", 0);
    g.listing_len = (size_t)sprintf((char *)g.listing, "constraints\t1\nconstraint\tauth\ncollection\npattern\t*.%s\nend\n", e);
    g.new_len = (size_t)sprintf((char *)g.new_listing, "constraints\t1\nconstraint\topen\ncollection\npattern\t/%s/*\nend\n", p);
}

/* An element of depth 8 in a web.xml: what it can hold, and what it can be refused for. */
static const struct {
    const char *name, *element;
} deep[] = {
    {"an empty element", "<a/>"},
    {"text", "<a>The offset</a>"},
    {"an entity", "<a>&apos;</a>"},
    {"a comment", "<a><!-- The offset --></a>"},
    {"attributes", "<a b='&apos;' c = \"d\" />"},
    {"a second element", "<a></a><a></a>"},
    {"a refused element", "<user-data-constraint>"},
    {"a bad reference", "<a>&#38;</a>"},
    {"a bad end tag", "<a></b>"},
    {"an element with one in it", "<a><b/></a>"},
};

/* What it stands in: elements that are passed over, below the root and below what is wanted there. */
static const struct {
    const char *name, *start, *end;
} below[] = {
    {"the root", "<a><a><a><a><a><a>", "</a></a></a></a></a></a>"},
    {"a collection", "<security-constraint><web-resource-collection><url-pattern>/</url-pattern><a><a><a><a>",
     "</a></a></a></a></web-resource-collection></security-constraint>"},
    {"a role", "<security-role><role-name>a</role-name><a><a><a><a><a>", "</a></a></a></a></a></security-role>"},
};

/* A web.xml, in buffers that are large enough. */
static void measure_file(const void *xml, size_t length, const char *input) {
    put(f.xml, &f.xml_len, xml, length);
    f.room = BUDQUARRY_LISTING;
    f.work_len = BUDQUARRY_WORK;
    measure(WEB_XML, input);
}

/* Each of these, whole and cut off behind that element. */
static void deep_files(void) {
    char xml[500], input[160];
    for (size_t i = 0; i < sizeof below / sizeof *below; i++)
        for (size_t k = 0; k < sizeof deep / sizeof *deep; k++) {
            size_t cut = (size_t)sprintf(xml, "<web-app>%s%s", below[i].start, deep[k].element);
            size_t whole = cut + (size_t)sprintf(xml + cut, "%s</web-app>", below[i].end);
            snprintf(input, sizeof input, "%s at depth 8 below %s", deep[k].name, below[i].name);
            measure_file(xml, whole, input);
            snprintf(input, sizeof input, "%s at depth 8 below %s, cut off", deep[k].name, below[i].name);
            measure_file(xml, cut, input);
        }
}

/* bench/xml.h's files, the last of them in short buffers too; the deep ones; the generator's. */
static void web_xml(void) {
    char input[80];
    for (int i = 0; i < XML_FILES; i++) {
        xml_make(xml_files[i].name);
        snprintf(input, sizeof input, "the web.xml `%s`", xml_files[i].name);
        measure_file(xml_room, xml_len, input);
    }
    f.room = 0;
    measure(WEB_XML, "no room for the listing, refused");
    f.work_len--;
    measure(WEB_XML, "too short a work table, refused");
    deep_files();
    for (uint64_t seed = 1; seed <= SEEDS; seed++) {
        int shown = all;
        generate_xml_case(seed, &f);
        if (f.work_len > BUDQUARRY_WORK) f.work_len = BUDQUARRY_WORK;
        all = 0;
        snprintf(input, sizeof input, "the generator's web.xml %u", (unsigned)seed);
        measure(WEB_XML, input);
        all = shown;
    }
}

int main(int argc, char **argv) {
    static const char bare[] = "constraints\t1\nend\n", closed[] = "constraints\t1\nconstraint\tauth\ncollection\npattern\t/*\nend\n";
    char input[80];
    all = argc > 1 && !strcmp(argv[1], "all");
    if (!full_listing()) return 2;

    listings(small, sizeof small - 1, small, sizeof small - 1);
    read_and_decide("listing L", "/clock/");
    both_ways("listing L with itself");
    listings(old_12, sizeof old_12 - 1, new_12, sizeof new_12 - 1);
    both_ways("case 12");
    listings(full_room, FULL, full_room, FULL);
    read_and_decide("full listing A", "/p127/");
    both_ways("full listing A with itself");
    listings(full_room, FULL, bare, sizeof bare - 1);
    both_ways("full listing A and an empty one");
    listings(closed, sizeof closed - 1, full_room, FULL);
    both_ways("a closed listing and full listing A, wider at the first trial");
    for (size_t i = 0; i < generate_large_count(); i++) {
        generate_large(i, &g);
        g.work_len = BUDQUARRY_WORK;
        snprintf(input, sizeof input, "the generator's large case %zu", i);
        read_and_decide(input, "/n/n/");
        both_ways(input);
    }
    longest_shown();
    both_ways("longest path to show");

    listings(small, sizeof small - 1, full_room, FULL - 1);
    refused("unended listing, refused");
    listings(full_room, FULL + 1, full_room, FULL + 1);
    refused("too long a listing, refused");
    g.work_len--;
    refused("too short a work table, refused");
    for (uint64_t seed = 1; seed <= SEEDS; seed++) {
        int shown = all;
        generate_case(seed, &g);
        if (g.work_len > BUDQUARRY_WORK) g.work_len = BUDQUARRY_WORK;
        all = 0;
        snprintf(input, sizeof input, "the generator's case %u", (unsigned)seed);
        measure(g.kind == GENERATED_READ ? 0 : g.kind == GENERATED_DECIDE ? 1 : 2, input);
        all = shown;
    }
    web_xml();

    int over = 0;
    for (int i = 0; i < CALLS; i++) {
        printf("stack %-8s %5zu bytes (under %zu) on %u of %u inputs, the first: %s\n", calls[i].name, calls[i].most, calls[i].limit, calls[i].worst,
               calls[i].inputs, calls[i].first);
        over |= calls[i].most >= calls[i].limit;
    }
    return over;
}
