/* web.xml files to be read: a bare and a small one; of 65,536 bytes one that uses every limit, some of one thing alone, and some that are made to cost. */
#ifndef XML_H
#define XML_H
#include <stdarg.h>
#include <stddef.h>
#include <stdint.h>
#include <stdio.h>
#include <string.h>
#include "../include/budquarry.h"

static char xml_room[BUDQUARRY_XML + 1];
static size_t xml_len;

/* Puts one thing more behind the others. */
static void xml_put(const char *form, ...) {
    va_list of;
    va_start(of, form);
    xml_len += (size_t)vsnprintf(xml_room + xml_len, sizeof xml_room - xml_len, form, of);
    va_end(of);
}

/* What stands before, the unit as often as it fits, blanks, and what stands behind. */
static void xml_fill(const char *before, const char *unit, const char *behind) {
    xml_put("%s", before);
    size_t end = BUDQUARRY_XML - strlen(behind);
    while (xml_len + strlen(unit) <= end) xml_put("%s", unit);
    xml_put("%*s%s", (int)(end - xml_len), "", behind);
}

/* ---- the full one: 64 constraints, 128 collections and patterns, 512 methods and omissions of 31 names, 32 roles, and as many servlets as fit */
static const char *const xml_methods[31] = {
    "GET", "HEAD", "POST", "PUT", "DELETE", "OPTIONS", "TRACE", "PATCH", "CONNECT", "PROPFIND", "PROPPATCH", "MKCOL", "COPY", "MOVE", "LOCK", "UNLOCK",
    "SEARCH", "REPORT", "MKACTIVITY", "CHECKOUT", "CHECKIN", "UNCHECKOUT", "VERSION-CONTROL", "LABEL", "MERGE", "MKWORKSPACE", "UPDATE", "BASELINE-CONTROL",
    "BIND", "UNBIND", "REBIND"};

static void xml_collection(int i) {
    const char *kind = i / 2 % 2 ? "http-method-omission" : "http-method";
    xml_put("    <web-resource-collection>\n      <web-resource-name>Claims %d</web-resource-name>\n", i);
    xml_put("      <url-pattern>/claims/%d/*</url-pattern>\n", i);
    for (int k = 0; k < 4; k++) xml_put("      <%s>%s</%s>\n", kind, xml_methods[(4 * i + k) % 31], kind);
    xml_put("    </web-resource-collection>\n");
}

static void xml_constraint(int i) {
    xml_put("  <security-constraint>\n");
    xml_collection(2 * i);
    xml_collection(2 * i + 1);
    if (i % 8 != 0) {
        xml_put("    <auth-constraint>\n      <role-name>adjuster%d</role-name>\n", i % 32);
        xml_put("      <role-name>adjuster%d</role-name>\n    </auth-constraint>\n", 7 * i % 32);
    }
    xml_put("  </security-constraint>\n");
}

static void xml_servlet(int i) {
    xml_put("  <!-- The servlet of claims %d -->\n  <servlet id=\"claims-%d\">\n    <servlet-name>claims%d</servlet-name>\n", i, i, i);
    xml_put("    <servlet-class>portal.claims.Claims%dServlet</servlet-class>\n  </servlet>\n", i);
    xml_put("  <servlet-mapping>\n    <servlet-name>claims%d</servlet-name>\n    <url-pattern>/claims/%d/*</url-pattern>\n  </servlet-mapping>\n", i, i);
}

static void xml_full(void) {
    xml_put("<?xml version=\"1.0\" encoding=\"UTF-8\"?>\n<web-app xmlns=\"http://java.sun.com/xml/ns/javaee\"\n");
    xml_put("         xmlns:xsi=\"http://www.w3.org/2001/XMLSchema-instance\" version=\"3.0\">\n  <display-name>Claims &amp; clocks</display-name>\n");
    for (int i = 0; i < 64; i++) xml_constraint(i);
    for (int i = 0; i < 32; i++) xml_put("  <security-role>\n    <role-name>adjuster%d</role-name>\n  </security-role>\n", i);
    for (int i = 0; xml_len + 600 < BUDQUARRY_XML; i++) xml_servlet(i);
    xml_fill("  <!-- Below this line nothing is read by the portal", ".", " -->\n</web-app>\n");
}

/* ---- those made to cost: names that are looked for */
#define XML_ALLOW "<web-app><security-constraint><web-resource-collection><url-pattern/></web-resource-collection><auth-constraint>"
#define XML_END "</auth-constraint></security-constraint></web-app>"

/* 32 names of 64 bytes that begin and end alike, and the last of them again and again. */
static void xml_alike(void) {
    char name[65], unit[100];
    memset(name, 'n', 64);
    name[64] = 0;
    xml_put(XML_ALLOW);
    for (int i = 0; i < 32; i++) {
        name[60] = (char)('A' + i);
        snprintf(unit, sizeof unit, "<role-name>%s</role-name>", name);
        xml_put("%s", unit);
    }
    xml_fill("", unit, XML_END);
}

/* A name with half a file of blanks before it, and the same again and again. */
static void xml_far(void) {
    xml_put(XML_ALLOW "<role-name>%*s</role-name>", BUDQUARRY_XML / 2, "n");
    xml_fill("", "<role-name>n</role-name>", XML_END);
}

/* ---- by their names */
static void xml_bare(void) { xml_put("<web-app/>"); }

static void xml_small(void) {
    FILE *f = fopen("examples/live/web.xml", "rb");
    if (f == NULL) return;
    xml_len = fread(xml_room, 1, BUDQUARRY_XML, f);
    fclose(f);
}

static const struct xml_file {
    const char *name;
    void (*make)(void);
    const char *before, *unit, *behind; /* where there is nothing to make it */
} xml_files[] = {
    {"bare", xml_bare, NULL, NULL, NULL},
    {"small", xml_small, NULL, NULL, NULL},
    {"full", xml_full, NULL, NULL, NULL},
    {"text", NULL, "<web-app><description>", "The offset of the claims portal's clock, in minutes.\n", "</description></web-app>"},
    {"attributes", NULL, "<web-app", "\n  xmlns:xsi=\"http://www.w3.org/2001/XMLSchema-instance\"", "/>"},
    {"comments", NULL, "<web-app>", "<!-- The offset of the claims portal's clock, in minutes. -->\n", "</web-app>"},
    {"white", NULL, "<web-app>", "        \n", "</web-app>"},
    {"servlets", NULL, "<web-app>", "<servlet><servlet-name>clock</servlet-name><servlet-class>Clock</servlet-class></servlet>\n", "</web-app>"},
    {"entities", NULL, "<web-app><description>", "&apos;", "</description></web-app>"},
    {"pairs", NULL, "<web-app", " a=''", "/>"},
    {"remarks", NULL, "<web-app>", "<!---->", "</web-app>"},
    {"tags", NULL, "<web-app>", "<a/>", "</web-app>"},
    {"deep", NULL, "<web-app>", "<a><a><a><a><a><a><a></a></a></a></a></a></a></a>", "</web-app>"},
    {"nearly", NULL, "<web-app>", "<http-method-omissioN/>", "</web-app>"},
    {"roles", NULL, XML_ALLOW, "<role-name>n</role-name>", XML_END},
    {"alike", xml_alike, NULL, NULL, NULL},
    {"far", xml_far, NULL, NULL, NULL},
};
enum { XML_FILES = sizeof xml_files / sizeof *xml_files };

/* The file of that name, in the room; gives whether there is one. */
static int xml_make(const char *name) {
    xml_len = 0;
    for (int i = 0; i < XML_FILES; i++) {
        const struct xml_file *f = &xml_files[i];
        if (strcmp(name, f->name)) continue;
        if (f->make != NULL) f->make();
        else xml_fill(f->before, f->unit, f->behind);
    }
    return xml_len != 0;
}
#endif
