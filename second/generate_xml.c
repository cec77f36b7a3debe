/* generate_xml.c: web.xml files from a seed.  See generate_xml.h. */
#include "generate_xml.h"

#include <stdio.h>
#include <string.h>

/* ----------------------------------------------------------------- chance */

struct rng { uint64_t state; };

static uint64_t mix(uint64_t z)
{
    z = (z ^ (z >> 30)) * 0xbf58476d1ce4e5b9u;
    z = (z ^ (z >> 27)) * 0x94d049bb133111ebu;
    return z ^ (z >> 31);
}

static unsigned below(struct rng *r, unsigned n)
{
    r->state += 0x9e3779b97f4a7c15u;
    return (unsigned)((mix(r->state) >> 32) * n >> 32);
}

/* p out of a hundred */
static int chance(struct rng *r, unsigned p)
{
    return below(r, 100) < p;
}

/* ------------------------------------------------------------------ texts */

struct bytes { const char *at; size_t length; };
#define BYTES(s) { s, sizeof s - 1 }
#define COUNT(a) (sizeof (a) / sizeof (a)[0])

#define X16 "xxxxxxxxxxxxxxxx"
#define X64 X16 X16 X16 X16

struct out { uint8_t *at; size_t length, room; };

static void put(struct out *o, const void *from, size_t n)
{
    if (n > o->room - o->length)
        n = o->room - o->length;
    if (n > 0)
        memcpy(o->at + o->length, from, n);
    o->length += n;
}

static void puts_(struct out *o, const char *s) { put(o, s, strlen(s)); }
static void put1(struct out *o, unsigned b)
{
    uint8_t c = (uint8_t)b;
    put(o, &c, 1);
}

static void splice(struct out *o, size_t place, size_t gone, const void *bytes, size_t n)
{
    if (o->length - gone + n > o->room)
        return;
    memmove(o->at + place + n, o->at + place + gone, o->length - place - gone);
    if (n > 0)
        memcpy(o->at + place, bytes, n);
    o->length = o->length - gone + n;
}

/* ------------------------------------------------------------------ pools */

/* What real files have beside what is wanted; the deepest is four deep. */
static const char *const PASSED[] = {
    "<display-name>Clock offsets</display-name>",
    "<description>\n  Who may write &amp; read &lt;offsets&gt;\n</description>",
    "<servlet><servlet-name>clock</servlet-name><servlet-class>portal.Clock</servlet-class>"
    "<init-param><param-name>debug</param-name><param-value>0</param-value></init-param>"
    "<load-on-startup>1</load-on-startup></servlet>",
    "<servlet><servlet-name>c</servlet-name><security-role-ref><role-name>boss</role-name>"
    "<role-link>owner</role-link></security-role-ref></servlet>",
    "<servlet-mapping><servlet-name>clock</servlet-name><url-pattern>/clock/*</url-pattern></servlet-mapping>",
    "<filter><filter-name>f</filter-name><filter-class>portal.F</filter-class></filter>",
    "<filter-mapping><filter-name>f</filter-name><url-pattern>/*</url-pattern><dispatcher>REQUEST</dispatcher></filter-mapping>",
    "<listener><listener-class>portal.Start</listener-class></listener>",
    "<login-config><auth-method>FORM</auth-method><realm-name>r</realm-name><form-login-config>"
    "<form-login-page>/login</form-login-page><form-error-page>/error</form-error-page></form-login-config></login-config>",
    "<session-config>\n<session-timeout>30</session-timeout>\n<cookie-config><http-only>true</http-only></cookie-config></session-config>",
    "<welcome-file-list><welcome-file>index.html</welcome-file></welcome-file-list>",
    "<mime-mapping><extension>csv</extension><mime-type>text/csv</mime-type></mime-mapping>",
    "<error-page><error-code>404</error-code><location>/404.html</location></error-page>",
    "<env-entry><env-entry-name>n</env-entry-name><env-entry-value>&quot;v&quot;</env-entry-value></env-entry>",
    "<distributable/>", "<distributable />", "<icon\n/>",
    "<jsp-config><jsp-property-group><url-pattern>*.jsp</url-pattern><el-ignored>false</el-ignored></jsp-property-group></jsp-config>",
    "<jee:x xmlns:jee=\"http://java.sun.com/xml/ns/javaee\" a='\"'>\xc3\xa9 \xff ]]> -- \"'</jee:x>",
    "<web-app><security-constraint/>text<security-role/></web-app>",
    "<web-resource-name>all</web-resource-name>",
    "<a><b><c>&apos;</c></b></a>", "<_ ><:x\t/></_\n>", "<a.b-c9 d = 'e' f\n=\n\"&gt;\"></a.b-c9>",
    "<security-roles>x</security-roles>", "<url-patterns/>", "<Role-Name>x</Role-Name>", "<\xe9 \xe8=''/>"
};

static const char *const COMMENTS[] = {
    "<!-- -->", "<!---->", "<!-- a comment -->", "<!-- <security-role> & &#65; ]]> -->", "<!--\n\n-->", "<!-- - - -->",
    "<!--->-->", "<!-- <!- -->", "<!--\x7f\xff\xc3\xa9-->", "<!--</web-app >-->", "<!--\r\n\t-->",
    "<!--<user-data-constraint/>-->"
};

static const char *const ATTRIBUTES[] = {
    " id=\"x\"", " id='x'", "\n  version=\"3.0\"", " a=\"1\" b='2'", " xmlns=\"http://java.sun.com/xml/ns/javaee\"",
    " a = \"b\"", "\ta\r\n=\t'>'", " a='&lt;&gt;&amp;&quot;&apos;'", " a=\"\"", " a=\"/>\" b=\"]]>\"",
    " :=\"\xff\"", " a='1' a='2'",
    " xsi:schemaLocation=\"http://java.sun.com/xml/ns/javaee\n  http://java.sun.com/xml/ns/javaee/web-app_3_0.xsd\"",
    " metadata-complete='true'"
};

static const char *const DECLARATIONS[] = {
    "<?xml version=\"1.0\" encoding=\"UTF-8\"?>", "<?xml version='1.0'?>",
    "<?xml version=\"1.0\" encoding=\"ISO-8859-1\"?>", "<?xml?>", "<?xml ?>",
    "<?xml version=\"1.0\" encoding=\"UTF-8\" standalone='yes' ?>", "<?xml version=\"7\"?>", "<?xml a='?>'\n?>"
};

/* To be put anywhere in a file. */
static const char *const SNIPPETS[] = {
    "<", ">", "&", "/", "</", "<!", "<!-", "<!--", "-->", "--", "<?", "?>", "<?xml?>", "<?php x?>",
    "<!DOCTYPE web-app>", "<![CDATA[x]]>", "]]>",
    "&#65;", "&#x41;", "&foo;", "&amp", "&amp;", "&AMP;", "& ", "&;", "\"", "'", "=", "x", " x ", "\n", "\r\n",
    "\t", " ", "a=\"b\"", " a=\"b\"", " a='<'", " a='&'",
    "<!-- x -->", "<!-- -- -->", "<!----->", "<!--\x01-->", "<a>", "</a>", "<a/>", "<a></a>", "<a></b>", "<1>",
    "< a>", "<a b>", "<a b=c>", "<a b='1'c='2'/>", "<a/ >",
    "<user-data-constraint/>", "<deny-uncovered-http-methods/>", "<user-data-constraint>",
    "<a><user-data-constraint/></a>",
    "<user-data-constraint><transport-guarantee>NONE</transport-guarantee></user-data-constraint>",
    "<user-data-constraints/>", "<user-data-constrain/>",
    "<url-pattern>/z</url-pattern>", "<url-pattern/>", "<http-method>GET</http-method>",
    "<http-method-omission>GET</http-method-omission>",
    "<role-name>zz</role-name>", "<role-name/>", "<auth-constraint/>",
    "<auth-constraint><role-name>*</role-name></auth-constraint>",
    "<web-resource-collection><url-pattern>/zz</url-pattern></web-resource-collection>", "<web-resource-collection/>",
    "<security-constraint><web-resource-collection><url-pattern>/y</url-pattern></web-resource-collection></security-constraint>",
    "<security-constraint/>", "<security-role><role-name>zy</role-name></security-role>", "<security-role/>",
    "<security-role></security-role>",
    "<web-app/>", "<web-app>", "</web-app>", "<a><b><c><d><e><f><g><h/></g></f></e></d></c></b></a>",
    "<a><b><c><d><e/></d></c></b></a>",
    "<a><b><c><d><e><f><g/></f></e></d></c></b></a>", "<a><b><c><d><e><f/></e></d></c></b></a>",
    "<a><b><c><d/></c></b></a>",
    "\xef\xbb\xbf", "\x01", "\x7f", "\x80", "\xff", "\x1f", "\x0b", "\x0c", "\n\n",
    "<role-name>a</role-name><role-name>b</role-name>",
    /* over several lines */
    "<a\nb>", "<a\n\nb='<'/>", "<a\nb='\x01'/>", "<a\nb='&x;'/>", "<a\n1='2'/>", "<a b='1'\nc='2'd=''/>",
    "<a\n/\n>", "<!--\n--\n-->", "<!--\n\n\x01-->", "<a></a\nb>",
    "<a></a\n\n/>", "<a>\n&#65;</a>", "<a>\n\n\x01</a>", "<a>\n<b>\n&</b></a>", "<a>\n</b></a>",
    "<security-role>\n\n</security-role>", "<security-constraint>\n</security-constraint>",
    "<web-resource-collection>\n</web-resource-collection>",
    "<security-role>\n<role-name>\n*</role-name></security-role>",
    "<security-role>\n<role-name>*\n</role-nam></security-role>",
    "<security-role><role-name>a&amp;lt;</role-name></security-role>",
    "<security-role><role-name>\n<user-data-constraint/></role-name></security-role>",
    "<a><a><a><a><a><a><a>\n<user-data-constraint/></a></a></a></a></a></a></a>",
    "<a><a><a><a><a><a><a>\n<a\nb></a></a></a></a></a></a></a>"
};

/* To be put where a file is cut. */
static const char *const TAILS[] = {
    "", "\n", "\n\n", " ", "<", "<a", "<a\n", "<a\n\nb", "<a b\n=", "<a b=\n'", "<a\nb='x\n", "<a\nb='x'",
    "<a\n/", "<a\nb='&", "<a\nb='&l", "<a\nb='&lt;\n", "&", "\n&", "\n&am",
    "\n&amp", "\n&amp;", "\n\n&#6", "</", "</w", "</web-app", "</web-app\n", "</web-app\n\n ", "</web-appx\n\n",
    "</wX\n\n", "</security-role\n", "</a\n\n", "<!", "<!-", "<!--", "<!--\n", "<!--\n-",
    "<!--\n--", "<!--\n\n-->", "<?", "<?xml\n", "<user-data-constraint\n\n", "<user-data-constraint>\n\n",
    "<url-pattern\n\n", "<role-name>\n", "<security-role>\n<role-name>*</role-name\n ",
    "<security-role>\n<role-name>*\n</role-nam\n\n", "<security-role>\n<role-name>*\n\n&", "\x01", "\n\x01\n"
};

/* To be put at the start of a file. */
static const char *const HEADS[] = {
    "\xef\xbb\xbf", "\xef\xbb\xbf\n", " ", "\n\n", "<?xml?>", "\n<?xml?>", "<?xml?>\n<?xml?>", "<?xml\na?>",
    "<?xml\na='1'b='2'?>", "<?xml\n\na='<'?>", "<?xml\nversion='1.0'\n?>", "<?xml-a?>",
    "<?XML?>", "<!-- -->\n", "<!--\n-- -->", "<!--\n\x02-->", "<!DOCTYPE web-app>\n", "x", "\n&amp;", "\n\x01",
    "\xef\xbb", "</a>", "<a/>\n", "<j:", "<web-app/>\n", "<\nweb-app>", "<?\n?>"
};

static const char *const NAMES[] = {
    "web-app", "security-role", "security-constraint", "web-resource-collection", "auth-constraint",
    "url-pattern", "http-method",
    "http-method-omission", "role-name", "user-data-constraint", "deny-uncovered-http-methods", "a",
    "description", "security-rol", "role-names", "Web-App", "j:web-app"
};
enum { WANTED_NAMES = 9 };

/* XML outside the subset. */
static const char *const OUTSIDE[] = {
    "<a>&#65;</a>", "<a b='&#x41;'/>", "<a>\n<![CDATA[x]]></a>", "<![CDATA[ ]]>", "<?php x?>", "<a>\n<?b?></a>",
    "<a><b>&#10;</b>\n</a>", "<a\nb='&#9;'>\n</a>"
};
static const char *const DOCTYPES[] = {
    "<!DOCTYPE web-app>", "<!DOCTYPE web-app [<!ENTITY a 'b'>]>\n",
    "<!DOCTYPE web-app\n PUBLIC \"-//Sun Microsystems, Inc.//DTD Web Application 2.3//EN\"\n \"http://java.sun.com/dtd/web-app_2_3.dtd\">\n"
};

static const uint8_t ODD_BYTES[] = {
    0, 1, 8, 9, 10, 11, 13, 14, 31, 32, '!', '"', '\'', '&', '-', '.', '/', '0', ':', ';', '<', '=', '>', '?',
    'a', 'm', '[', ']', '_', '*', 127, 128, 255
};

static const struct bytes BAD_ROLES[] = {
    BYTES(""), BYTES(" "), BYTES(X64 "x"), BYTES("a\tb"), BYTES("a\nb"), BYTES("a\x7f"), BYTES("a\r\nb"),
    BYTES("\t\n"), BYTES(X64 X64)
};
static const struct bytes BAD_METHODS[] = {
    BYTES(""), BYTES("a b"), BYTES("xxxxxxxxxxxxxxxxxxxxxxxxx"), BYTES("("), BYTES("\xe9"), BYTES("/"),
    BYTES("G\tT"), BYTES("G,"), BYTES("\x7f"),
    BYTES("GET&quot;"), BYTES("&lt;"), BYTES("G\nT"), BYTES("GET;")
};
static const struct bytes BAD_PATTERNS[] = {
    BYTES("a"), BYTES("*"), BYTES("*."), BYTES("*.a.b"), BYTES("*.a/b"), BYTES("*.*"), BYTES("/\x7f"),
    BYTES("**"), BYTES("*a"), BYTES("/a;b"), BYTES(";"),
    BYTES("/a\tb"), BYTES("/a\nb"), BYTES("*.a\r\nb"), BYTES("a/*"), BYTES("&lt;"), BYTES("&amp;"),
    BYTES("*.a;"), BYTES("*./"),
    BYTES("/" X64 X64 X64 X16 X16 X16 "xxxxxxxxxxxxxxx")
};

/* ----------------------------------------------------------------- a style */

struct style {
    unsigned layout;                          /* 0 all in one line, 1 lines, 2 CRLF, 3 tabs, 4 wide */
    unsigned attributes, comments, passed;    /* in percent */
    unsigned tag_white, text_white, text_comment, entities, empties;
    unsigned roles_late;                      /* roles among and behind the constraints */
    unsigned bom, declaration, around;
    unsigned nest_in, nest_to;                /* at which chance for one a nest, and how deep; 0: none */
    unsigned refuse_in;                       /* likewise a refused element */
    unsigned outside_in;                      /* likewise XML outside the subset, counted from 2; 1: a DTD */
    unsigned bad_in, bad_of;                  /* likewise a bad text, and of which kind */
};

static void make_style(struct rng *r, struct style *s)
{
    memset(s, 0, sizeof *s);
    s->layout = below(r, 5);
    if (chance(r, 20))
        return;
    s->attributes = chance(r, 50) ? below(r, 30) : 0;
    s->comments = chance(r, 50) ? below(r, 25) : 0;
    s->passed = chance(r, 60) ? below(r, 30) : 0;
    s->tag_white = chance(r, 30) ? below(r, 30) : 0;
    s->text_white = chance(r, 50) ? below(r, 60) : 0;
    s->text_comment = chance(r, 30) ? below(r, 30) : 0;
    s->entities = chance(r, 50) ? 100 : below(r, 100);
    s->empties = chance(r, 50) ? 50 : 0;
    s->roles_late = chance(r, 40);
    s->bom = chance(r, 12);
    s->declaration = chance(r, 60);
    s->around = chance(r, 30);
}

static void put_white(struct rng *r, struct out *o)
{
    static const char *const white[] = { " ", "\n", "\t", "\r\n", "  ", "\n\n  ", "\r" };
    puts_(o, white[below(r, COUNT(white))]);
}

static void put_break(const struct style *s, struct out *o, unsigned depth)
{
    static const char *const breaks[] = { "", "\n", "\r\n", "\n", "\n" }, *const indent[] = { "", "  ", " ", "\t", "        " };
    puts_(o, breaks[s->layout]);
    for (unsigned i = 1; i < depth; i++)
        puts_(o, indent[s->layout]);
}

static void put_start(struct rng *r, const struct style *s, struct out *o, const char *name)
{
    puts_(o, "<");
    puts_(o, name);
    if (chance(r, s->attributes))
        puts_(o, ATTRIBUTES[below(r, COUNT(ATTRIBUTES))]);
    if (chance(r, s->tag_white))
        put_white(r, o);
    puts_(o, ">");
}

static void put_end(struct rng *r, const struct style *s, struct out *o, const char *name)
{
    puts_(o, "</");
    puts_(o, name);
    if (chance(r, s->tag_white))
        put_white(r, o);
    puts_(o, ">");
}

static void put_comment(struct rng *r, struct out *o)
{
    puts_(o, COMMENTS[below(r, COUNT(COMMENTS))]);
}

/* Elements in each other, the outermost at one depth and the innermost at
 * another. */
static void put_nest(struct rng *r, struct out *o, unsigned from, unsigned to)
{
    unsigned name[16], n = to - from + 1;
    for (unsigned i = 0; i < n; i++)
        name[i] = i > 0 && chance(r, 40) ? below(r, WANTED_NAMES) : WANTED_NAMES + 2 + below(r, 2);
    for (unsigned i = 0; i < n; i++) {
        puts_(o, "<");
        puts_(o, NAMES[name[i]]);
        if (i + 1 == n && chance(r, 40)) {
            puts_(o, "/>");
            n--;
            break;
        }
        puts_(o, ">");
        if (chance(r, 20))
            puts_(o, "text");
        if (chance(r, 20))
            puts_(o, "<b/>" + (i + 2 >= n ? 4 : 0));
        if (chance(r, 10))
            puts_(o, "\n");
    }
    while (n-- > 0) {
        puts_(o, "</");
        puts_(o, NAMES[name[n]]);
        puts_(o, ">");
    }
}

/* Between two elements: a comment, something to be passed over, the nest that
 * is due, the refused element that is due. */
static void put_between(struct rng *r, struct style *s, struct out *o, unsigned depth)
{
    put_break(s, o, depth);
    if (chance(r, s->comments)) {
        put_comment(r, o);
        put_break(s, o, depth);
    }
    if (chance(r, s->passed)) {
        puts_(o, PASSED[below(r, COUNT(PASSED))]);
        put_break(s, o, depth);
    }
    if (s->nest_in > 0 && --s->nest_in == 0)
        put_nest(r, o, depth, s->nest_to);
    if (s->outside_in > 1 && --s->outside_in == 1)
        puts_(o, OUTSIDE[below(r, COUNT(OUTSIDE))]);
    if (s->refuse_in > 0 && --s->refuse_in == 0) {
        const char *name = NAMES[9 + below(r, 2)];
        unsigned inside = below(r, 3), k = below(r, 3);
        for (unsigned i = 0; i < inside; i++)
            puts_(o, "<c>");
        puts_(o, "<");
        puts_(o, name);
        puts_(o, k == 0 ? "/>" : k == 1 ? ">" : " a='b'>");
        if (k > 0) {
            puts_(o, "</");
            puts_(o, name);
            puts_(o, ">");
        }
        for (unsigned i = 0; i < inside; i++)
            puts_(o, "</c>");
    }
}

/* One byte of a text, spelt in one of the ways there are. */
static void put_spelt(struct rng *r, const struct style *s, struct out *o, uint8_t b)
{
    if (b == '<')
        puts_(o, "&lt;");
    else if (b == '&')
        puts_(o, "&amp;");
    else if (b == '>' && chance(r, s->entities))
        puts_(o, "&gt;");
    else if (b == '"' && chance(r, s->entities))
        puts_(o, "&quot;");
    else if (b == '\'' && chance(r, s->entities))
        puts_(o, "&apos;");
    else
        put1(o, b);
}

enum { BAD_ROLE = 1, BAD_METHOD, BAD_PATTERN };

static void put_bad(struct rng *r, struct out *o, unsigned kind)
{
    struct bytes b = kind == BAD_ROLE ? BAD_ROLES[below(r, COUNT(BAD_ROLES))]
                   : kind == BAD_METHOD ? BAD_METHODS[below(r, COUNT(BAD_METHODS))]
                                        : BAD_PATTERNS[below(r, COUNT(BAD_PATTERNS))];
    put(o, b.at, b.length);
}

/* An element with a text; `kind` is of the text, for a bad one. */
static void put_text(struct rng *r, struct style *s, struct out *o, const char *name,
                     struct bytes text, unsigned kind)
{
    int bad = s->bad_in > 0 && s->bad_of == kind && --s->bad_in == 0;
    if (text.length == 0 && !bad && chance(r, s->empties)) {
        puts_(o, "<");
        puts_(o, name);
        puts_(o, chance(r, 70) ? "/>" : " />");
        return;
    }
    put_start(r, s, o, name);
    if (chance(r, s->text_white))
        put_white(r, o);
    if (bad) {
        put_bad(r, o, kind);
    } else {
        for (size_t i = 0; i < text.length; i++) {
            if (chance(r, s->text_comment) && chance(r, 20))
                put_comment(r, o);
            put_spelt(r, s, o, (uint8_t)text.at[i]);
        }
    }
    if (chance(r, s->text_comment))
        put_comment(r, o);
    if (chance(r, s->text_white))
        put_white(r, o);
    put_end(r, s, o, name);
}

/* ------------------------------------------------- a listing as a web.xml */

enum { MOST_LINES = 6000 };

struct line { struct bytes record, field; };

struct lines {
    struct line line[MOST_LINES];
    size_t count;
};

static void cut_lines(const uint8_t *listing, size_t length, struct lines *l)
{
    const char *at = (const char *)listing;
    l->count = 0;
    for (size_t i = 0; i < length && l->count < MOST_LINES;) {
        size_t tab = i, stop;
        while (tab < length && at[tab] != 9 && at[tab] != 10)
            tab++;
        for (stop = tab; stop < length && at[stop] != 10;)
            stop++;
        struct line *x = &l->line[l->count++];
        x->record.at = at + i;
        x->record.length = tab - i;
        x->field.at = at + (stop > tab ? tab + 1 : stop);
        x->field.length = stop > tab ? stop - tab - 1 : 0;
        i = stop + 1;
    }
}

static int is(struct bytes b, const char *s)
{
    return b.length == strlen(s) && !memcmp(b.at, s, b.length);
}

static void put_role(struct rng *r, struct style *s, struct out *o, struct bytes name)
{
    put_between(r, s, o, 2);
    put_start(r, s, o, "security-role");
    put_between(r, s, o, 3);
    put_text(r, s, o, "role-name", name, BAD_ROLE);
    put_between(r, s, o, 3);
    put_end(r, s, o, "security-role");
}

/* The collection that line i begins; gives the line behind it. */
static size_t put_collection(struct rng *r, struct style *s, struct out *o,
                             const struct lines *l, size_t i)
{
    put_between(r, s, o, 3);
    put_start(r, s, o, "web-resource-collection");
    for (i++; i < l->count; i++) {
        const struct line *x = &l->line[i];
        int pattern = is(x->record, "pattern"), method = is(x->record, "method");
        if (!pattern && !method && !is(x->record, "omit"))
            break;
        put_between(r, s, o, 4);
        put_text(r, s, o, pattern ? "url-pattern" : method ? "http-method" : "http-method-omission",
                 x->field, pattern ? BAD_PATTERN : BAD_METHOD);
    }
    put_between(r, s, o, 4);
    put_end(r, s, o, "web-resource-collection");
    return i;
}

/* The constraint that line i begins; gives the line behind it. */
static size_t put_constraint(struct rng *r, struct style *s, struct out *o,
                             const struct lines *l, size_t i)
{
    int auth = is(l->line[i].field, "auth");
    size_t first = ++i, behind;
    while (i < l->count && is(l->line[i].record, "allow"))
        i++;
    behind = i;
    put_between(r, s, o, 2);
    put_start(r, s, o, "security-constraint");
    while (i < l->count && is(l->line[i].record, "collection"))
        i = put_collection(r, s, o, l, i);
    if (auth || behind > first) {
        put_between(r, s, o, 3);
        if (behind == first && chance(r, s->empties)) {
            puts_(o, "<auth-constraint/>");
        } else {
            put_start(r, s, o, "auth-constraint");
            for (size_t k = first; k < behind; k++) {
                put_between(r, s, o, 4);
                put_text(r, s, o, "role-name", l->line[k].field, BAD_ROLE);
            }
            put_between(r, s, o, 4);
            put_end(r, s, o, "auth-constraint");
        }
    }
    put_between(r, s, o, 3);
    put_end(r, s, o, "security-constraint");
    return i;
}

static void put_web_xml(struct rng *r, struct style *s, struct out *o,
                        const uint8_t *listing, size_t length)
{
    static struct lines l;
    size_t late = 0, roles = 0, i;
    cut_lines(listing, length, &l);
    if (s->bom)
        puts_(o, "\xef\xbb\xbf");
    if (s->declaration)
        puts_(o, DECLARATIONS[below(r, COUNT(DECLARATIONS))]);
    if (s->around) {
        put_white(r, o);
        put_comment(r, o);
    }
    if (s->outside_in == 1)
        puts_(o, DOCTYPES[below(r, COUNT(DOCTYPES))]);
    if (s->bom + s->declaration + s->around > 0)
        put_break(s, o, 1);
    put_start(r, s, o, "web-app");
    while (roles + 1 < l.count && is(l.line[1 + roles].record, "role"))
        roles++;
    for (i = 1; i < l.count;) {
        const struct line *x = &l.line[i];
        /* the roles at their place, or some of them later on */
        while (late < roles && (!s->roles_late || chance(r, 30)))
            put_role(r, s, o, l.line[1 + late++].field);
        if (i <= roles) {
            i++;
        } else if (is(x->record, "constraint")) {
            i = put_constraint(r, s, o, &l, i);
        } else {
            if (is(x->record, "role"))
                put_role(r, s, o, x->field);
            i++;
        }
    }
    while (late < roles)
        put_role(r, s, o, l.line[1 + late++].field);
    put_between(r, s, o, 2);
    put_end(r, s, o, "web-app");
    if (s->around) {
        put_comment(r, o);
        put_white(r, o);
    }
    if (s->layout > 0)
        put_break(s, o, 1);
}

/* ---------------------------------------------------------------- listings */

/* A listing of the generator's for the other calls. */
static void take_listing(uint64_t seed, struct generated_xml *g)
{
    static struct generated c;
    unsigned tries = 0;
    do
        generate_case(mix(seed + tries) >> 1, &c);
    while ((c.kind == GENERATED_READ || c.listing_len > 12000) && ++tries < 6);
    memcpy(g->listing, c.listing, c.listing_len);
    g->listing_len = c.listing_len;
}

/* One of the limits at or past it, the rest small; gives of what it is. */
enum full { OF_ROLES, OF_METHODS, OF_CONSTRAINTS, OF_COLLECTIONS, OF_PATTERNS };
static enum full take_limit(struct rng *r, struct generated_xml *g)
{
    static const enum full of[10] = { OF_ROLES, OF_ROLES, OF_METHODS, OF_CONSTRAINTS, OF_COLLECTIONS,
                                      OF_PATTERNS, OF_METHODS, OF_PATTERNS, OF_ROLES, OF_METHODS };
    unsigned which = below(r, 10);
    struct big b;
    unsigned past = chance(r, 40), turn = below(r, 1000);
    memset(&b, 0, sizeof b);
    b.declared = 3;
    b.constraints = 3;
    b.collections = 4;
    b.patterns = 8;
    b.method_lines = 8;
    b.methods = 5;
    b.prefixes = 30;
    b.extensions = 20;
    switch (which) {
    case 0: b.declared = 32 + past; break;
    case 1: b.declared = turn % 33; b.undeclared = 32 + past - b.declared; break;
    case 2: b.methods = 31 + past; b.method_lines = 40 + turn % 8; break;
    case 3: b.constraints = b.collections = b.patterns = 64 + past; break;
    case 4: b.collections = b.patterns = 128 + past; break;
    case 5: b.patterns = 128 + past; b.repeats = turn % 5; break;
    case 6: b.method_lines = 512 + past; b.collections = 3 + turn / 2 % 2; break;
    case 7: b.pattern_len = 255 + past; break;
    case 8: b.role_len = 64 + past; break;
    default: b.method_len = 24 + past; break;
    }
    g->listing_len = generate_big(&b, g->listing, sizeof g->listing);
    return of[which];
}

/* A listing of about 24,576 bytes. */
static void take_long(struct rng *r, struct generated_xml *g)
{
    struct big b;
    unsigned turn = below(r, 1000);
    memset(&b, 0, sizeof b);
    b.declared = 3;
    b.constraints = 3 + turn % 60;
    b.collections = 64;
    b.patterns = 128 - turn % 20;
    b.method_lines = 8 + turn % 300;
    b.methods = 5;
    b.size = 24576 + (chance(r, 50) ? 1 + (chance(r, 20) ? below(r, 300) : 0) : 0);
    g->listing_len = generate_big(&b, g->listing, sizeof g->listing);
}

/* A role declared again, somewhere behind. */
static void declare_again(struct rng *r, struct generated_xml *g)
{
    struct out o = { g->listing, g->listing_len, sizeof g->listing };
    const char *first = "constraints\t1\nrole\tagain\n";
    size_t head = strlen("constraints\t1\n");
    if (o.length < head)
        return;
    splice(&o, 0, head, first, strlen(first));
    size_t place = strlen(first);
    while (chance(r, 70) && place + 5 < o.length && !memcmp(o.at + place, "role\t", 5))
        while (o.at[place++] != 10 && place < o.length) {
        }
    splice(&o, place, 0, "role\tagain\n", 11);
    g->listing_len = o.length;
}

/* ------------------------------------------------------------------ damage */

/* A tag of the file, or a piece of text between two: its place and length. */
static size_t a_tag(struct rng *r, const struct out *o, size_t *length)
{
    size_t place = below(r, (unsigned)o->length), stop;
    while (place > 0 && o->at[place] != '<')
        place--;
    for (stop = place; stop < o->length && o->at[stop] != '>';)
        stop++;
    if (stop < o->length)
        stop++;
    *length = stop - place;
    return place;
}

static void rename_tag(struct rng *r, struct out *o)
{
    size_t n, place = a_tag(r, o, &n), name = place + 1, stop;
    if (name < o->length && o->at[name] == '/')
        name++;
    for (stop = name; stop < o->length && strchr("> \t\r\n/", o->at[stop]) == NULL;)
        stop++;
    const char *fresh = NAMES[below(r, COUNT(NAMES))];
    if (stop <= o->length && stop >= name)
        splice(o, name, stop - name, fresh, strlen(fresh));
}

/* An element renamed, both of its tags: the end tag is the next of that name. */
static void rename_element(struct rng *r, struct out *o)
{
    size_t n, place = a_tag(r, o, &n), stop;
    const char *fresh = NAMES[below(r, COUNT(NAMES))];
    uint8_t close[64] = "</";
    if (n < 3 || n > 60)
        return;
    memcpy(close + 2, o->at + place + 1, n - 1);
    for (stop = place + n; stop + n < o->length; stop++)
        if (!memcmp(o->at + stop, close, n + 1)) {
            splice(o, stop + 2, n - 2, fresh, strlen(fresh));
            splice(o, place + 1, n - 2, fresh, strlen(fresh));
            return;
        }
}

static void damage(struct rng *r, struct out *o)
{
    if (o->length == 0)
        return;
    size_t at = below(r, (unsigned)o->length), n = 0, m = 0, place, other;
    uint8_t odd = ODD_BYTES[below(r, COUNT(ODD_BYTES))];
    const char *snippet = SNIPPETS[below(r, COUNT(SNIPPETS))];
    uint8_t keep[512];
    switch (below(r, 21)) {
    case 0:
        o->at[at] ^= (uint8_t)(1u << below(r, 8));
        break;
    case 1:
        o->at[at] = odd;
        break;
    case 2:
        splice(o, at, 1, NULL, 0);
        break;
    case 3:
        splice(o, at, 0, &odd, 1);
        break;
    case 4:
        splice(o, at, 0, snippet, strlen(snippet));
        break;
    case 5:
    case 6:
    case 7:                                    /* before a tag */
        place = a_tag(r, o, &n);
        splice(o, place, 0, snippet, strlen(snippet));
        break;
    case 8:                                    /* a tag dropped */
        place = a_tag(r, o, &n);
        splice(o, place, n, NULL, 0);
        break;
    case 9:                                    /* doubled */
        place = a_tag(r, o, &n);
        if (n <= sizeof keep) {
            memcpy(keep, o->at + place, n);
            splice(o, place, 0, keep, n);
        }
        break;
    case 10:                                   /* swapped with another */
        place = a_tag(r, o, &n);
        other = a_tag(r, o, &m);
        if (n <= sizeof keep && place + n <= other) {
            memcpy(keep, o->at + place, n);
            uint8_t moved[512];
            if (m > sizeof moved)
                break;
            memcpy(moved, o->at + other, m);
            splice(o, other, m, keep, n);
            splice(o, place, n, moved, m);
        }
        break;
    case 11:
        rename_tag(r, o);
        break;
    case 12:
        rename_element(r, o);
        break;
    case 13:                                   /* cut */
        o->length = at;
        break;
    case 14:                                   /* a tag and what follows, up to the next `>`, moved */
        place = a_tag(r, o, &n);
        m = n;
        while (place + m < o->length && m < sizeof keep && o->at[place + m] != '>')
            m++;
        m++;
        if (m > sizeof keep || place + m > o->length)
            break;
        memcpy(keep, o->at + place, m);
        splice(o, place, m, NULL, 0);
        if (o->length > 0)
            splice(o, a_tag(r, o, &n), 0, keep, m);
        break;
    case 15:                                   /* at the start or the end of the whole */
        splice(o, chance(r, 50) ? 0 : o->length, 0, snippet, strlen(snippet));
        break;
    case 16:
        snippet = HEADS[below(r, COUNT(HEADS))];
        splice(o, 0, 0, snippet, strlen(snippet));
        break;
    case 17:
    case 18:
    case 19:                                   /* cut before a tag or behind it, and something begun */
        place = a_tag(r, o, &n);
        o->length = chance(r, 50) ? place : place + n;
        puts_(o, TAILS[below(r, COUNT(TAILS))]);
        break;
    default:                                   /* `>` as `/>`, or the other way around */
        place = a_tag(r, o, &n) + n - 1;
        if (place > 1 && o->at[place - 1] == '/')
            splice(o, place - 1, 1, NULL, 0);
        else
            splice(o, place, 0, "/", 1);
        break;
    }
}

/* ------------------------------------------------------------ from scratch */

/* Names by their place in NAMES: what to put into the element `in` as its
 * child number i, wanted there most of the time. */
static unsigned a_child(struct rng *r, unsigned in, unsigned i)
{
    static const unsigned inside[5][6] = {
        { 1, 2, 2, 1, 11, 2 }, { 8, 8, 8, 8, 12, 11 }, { 3, 3, 4, 3, 4, 11 }, { 5, 6, 6, 6, 7, 12 }, { 8, 8, 8, 8, 11, 12 } };
    if (chance(r, 4) || in >= 5)
        return below(r, COUNT(NAMES));
    if (i == 0 && (in == 2 || in == 3))
        return inside[in][0];
    return inside[in][below(r, 6)];
}

/* Elements of any name in each other. */
static void put_soup(struct rng *r, struct out *o, unsigned in, unsigned *left)
{
    static const char *const texts[] = { "/a", "/*", "GET", "a", "*", "b", "", " ", "x y", "*.csv", "&lt;", "/a;b", "\n/b\n", "PUT" };
    puts_(o, "<");
    puts_(o, NAMES[in]);
    if (chance(r, 8))
        puts_(o, ATTRIBUTES[below(r, COUNT(ATTRIBUTES))]);
    if (chance(r, 5)) {
        puts_(o, "/>");
        return;
    }
    puts_(o, ">");
    if (in >= 5 && in < 9) {
        unsigned usual = in == 5 ? below(r, 2) : in == 8 ? 3 + below(r, 3) : 2;
        puts_(o, texts[chance(r, 85) ? usual : below(r, COUNT(texts))]);
    } else {
        unsigned n = in == 1 ? 1 : in < 9 ? 1 + below(r, 3) : below(r, 3);
        for (unsigned i = 0; i < n && *left > 0; i++) {
            --*left;
            if (chance(r, 40))
                put1(o, 10);
            if (chance(r, 2))
                puts_(o, texts[below(r, COUNT(texts))]);
            put_soup(r, o, a_child(r, in, i), left);
        }
    }
    if (chance(r, 20))
        put1(o, 10);
    puts_(o, "</");
    puts_(o, NAMES[chance(r, 99) ? in : below(r, COUNT(NAMES))]);
    puts_(o, ">");
}

/* Tags in a row without a thought. */
static void put_rubble(struct rng *r, struct out *o)
{
    puts_(o, chance(r, 90) ? "<web-app>" : "");
    for (unsigned n = below(r, 8); n > 0; n--) {
        puts_(o, chance(r, 60) ? SNIPPETS[below(r, COUNT(SNIPPETS))] : PASSED[below(r, COUNT(PASSED))]);
        if (chance(r, 40))
            put1(o, 10);
    }
    puts_(o, chance(r, 90) ? "</web-app>" : "");
}

/* ------------------------------------------------------------------ cases */

static void make_buffers(struct rng *r, struct generated_xml *g)
{
    unsigned k = below(r, 100);
    g->work_len = 4096;
    if (k < 6)
        g->work_len = 4097 + below(r, 600);
    else if (k < 8)
        g->work_len = 4095 - (chance(r, 50) ? 0 : below(r, 4096));
    k = below(r, 100);
    g->room = 24576 + (chance(r, 10) ? below(r, 200) : 0);
    if (k < 30)
        g->room = g->listing_len;
    else if (k < 40)
        g->room = g->listing_len + 1 + below(r, 40);
    else if (k < 50 && g->listing_len > 0)
        g->room = g->listing_len - 1;
    else if (k < 54)
        g->room = below(r, (unsigned)g->listing_len + 1);
    else if (k < 60 && g->listing_len > 24000)
        g->room = below(r, 24576);
}

/* The place of the last of these end tags, or the whole length. */
static size_t last_of(const struct out *o, const char *close)
{
    size_t n = strlen(close);
    for (size_t place = o->length; place-- > 0;)
        if (o->length - place >= n && !memcmp(o->at + place, close, n))
            return place;
    return o->length;
}

/* One more of something, good or bad, for a file that is full already. */
static void crowd(struct rng *r, struct out *o, enum full full)
{
    static const struct { enum full of; const char *close, *more; } ways[] = {
        { OF_CONSTRAINTS, "</web-app>", "\n<security-constraint/>" },
        { OF_CONSTRAINTS, "</web-app>", "\n<security-constraint>\nx" },
        { OF_CONSTRAINTS, "</web-app>", "\n<security-constraint\na>" },
        { OF_CONSTRAINTS, "</web-app>", "\n<security-constraint>\n<web-resource-collection/></security-constraint>" },
        { OF_CONSTRAINTS, "</web-app>", "\n<security-constraint>\n</security-constraint>" },
        { OF_CONSTRAINTS, "</web-app>", "\n<a><security-constraint/></a>" },
        { OF_COLLECTIONS, "</auth-constraint>", "</auth-constraint>\n<web-resource-collection/><auth-constraint>" },
        { OF_COLLECTIONS, "</web-resource-collection>", "</web-resource-collection>\n<web-resource-collection/><web-resource-collection>" },
        { OF_COLLECTIONS, "</web-resource-collection>", "</web-resource-collection>\n<web-resource-collection>\nx" },
        { OF_COLLECTIONS, "</web-resource-collection>", "</web-resource-collection>\n<web-resource-collection>\n" },
        { OF_COLLECTIONS, "</web-resource-collection>", "</web-resource-collection>\n<web-resource-collection a>" },
        { OF_ROLES, "</web-app>", "\n<security-role>\n<role-name>*</role-name></security-role>" },
        { OF_ROLES, "</web-app>", "\n<security-role>\n<role-name>role1</role-name></security-role>" },
        { OF_ROLES, "</web-app>", "\n<security-role>\n<role-name>fresh</role-name></security-role>" },
        { OF_ROLES, "</web-app>", "\n<security-role>\n<role-name>fresh\n</role-nam></security-role>" },
        { OF_ROLES, "</auth-constraint>", "\n<role-name>*</role-name>" },
        { OF_ROLES, "</auth-constraint>", "\n<role-name>fresh</role-name>" },
        { OF_ROLES, "</auth-constraint>", "\n<role-name>\n</role-name>" },
        { OF_PATTERNS, "</url-pattern>", "</url-pattern>\n<url-pattern>x</url-pattern><url-pattern>" },
        { OF_PATTERNS, "</url-pattern>", "</url-pattern>\n<url-pattern>/" },
        { OF_PATTERNS, "</url-pattern>", "</url-pattern>\n<url-pattern>/;" },
        { OF_PATTERNS, "</url-pattern>", "</url-pattern>\n<url-pattern/><url-pattern>" },
        { OF_PATTERNS, "</url-pattern>", "</url-pattern>\n<url-pattern>/\n<b/>" },
        { OF_METHODS, "</http-method>", "</http-method>\n<http-method>/" },
        { OF_METHODS, "</http-method>", "</http-method>\n<http-method>M1" },
        { OF_METHODS, "</http-method>", "</http-method>\n<http-method>fresh" },
        { OF_METHODS, "</http-method>", "</http-method>\n<http-method>fresh\n</http-metho" },
        { OF_METHODS, "</http-method>", "</http-method>\n<http-method>\nm 1" }
    };
    unsigned k = below(r, COUNT(ways)), turn = chance(r, 80) ? 0 : COUNT(ways);
    while (turn++ < COUNT(ways) && ways[k].of != full)
        k = (k + 1) % COUNT(ways);
    splice(o, last_of(o, ways[k].close), 0, ways[k].more, strlen(ways[k].more));
}

/* White space, or a comment, or an attribute of spaces, up to a length. */
static void pad(struct rng *r, struct out *o, size_t length)
{
    static uint8_t filling[GENERATED_XML];
    unsigned k = below(r, 4);
    const char *before = k == 0 ? "<!--" : k == 1 ? "<p q='" : k == 2 ? "<p>" : "",
               *behind = k == 0 ? "-->" : k == 1 ? "'/>" : k == 2 ? "</p>" : "";
    size_t around = strlen(before) + strlen(behind), place = last_of(o, "</web-app>");
    if (place == o->length || o->length + around > length || length > o->room)
        return;
    struct out f = { filling, 0, sizeof filling };
    puts_(&f, before);
    for (size_t i = length - o->length - around; i > 0; i--)
        put1(&f, i % 97 == 0 ? 10 : ' ');
    puts_(&f, behind);
    splice(o, place, 0, filling, f.length);
}

void generate_xml_case(uint64_t seed, struct generated_xml *g)
{
    struct rng rng = { mix(seed * 2 + 1) ^ seed }, *r = &rng;
    struct out o = { g->xml, 0, sizeof g->xml };
    struct style s;
    unsigned k = below(r, 1000), left = 60;
    enum full full = OF_ROLES;
    g->listing_len = 0;
    g->whole = 1;
    g->garbage = mix(seed ^ 0x5eed);
    make_style(r, &s);
    if (k < 80) {
        full = take_limit(r, g);
        if (g->listing_len > 4000)
            s.passed = s.comments = s.attributes = 0;
    } else if (k < 130) {
        take_long(r, g);
        memset(&s, 0, sizeof s);
        s.layout = below(r, 2);
        s.roles_late = chance(r, 30);
    } else {
        take_listing(seed, g);
    }
    if (k >= 130 && k < 230) {
        s.nest_in = 1 + below(r, chance(r, 50) ? 6 : 30);
        s.nest_to = 8 + chance(r, 60);
        g->whole = s.nest_to == 8;
    } else if (k >= 230 && k < 270) {
        s.refuse_in = 1 + below(r, chance(r, 50) ? 4 : 25);
        g->whole = 0;
    } else if (k >= 270 && k < 330) {
        s.bad_in = 1 + below(r, chance(r, 70) ? 3 : 10);
        s.bad_of = 1 + below(r, 3);
        g->whole = 0;
    } else if (k >= 330 && k < 370) {
        declare_again(r, g);
    } else if (k >= 400 && k < 420) {
        s.outside_in = 1 + (chance(r, 70) ? 1 + below(r, 8) : 0);
        g->whole = 0;
    }
    if (k >= 920 && k < 970)
        put_soup(r, &o, chance(r, 97) ? 0 : below(r, COUNT(NAMES)), &left);
    else if (k >= 970)
        put_rubble(r, &o);
    else
        put_web_xml(r, &s, &o, g->listing, g->listing_len);
    if (k >= 370 && k < 400)
        pad(r, &o, chance(r, 50) ? 65536 : 65537 + (chance(r, 30) ? below(r, 3000) : 0));
    if (k >= 720)
        g->whole = 0;
    if (k >= 720 && k < 920)
        for (unsigned n = 1 + (k >= 830); n > 0; n--)
            damage(r, &o);
    if (k < 80 && chance(r, 30)) {
        g->whole = 0;
        crowd(r, &o, full);
    }
    if (g->whole == 1 && chance(r, 3)) {
        g->whole = 0;
        damage(r, &o);
    }
    g->xml_len = o.length;
    make_buffers(r, g);
}

/* -------------------------------------------------------------- small ones */

#define ROLE(name) "<security-role><role-name>" name "</role-name></security-role>"
#define AT(pattern) "<web-resource-collection><url-pattern>" pattern "</url-pattern></web-resource-collection>"

static const char *const SMALL[] = {
    "", "\xef\xbb\xbf", "<web-app/>", "<a/>", "\n<web-app>\n</web-app>\n\n",
    "\xef\xbb\xbf<?xml version='1.0'?>\n<!-- -->\n<web-app\n/>\n<!--\n-->\n",
    "<web-app>" ROLE("a") "\n" ROLE("a") "</web-app>",
    "<web-app\na='&lt;'\n>\n" ROLE("a &amp;\n<!-- -->b") "\n</web-app>",
    "<web-app>\n<security-constraint>\n" AT("/a") "\n<auth-constraint>\n<role-name>\n*</role-name>\n</auth-constraint>\n</security-constraint>\n</web-app>",
    "<web-app>\n<security-constraint>\n<web-resource-collection>\n<url-pattern/>\n<url-pattern>*.a</url-pattern>\n<http-method>G</http-method></web-resource-collection>"
    "<auth-constraint/></security-constraint></web-app>",
    "<web-app><security-constraint>\n<web-resource-collection>\n<url-pattern>/</url-pattern><http-method-omission>GET</http-method-omission>\n"
    "<http-method-omission>A</http-method-omission></web-resource-collection></security-constraint></web-app>",
    "<web-app>\n<s><url-pattern>a&gt;\n</url-pattern>\n<b c=\"d\"/></s>\n<user-data-constraint/></web-app>",
    "<web-app>\n<a><a><a><a><a>\n<a><a/>\n</a></a></a></a></a></a>\n</web-app>\n",
    "<web-app>\n<a><a><a><a><a>\n<a><a><a/>\n</a></a></a></a></a></a></a>\n</web-app>\n",
    "<web-app><security-constraint>" AT("/") AT("") "</security-constraint>\n<security-role>\n<x/><role-name>r</role-name></security-role></web-app>\n"
};

enum { SMALL_WAYS = 2 + 2 * COUNT(ODD_BYTES) };

size_t generate_xml_small_count(void)
{
    size_t n = 0;
    for (size_t i = 0; i < COUNT(SMALL); i++)
        n += (strlen(SMALL[i]) + 1) * SMALL_WAYS;
    return n;
}

void generate_xml_small(size_t index, struct generated_xml *g)
{
    size_t i = 0;
    struct out o = { g->xml, 0, sizeof g->xml };
    while (index >= (strlen(SMALL[i]) + 1) * SMALL_WAYS)
        index -= (strlen(SMALL[i++]) + 1) * SMALL_WAYS;
    size_t place = index / SMALL_WAYS, way = index % SMALL_WAYS, odds = COUNT(ODD_BYTES);
    puts_(&o, SMALL[i]);
    if (way == 0)
        o.length = place;
    else if (way == 1)
        splice(&o, place, place < o.length, NULL, 0);
    else if (way < 2 + odds)
        splice(&o, place, place < o.length, &ODD_BYTES[way - 2], 1);
    else
        splice(&o, place, 0, &ODD_BYTES[way - 2 - odds], 1);
    g->xml_len = o.length;
    g->listing_len = 0;
    g->whole = 0;
    g->room = 200;
    g->work_len = 4096;
    g->garbage = mix(index);
}
