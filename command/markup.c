/* markup.c: see markup.h. */
#include <string.h>
#include "causes.h"
#include "markup.h"

enum { LONGEST_REFERENCE = 40 }; /* bytes of a wrong one that are shown */

/* ---- bytes and places */

int is_white(uint8_t b) { return b == ' ' || b == '\t' || b == '\r' || b == '\n'; }

static int may_stand(uint8_t b) { return is_white(b) || b >= 32; }

static int starts_name(uint8_t b) { return (b >= 'A' && b <= 'Z') || (b >= 'a' && b <= 'z') || b == '_' || b == ':' || b >= 128; }

static int in_name(uint8_t b) { return starts_name(b) || (b >= '0' && b <= '9') || b == '-' || b == '.'; }

int ended(const struct markup *m) { return m->at == m->file.len; }

static uint8_t byte(const struct markup *m) { return m->file.at[m->at]; }

int is_at(const struct markup *m, const char *bytes) { return starts_with(behind(m->file, m->at), bytes); }

void skip_white(struct markup *m) {
    while (!ended(m) && is_white(byte(m))) m->at++;
}

uint32_t line_of(const struct markup *m, size_t place) {
    uint32_t line = 1;
    for (size_t i = 0; i < place; i++) line += m->file.at[i] == '\n';
    return line;
}

/* ---- faults */

int fault(struct markup *m, uint32_t number, size_t place) {
    m->number = number;
    m->fault = place;
    return 0;
}

int ill_formed(struct markup *m, size_t place, const char *why) {
    say(m->w, "%s", why);
    return fault(m, BUDQUARRY_BAD_XML, place);
}

int runs_out(struct markup *m, const char *where) {
    say(m->w, "the file ends %s. Is it cut off?", where);
    return fault(m, BUDQUARRY_BAD_XML, m->file.len ? m->file.len - 1 : 0);
}

/* Where the wrong byte is, if that is another line than the fault's. */
static void say_line(struct markup *m, size_t here) {
    if (line_of(m, m->at) != line_of(m, here)) say(m->w, " (on line %u)", line_of(m, m->at));
}

static int wrong_byte(struct markup *m, size_t here, const char *what) {
    control_byte(m->w, (struct text){m->file.at + m->at, 1}, what);
    return fault(m, BUDQUARRY_BAD_XML, here);
}

static const char instruction[] = "processing instructions, <? and a name, are not read. Take it out.";

/* ---- references */

static int bad_reference(struct markup *m, size_t here) {
    struct text spelt = behind(m->file, m->at);
    size_t n = 1;
    while (n < spelt.len && n < LONGEST_REFERENCE && (in_name(spelt.at[n]) || spelt.at[n] == '#')) n++;
    int is_whole = n > 1 && n < spelt.len && spelt.at[n] == ';';
    spelt.len = n + (size_t)is_whole;
    if (starts_with(spelt, "&#"))
        say(m->w, "the numeric reference %t", &spelt);
    else if (is_whole)
        say(m->w, "the entity %t", &spelt);
    else
        say(m->w, "a & that begins no entity");
    say_line(m, here);
    if (starts_with(spelt, "&#"))
        say(m->w, " is not read. Write the character itself, or one of &lt; &gt; &amp; &quot; and &apos;.");
    else if (is_whole)
        say(m->w, " is not known. There are &lt; &gt; &amp; &quot; and &apos;; every other character is written as it is.");
    else
        say(m->w, " stands here. Write &amp; for the sign itself.");
    return fault(m, BUDQUARRY_BAD_XML, here);
}

int read_byte(struct markup *m, size_t here, uint8_t *meant) {
    static const struct {
        const char *spelt;
        uint8_t meant;
    } known[] = {{"&lt;", '<'}, {"&gt;", '>'}, {"&amp;", '&'}, {"&quot;", '"'}, {"&apos;", '\''}};
    *meant = byte(m);
    if (*meant != '&') {
        if (!may_stand(*meant)) return wrong_byte(m, here, "the text");
        m->at++;
        return 1;
    }
    for (size_t i = 0; i < sizeof known / sizeof *known; i++) {
        if (!is_at(m, known[i].spelt)) continue;
        *meant = known[i].meant;
        m->at += strlen(known[i].spelt);
        return 1;
    }
    return bad_reference(m, here);
}

/* ---- tags */

static struct text take_name(struct markup *m) {
    size_t start = m->at;
    while (!ended(m) && in_name(byte(m))) m->at++;
    return (struct text){m->file.at + start, m->at - start};
}

static int read_value(struct markup *m, size_t here, struct text name) {
    uint8_t quote, meant;
    if (ended(m)) return runs_out(m, "inside a tag");
    quote = byte(m);
    if (quote != '"' && quote != '\'') {
        say(m->w, "the value of the attribute %t must stand in quotes.", &name);
        return fault(m, BUDQUARRY_BAD_XML, here);
    }
    m->at++;
    while (!ended(m) && byte(m) != quote) {
        if (byte(m) == '<') {
            say(m->w, "the value of the attribute %t has a < in it. Is the quote missing that ends it? For the sign itself write &lt;.", &name);
            return fault(m, BUDQUARRY_BAD_XML, here);
        }
        if (!read_byte(m, here, &meant)) return 0;
    }
    if (ended(m)) return runs_out(m, "inside the value of an attribute");
    m->at++;
    return 1;
}

static int read_attribute(struct markup *m, size_t here) {
    struct text name = take_name(m);
    skip_white(m);
    if (ended(m)) return runs_out(m, "inside a tag");
    if (byte(m) != '=') {
        say(m->w, "behind the attribute %t must follow = and a value in quotes.", &name);
        return fault(m, BUDQUARRY_BAD_XML, here);
    }
    m->at++;
    skip_white(m);
    return read_value(m, here, name);
}

/* Attributes, and white space or none behind them. */
static int read_attributes(struct markup *m, size_t here) {
    for (;;) {
        size_t before = m->at;
        skip_white(m);
        if (ended(m) || !starts_name(byte(m))) return 1;
        if (m->at == before) return ill_formed(m, here, "between two attributes must be a space.");
        if (!read_attribute(m, here)) return 0;
    }
}

/* A tag's > is wanted, and something else stands there. */
static int unclosed(struct markup *m, size_t here, struct text name) {
    uint32_t point;
    size_t len = utf8(behind(m->file, m->at), &point);
    struct text next = {m->file.at + m->at, len ? len : 1};
    if (next.at[0] == '<')
        say(m->w, "the tag <%t is not closed before the next < begins. Is its > missing?", &name);
    else if (!control_byte(m->w, next, "the tag"))
        say(m->w, "in the tag <%t stands %t where >, /> or an attribute must stand.", &name, &next);
    return fault(m, BUDQUARRY_BAD_XML, here);
}

/* A < with no name behind it. */
static int nameless(struct markup *m, size_t here) {
    if (byte(m) == '?' && starts_with(behind(m->file, here), "<?xml"))
        return ill_formed(m, here, "the XML declaration may stand at the very start of the file and nowhere else. Take out what stands before it, or the "
                                   "declaration.");
    if (byte(m) == '?') return ill_formed(m, here, instruction);
    if (byte(m) == '/') return ill_formed(m, here, "an end tag stands here, and no element is open.");
    return ill_formed(m, here, "a < begins a tag, and no name follows it. Write &lt; for the sign itself.");
}

int read_start_tag(struct markup *m, struct tag *tag) {
    tag->here = m->at++;
    tag->is_empty = 0;
    if (ended(m)) return runs_out(m, "inside a tag");
    if (!starts_name(byte(m))) return nameless(m, tag->here);
    tag->name = take_name(m);
    if (!read_attributes(m, tag->here)) return 0;
    if (is_at(m, "/")) tag->is_empty = 1, m->at++;
    if (ended(m)) return runs_out(m, "inside a tag");
    if (byte(m) != '>') return unclosed(m, tag->here, tag->name);
    m->at++;
    return 1;
}

/* Whether the end tag's name is cut off by the end of the file, and right so far. */
static int is_cut(struct text rest, struct text name) { return rest.len < name.len && !memcmp(rest.at, name.at, rest.len); }

int read_end_tag(struct markup *m, const struct tag *start) {
    size_t here = m->at;
    m->at += 2;
    if (is_cut(behind(m->file, m->at), start->name)) return runs_out(m, "inside an end tag");
    struct text name = take_name(m);
    if (!same(name, start->name)) {
        say(m->w, name.len ? "</%t> stands here" : "an end tag stands here%t", &name);
        say(m->w, ", and <%t> of line %u is still open. Is </%t> missing, or one of the two misspelt?", &start->name, line_of(m, start->here), &start->name);
        return fault(m, BUDQUARRY_BAD_XML, here);
    }
    skip_white(m);
    if (ended(m)) return runs_out(m, "inside an end tag");
    if (byte(m) != '>') {
        say(m->w, "the end tag </%t is not closed. Is its > missing?", &name);
        return fault(m, BUDQUARRY_BAD_XML, here);
    }
    m->at++;
    return 1;
}

/* ---- what begins with <! or <? */

static int document_type(struct markup *m) {
    size_t here = m->at;
    m->at += strlen("<!DOCTYPE");
    skip_white(m);
    struct text name = take_name(m);
    if (!name.len || same(name, text_of("web-app")))
        say(m->w, "a document type (DTD) is not read: it could bring in text from elsewhere. Take <!DOCTYPE ..> out.");
    else
        say(m->w, "the document type is %t, and a web.xml's is web-app. Is it the right file?", &name);
    return fault(m, BUDQUARRY_BAD_XML, here);
}

static int no_comment(struct markup *m) {
    if (is_at(m, "<!DOCTYPE")) return document_type(m);
    if (is_at(m, "<![CDATA["))
        return ill_formed(m, m->at, "CDATA is not read. Write the text itself, with &lt; for < and &amp; for &.");
    return ill_formed(m, m->at, "<! begins a comment, <!-- .. -->, and this is none.");
}

int read_comment(struct markup *m) {
    size_t here = m->at;
    if (!is_at(m, "<!--")) return no_comment(m);
    m->at += 4;
    while (!ended(m) && !is_at(m, "--")) {
        if (!may_stand(byte(m))) return wrong_byte(m, here, "the comment");
        m->at++;
    }
    if (ended(m) || m->file.len - m->at == 2) return runs_out(m, "inside a comment");
    if (!is_at(m, "-->")) {
        say(m->w, "the comment that begins here has -- in it");
        say_line(m, here);
        say(m->w, ", and XML has these only at a comment's end, -->. Take them out.");
        return fault(m, BUDQUARRY_BAD_XML, here);
    }
    m->at += 3;
    return 1;
}

int read_declaration(struct markup *m) {
    size_t here = m->at;
    if (!is_at(m, "<?xml")) return 1;
    m->at += 5;
    if (!ended(m) && in_name(byte(m))) return ill_formed(m, here, instruction);
    if (!read_attributes(m, here)) return 0;
    if (ended(m) || (byte(m) == '?' && m->at + 1 == m->file.len)) return runs_out(m, "inside the XML declaration");
    if (!is_at(m, "?>")) return ill_formed(m, here, "the XML declaration does not end in ?>. Write <?xml version=\"1.0\" encoding=\"UTF-8\"?>.");
    m->at += 2;
    return 1;
}
