/* causes.c: see causes.h. A function that looks for one cause says it and returns 1, or returns 0. */
#include <string.h>
#include "causes.h"
#include "webxml.h"

enum { LONGEST_WORD = 32 };

/* ---- a word that is nearly another */

static uint8_t small(uint8_t b) { return b >= 'A' && b <= 'Z' ? b + 32 : b; }

/* How many letters must be put in, taken out, changed or swapped with their neighbour; at most LONGEST_WORD bytes each. */
static size_t distance(struct text a, struct text b) {
    size_t d[LONGEST_WORD + 1][LONGEST_WORD + 1];
    for (size_t i = 0; i <= a.len; i++)
        for (size_t k = 0; k <= b.len; k++) {
            if (!i || !k) {
                d[i][k] = i + k;
                continue;
            }
            size_t changed = d[i - 1][k - 1] + (small(a.at[i - 1]) != small(b.at[k - 1])), fewer = d[i - 1][k] + 1, more = d[i][k - 1] + 1;
            d[i][k] = changed < fewer ? changed : fewer;
            if (more < d[i][k]) d[i][k] = more;
            if (i > 1 && k > 1 && small(a.at[i - 1]) == small(b.at[k - 2]) && small(a.at[i - 2]) == small(b.at[k - 1]) && d[i - 2][k - 2] + 1 < d[i][k])
                d[i][k] = d[i - 2][k - 2] + 1;
        }
    return d[a.len][b.len];
}

const char *meant(struct text t, const char *const words[], size_t count) {
    const char *best = NULL;
    size_t least = t.len > 4 ? 3 : 2; /* in a short word one letter is much */
    if (!t.len || t.len > LONGEST_WORD) return NULL;
    for (size_t i = 0; i < count; i++) {
        if (strlen(words[i]) > LONGEST_WORD || distance(t, text_of(words[i])) >= least) continue;
        least = distance(t, text_of(words[i]));
        best = words[i];
    }
    return best;
}

/* ---- lines */

static int is_blank(uint8_t b) { return b == ' ' || b == '\t'; }

static size_t last_spaces(struct text t) {
    size_t n = 0;
    while (n < t.len && t.at[t.len - 1 - n] == ' ') n++;
    return n;
}

static struct text without_blanks(struct text t) {
    while (t.len && is_blank(t.at[0])) t = behind(t, 1);
    while (t.len && is_blank(t.at[t.len - 1])) t.len--;
    return t;
}

static size_t count_byte(struct text t, uint8_t b) {
    size_t n = 0;
    for (size_t i = 0; i < t.len; i++) n += t.at[i] == b;
    return n;
}

/* Up to the first blank. */
static struct text first_word(struct text t) {
    size_t n = 0;
    while (n < t.len && !is_blank(t.at[n])) n++;
    return (struct text){t.at, n};
}

/* Line n of a file, and whether a line feed ends it; `none` if the file ends before it. */
struct place {
    struct text line;
    int ended, none;
};
static struct place line_at(const struct listing *l, uint32_t n) {
    struct text file = file_of(l), rest = file;
    while (--n && rest.len) take_line(&rest);
    struct place p = {.none = !rest.len};
    p.line = take_line(&rest);
    p.ended = p.line.at + p.line.len < file.at + file.len;
    return p;
}

static int is_field_wanted(enum name name) { return name != COLLECTION && name != END; }

/* ---- causes that any line can have */

static int windows_end(struct words *w, struct text line) {
    if (!count_byte(line, '\r')) return 0;
    say(w, "the line ends as Windows ends lines, with a carriage return that nobody sees. Save the file with Unix line ends (LF), or run "
           "tr -d '\\r' <FILE >NEWFILE.");
    return 1;
}

static int empty_line(struct words *w, struct text line) {
    if (without_blanks(line).len) return 0;
    say(w, line.len ? "the line has nothing but blanks in it. Take it out." : "the line is empty. Take it out.");
    return 1;
}

static int comment(struct words *w, struct text line) {
    struct text t = without_blanks(line);
    if (!starts_with(t, "#") && !starts_with(t, "//") && !starts_with(t, ";") && !starts_with(t, "--") && !starts_with(t, "<!--")) return 0;
    say(w, "this looks like a comment, and a listing has none. Take the line out.");
    return 1;
}

static int spaces_at_end(struct words *w, struct text t, const char *what) {
    size_t n = last_spaces(t);
    if (!n) return 0;
    say(w, n == 1 ? "%s ends in a space. Take it out." : "%s ends in %u spaces. Take them out.", what, (unsigned)n);
    return 1;
}

int control_byte(struct words *w, struct text t, const char *what) {
    static const char digits[] = "0123456789abcdef";
    for (size_t i = 0; i < t.len; i++) {
        if (t.at[i] >= 32 && t.at[i] != 127) continue;
        char shown[] = {'\\', 'x', digits[t.at[i] >> 4], digits[t.at[i] & 15], 0};
        say(w, "%s has the control character %s in it. Take it out.", what, shown);
        return 1;
    }
    return 0;
}

static int too_long(struct words *w, struct text t, size_t most, const char *what) {
    if (t.len <= most) return 0;
    say(w, "%s has at most %u bytes, and this one has %u. Shorten it.", what, (unsigned)most, (unsigned)t.len);
    return 1;
}

/* ---- the file as a whole */

int utf16(struct words *w, struct text file) {
    const uint8_t *b = file.at;
    if (file.len < 2 || !((b[0] == 0xff && b[1] == 0xfe) || (b[0] == 0xfe && b[1] == 0xff) || !b[0] != !b[1])) return 0;
    say(w, "this is UTF-16 text, as some Windows programs save it. Save the file again as UTF-8, without a byte order mark.");
    return 1;
}

static int wrong_file(struct words *w, const struct listing *l) {
    struct text all = {l->bytes, l->len};
    if (!all.len)
        say(w, "the file is empty. A listing starts with the line constraints<tab>1.");
    else if (!utf16(w, all) && starts_with(all, "\xef\xbb\xbf"))
        say(w, "the file starts with a byte order mark, three bytes that no editor shows. Save it again as UTF-8 without a byte order mark.");
    return w->len > 0;
}

static void long_listing(struct words *w, const struct listing *l) {
    if (wrong_file(w, l)) return;
    say(w, "a listing has at most 24,576 bytes, and this file has more. If it is the right file, say the same in fewer lines: one collection may have "
           "many patterns and methods.");
}

static const char first_line[] = "constraints\t1";

static void bad_first_line(struct words *w, const struct listing *l) {
    struct place p = line_at(l, 1);
    struct text word = first_word(p.line), rest = without_blanks(behind(p.line, word.len));
    static const char *const names[] = {"constraints"};
    if (wrong_file(w, l) || windows_end(w, p.line) || empty_line(w, p.line) || comment(w, p.line)) return;
    if (same(p.line, text_of(first_line)))
        say(w, "the line has no line feed at its end. Press Enter behind it and save the file.");
    else if (is_blank(p.line.at[0]))
        say(w, "blanks stand before the first word. The first line must be exactly constraints<tab>1.");
    else if (same(word, text_of("constraints")) && same(rest, text_of("1")))
        say(w, ends_with(p.line, "1") ? "between constraints and 1 must be one tab and nothing else. Write constraints<tab>1."
                                      : "blanks stand at the end of the line. Take them out.");
    else if (same(word, text_of("constraints")) && rest.len)
        say(w, "this command reads listings of format 1, and here stands %t. The first line must be exactly constraints<tab>1.", &rest);
    else if (meant(word, names, 1))
        say(w, "the first line must be exactly constraints<tab>1, and not %t.", &p.line);
    else
        say(w, "a listing starts with the line constraints<tab>1, a web.xml with <, and this file with neither. Is it the right file?");
}

/* ---- a line's form */

static void unknown_name(struct words *w, struct text line, struct text name) {
    const char *near = meant(name, record_names, UNKNOWN);
    if (count_byte(line, '\t') || near || !line.len)
        say(w, "a line can't start with %t.", &name);
    else
        say(w, "no line of a listing looks like this.");
    if (near)
        say(w, " Did you mean %s?", near);
    else
        say(w, " It starts with role, constraint, allow, collection, pattern, method, omit or end.");
}

/* Blanks where none may be, or where a tab must be. */
static int wrong_blanks(struct words *w, struct text line) {
    struct text inner = without_blanks(line), word = first_word(inner), rest = without_blanks(behind(inner, word.len));
    struct text blanks = {word.at + word.len, (size_t)(rest.at - word.at) - word.len};
    enum name name = record_of(word).name;
    if (name == UNKNOWN) return 0;
    if (is_blank(line.at[0])) {
        say(w, "blanks stand before %t. A line starts with its first word, without blanks.", &word);
    } else if (!is_field_wanted(name)) {
        if (line.len == word.len) return 0;
        say(w, rest.len ? "%t stands alone on its line, and here something follows it. Take that out." : "behind %t stand blanks. Take them out.", &word);
    } else if (!rest.len || record_of(line).name != UNKNOWN) {
        return 0;
    } else if (count_byte(blanks, '\t')) {
        say(w, "between %t and %t stand spaces beside the tab. Only the tab may stand there.", &word, &rest);
    } else {
        say(w, "between %t and %t must be a tab, and here %s. Write %t<tab>%t (some editors turn tabs into spaces).", &word, &rest,
            blanks.len > 1 ? "are spaces" : "is a space", &word, &rest);
    }
    return 1;
}

static void wrong_fields(struct words *w, struct text line, struct record r) {
    const char *name = record_names[r.name];
    static const char *const wanted[UNKNOWN] = {"a name", "open or auth", "a name", "", "a pattern", "a method", "a method", ""};
    if (!count_byte(line, '\t'))
        say(w, "behind %s a tab and %s must follow.", name, wanted[r.name]);
    else if (ends_with(line, "\t"))
        say(w, "the line ends in a tab. Take it out.");
    else if (r.field.len && r.field.at[0] == '\t')
        say(w, "behind %s stand %u tabs, and there must be one.", name, (unsigned)count_byte(line, '\t'));
    else
        say(w, "behind %s stand %u things, parted by tabs, and there must be one: %s. Give each a line of its own.", name,
            (unsigned)count_byte(line, '\t'), wanted[r.name]);
}

static void bad_form(struct words *w, struct place p) {
    struct record r = record_of(p.line);
    if (windows_end(w, p.line) || empty_line(w, p.line) || comment(w, p.line) || wrong_blanks(w, p.line)) return;
    if (r.name == UNKNOWN)
        unknown_name(w, p.line, count_byte(p.line, '\t') ? (struct text){p.line.at, p.line.len - r.field.len - 1} : first_word(p.line));
    else if (count_byte(p.line, '\t') != (size_t)is_field_wanted(r.name))
        wrong_fields(w, p.line, r);
    else if (!p.ended)
        say(w, "the last line has no line feed at its end. Press Enter behind it and save the file.");
}

/* ---- places */

/* What a record before allows, and what it is called; a constraint's kinds apart. */
enum before { AT_FIRST, AT_ROLE, AT_OPEN, AT_AUTH, AT_ALLOW, AT_COLLECTION, AT_PATTERN, AT_METHOD, AT_OMIT, BEFORES };
static const struct {
    const char *name, *may;
} befores[BEFORES] = {{"the first line", "role, constraint or end"},
                      {"role", "role, constraint or end"},
                      {"constraint<tab>open", "collection"},
                      {"constraint<tab>auth", "allow or collection"},
                      {"allow", "allow or collection"},
                      {"collection", "pattern"},
                      {"pattern", "pattern, method, omit, collection, constraint or end"},
                      {"method", "method, collection, constraint or end"},
                      {"omit", "omit, collection, constraint or end"}};

static enum before before_of(const struct listing *l, uint32_t line) {
    static const enum before at[UNKNOWN] = {AT_ROLE, AT_AUTH, AT_ALLOW, AT_COLLECTION, AT_PATTERN, AT_METHOD, AT_OMIT, AT_FIRST};
    if (line == 2) return AT_FIRST;
    struct record r = record_of(line_at(l, line - 1).line);
    return r.name == CONSTRAINT && same(r.field, text_of("open")) ? AT_OPEN : at[r.name];
}

/* Why a record may not stand behind the one before it. */
static const char *place_advice(enum before b, enum name here) {
    if (here == ROLE) return "Roles are declared at the top, before the first constraint: move this line up.";
    if (b == AT_FIRST || b == AT_ROLE) return "Start a constraint first.";
    if (here == ALLOW && b == AT_OPEN) return "An open constraint asks nothing of anyone: write constraint<tab>auth above if only some roles may.";
    if (here == ALLOW) return "The roles stand right behind constraint<tab>auth: move this line up.";
    if (b == AT_COLLECTION) return "A collection needs a pattern first.";
    if (here == PATTERN && b >= AT_PATTERN) return "Patterns come before the methods: move this line up, or start another collection.";
    if (b >= AT_PATTERN) return "A collection has method lines or omit lines, not both: start another collection.";
    if (here == CONSTRAINT || here == END) return "The constraint has no collection yet: it says who may, and not what.";
    return "Put a line collection before it.";
}

static void wrong_place(struct words *w, const struct listing *l, uint32_t line) {
    enum before b = before_of(l, line);
    enum name here = record_of(line_at(l, line).line).name;
    say(w, "behind %s may stand %s, and not %s. %s", befores[b].name, befores[b].may, record_names[here], place_advice(b, here));
}

/* ---- names and patterns */

void bad_role(struct words *w, struct text name) {
    if (!name.len)
        say(w, "the name is empty. Write it behind the tab.");
    else if (same(name, text_of("*")))
        say(w, "* stands for every declared role, and only allow may have it. Declare each role by its name.");
    else if (name.at[0] == ' ')
        say(w, "the name starts with a space. Take it out.");
    else
        (void)(spaces_at_end(w, name, "the name") || control_byte(w, name, "the name") || too_long(w, name, 64, "a role name"));
}

static const char token_bytes[] = "letters, digits and !#$%&'*+-.^_`|~";

static int is_token_byte(uint8_t b) {
    return (small(b) >= 'a' && small(b) <= 'z') || (b >= '0' && b <= '9') || (b && strchr("!#$%&'*+-.^_`|~", b));
}

int is_method(struct text t) {
    size_t i = 0;
    while (i < t.len && is_token_byte(t.at[i])) i++;
    return t.len && t.len <= 24 && i == t.len;
}

void bad_method(struct words *w, struct text name) {
    size_t i = 0;
    if (!name.len) {
        say(w, "the method is empty. Write one, like GET.");
        return;
    }
    if (name.at[0] == ' ') {
        say(w, "the method starts with a space. Take it out.");
        return;
    }
    if (spaces_at_end(w, name, "the method") || control_byte(w, name, "the method")) return;
    while (i < name.len && is_token_byte(name.at[i])) i++;
    struct text byte = {name.at + i, 1};
    if (i < name.len && strchr(" ,;/", name.at[i]))
        say(w, "one line holds one method, and here stand several, or more than its name. Give each method a line of its own.");
    else if (i < name.len && byte.at[0] < 128)
        say(w, "a method is made of %s, and not of %t.", token_bytes, &byte);
    else if (i < name.len)
        say(w, "a method is made of %s alone.", token_bytes);
    else
        too_long(w, name, 24, "a method");
}

static void bad_name(struct words *w, struct record r) {
    static const char *const kinds[] = {"open", "auth"};
    if (windows_end(w, r.field)) return;
    if (r.name == ROLE || r.name == ALLOW) {
        bad_role(w, r.field);
    } else if (r.name == METHOD || r.name == OMIT) {
        bad_method(w, r.field);
    } else {
        struct text kind = without_blanks(r.field);
        const char *near = meant(kind, kinds, 2);
        say(w, "a constraint is open (nothing is asked of the caller) or auth (a role is).");
        if (kind.len < r.field.len && near)
            say(w, " Take the blanks out beside %s.", near);
        else if (near)
            say(w, " Did you mean %s?", near);
    }
}

static void bad_ending(struct words *w, struct text ending) {
    struct text last = ending;
    while (count_byte(last, '.')) last = behind(last, 1);
    if (!ending.len)
        say(w, "behind *. an ending must follow, as in *.csv.");
    else if (count_byte(ending, '/'))
        say(w, "an ending has no / in it: *.csv fits such paths at every place. For all below one place write /place/*.");
    else if (count_byte(ending, '*'))
        say(w, "an ending has no second *: write it out, as in *.csv.");
    else if (count_byte(ending, '.'))
        say(w, "an ending has no second dot: only what follows a path's last dot counts. *.%t fits these paths, and others that end in .%t.", &last, &last);
}

void bad_pattern(struct words *w, struct text p) {
    if (!p.len || windows_end(w, p) || spaces_at_end(w, p, "the pattern") || control_byte(w, p, "the pattern") || too_long(w, p, 255, "a pattern")) return;
    struct text more = behind(p, 1);
    if (count_byte(p, ';'))
        say(w, "a pattern can't hold a ;. What stands from a ; on in a path is a parameter, and is left out before the path is matched. Take it out of the pattern.");
    else if (starts_with(p, "*."))
        bad_ending(w, behind(p, 2));
    else if (same(p, text_of("*")) || same(p, text_of("**")))
        say(w, "a pattern starts with / or with *. and an ending. Write /* for every path.");
    else if (starts_with(p, "*") && !count_byte(more, '/') && !count_byte(more, '.') && !count_byte(more, '*'))
        say(w, "a pattern starts with / or with *. and an ending. Did you mean *.%t?", &more);
    else if (starts_with(p, "http://") || starts_with(p, "https://"))
        say(w, "a pattern is a path alone, without http:// and the machine's name. Write it from its / on.");
    else if (starts_with(p, " "))
        say(w, "the pattern starts with a space. Take it out.");
    else if (!starts_with(p, "/"))
        say(w, "a pattern starts with / or with *. and an ending. Did you mean /%t?", &p);
}

/* ---- too many, twice, the end */

static size_t count_records(const struct listing *l, uint32_t up_to, enum name a, enum name b) {
    struct text rest = {l->bytes, l->len};
    size_t n = 0;
    for (uint32_t line = 1; line <= up_to && rest.len; line++) {
        enum name name = record_of(take_line(&rest)).name;
        n += line > 1 && (name == a || name == b);
    }
    return n;
}

static void past_most(struct words *w, const struct listing *l, uint32_t line) {
    switch (record_of(line_at(l, line).line).name) {
    case CONSTRAINT: say(w, "this is constraint 65, and 64 are the most. Join constraints that allow the same roles: one may have many collections."); break;
    case COLLECTION: say(w, "this is collection 129, and 128 are the most. Join collections with the same methods: one may have many patterns."); break;
    case PATTERN: say(w, "this is pattern line 129, and 128 are the most. Let one pattern like /place/* stand for several."); break;
    case METHOD:
    case OMIT:
        if (count_records(l, line, METHOD, OMIT) > 512)
            say(w, "this is method or omit line 513, and 512 are the most. Join collections with the same methods: one may have many patterns.");
        else
            say(w, "this is the 32nd method that the listing names, and 31 are the most. Take out methods that no rule needs by name.");
        break;
    default: say(w, "this is the 33rd role that the listing names, and 32 are the most. Take out roles that no rule needs."); break;
    }
}

static void role_twice(struct words *w, const struct listing *l, uint32_t line) {
    struct text name = record_of(line_at(l, line).line).field, rest = {l->bytes, l->len};
    uint32_t first = 1;
    while (first < line) {
        struct record r = record_of(take_line(&rest));
        if (r.name == ROLE && same(r.field, name)) break;
        first++;
    }
    say(w, "the role %t is declared on line %u already. Take one of the two lines out.", &name, first);
}

static void no_end(struct words *w, struct place p) {
    if (p.none)
        say(w, "the listing stops without its last line. Put a line end below the others.");
    else if (!without_blanks(p.line).len || same(p.line, text_of("\r")))
        say(w, "an empty line stands below end, and nothing may. Take it out.");
    else
        say(w, "something stands below end, and end must be the last line. Take it out, or move end below it.");
}

/* ---- requests */

static void bad_path(struct words *w, const struct refusal *r) {
    struct text path = text_of(r->path);
    if (!path.len)
        say(w, "the path is empty. A path starts with /.");
    else if (starts_with(path, "http://") || starts_with(path, "https://"))
        say(w, "a path is wanted, without http:// and the machine's name. Write it from its / on.");
    else if (path.at[0] != '/' && r->method[0] == '/')
        say(w, "a path starts with /. The method comes before the path: budquarry decide RULES METHOD PATH.");
    else if (path.at[0] != '/')
        say(w, "a path starts with /. Did you mean /%t?", &path);
    else
        (void)(control_byte(w, path, "the path") || too_long(w, path, 1024, "a path"));
}

static void bad_caller(struct words *w, struct text roles) {
    size_t names = count_byte(roles, '\n');
    struct words one = {.len = 0};
    while (names <= 32 && roles.len && !one.len) {
        struct text name = take_line(&roles);
        bad_role(&one, name);
        if (one.len && !name.len)
            say(w, "a role's name is empty. Write it behind --role.");
        else if (one.len && name.len > 64)
            say(w, "a role name has at most 64 bytes, and one of these has more.");
        else if (one.len)
            say(w, "the role %t is no name a listing can have: ", &name), say(w, "%t", &(struct text){one.at, one.len});
    }
    if (!w->len) say(w, "a caller has at most 32 roles, and here are more. Ask with fewer of them.");
}

/* ---- all of them */

static void explain_listing(struct words *w, const struct refusal *r) {
    struct place p = r->line ? line_at(r->listing, r->line) : (struct place){.none = 1};
    switch (r->number) {
    case BUDQUARRY_LONG_LISTING: long_listing(w, r->listing); break;
    case BUDQUARRY_BAD_FIRST_LINE: bad_first_line(w, r->listing); break;
    case BUDQUARRY_BAD_FORM: bad_form(w, p); break;
    case BUDQUARRY_WRONG_PLACE: wrong_place(w, r->listing, r->line); break;
    case BUDQUARRY_BAD_NAME: bad_name(w, record_of(p.line)); break;
    case BUDQUARRY_BAD_PATTERN: bad_pattern(w, record_of(p.line).field); break;
    case BUDQUARRY_PAST_MOST: past_most(w, r->listing, r->line); break;
    case BUDQUARRY_ROLE_TWICE: role_twice(w, r->listing, r->line); break;
    case BUDQUARRY_NO_END: no_end(w, p); break;
    case BUDQUARRY_BAD_PATH: bad_path(w, r); break;
    case BUDQUARRY_BAD_METHOD: bad_method(w, text_of(r->method)); break;
    case BUDQUARRY_BAD_CALLER: bad_caller(w, r->roles); break;
    }
}

void explain(struct words *w, const struct refusal *r) {
    if (r->side && r->listing->is_xml)
        explain_web_xml(w, r);
    else
        explain_listing(w, r);
    if (!w->len) say(w, "rule %u is broken, and this command can't tell how: please report it.", r->number);
}

const char *shown_name(const struct listing *listing) { return strcmp(listing->name, "-") ? listing->name : "standard input"; }

/* A listing's line as it is; XML's without the white space round it, which means nothing there. */
static void show_line_of(const struct refusal *r) {
    struct place p = line_at(r->listing, r->line);
    if (p.none) return;
    if (r->listing->is_xml && ends_with(p.line, "\r")) p.line.len--;
    show_line(stderr, r->listing->is_xml ? without_blanks(p.line) : p.line);
}

void say_refusal(const struct refusal *r) {
    struct words w = {.len = 0};
    explain(&w, r);
    if (r->side) {
        show_string(stderr, shown_name(r->listing));
        if (r->line) fprintf(stderr, ":%u", r->line);
        fprintf(stderr, ": the %s%s is refused: ", r->which, kind_of_file(r->listing));
    } else {
        fputs("refused: ", stderr);
    }
    show(stderr, said(&w));
    putc('\n', stderr);
    if (r->line) show_line_of(r);
}
