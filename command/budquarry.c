/* budquarry: a thin front over the proved library, for people and for build servers. See usage below and man/budquarry.1. */
#define _POSIX_C_SOURCE 200809L
#include <errno.h>
#include <fcntl.h>
#include <signal.h>
#include <stdint.h>
#include <stdio.h>
#include <stdlib.h>
#include <string.h>
#include <unistd.h>
#include "comparing.h"
#include "json.h"

/* exit status: no wider, accepted or granted; wider, denied, or warned with --strict; refused, or anything that went wrong */
enum { GOOD = 0, BAD = 1, FAILED = 2 };

static const char usage[] =
    "usage: budquarry compare [--all] [--accept FILE] OLD NEW\n"
    "       budquarry decide RULES METHOD PATH [--login] [--role NAME]..\n"
    "       budquarry check RULES\n"
    "       budquarry from-web-xml FILE\n"
    "       budquarry --help | --version\n"
    "\n"
    "compare       may anyone do more under the rules NEW than under OLD?\n"
    "decide        may this caller do this? (--role implies --login)\n"
    "check         are the rules well formed, and probably as meant?\n"
    "from-web-xml  writes the rules of a web.xml as a listing\n"
    "\n"
    "--all          compare lists all that is wider: where, which methods, for whom\n"
    "--accept FILE  compare passes over what is in FILE, in lines as --all writes them\n"
    "--strict       a warning of check or decide makes the exit status 1\n"
    "--json         the answer as JSON\n"
    "--quiet        no words on standard error\n"
    "--             ends the options\n"
    "\n"
    "OLD, NEW and RULES are each a web.xml or a listing, told apart by the first bytes;\n"
    "- is standard input. Standard output is the verdict, the answer, accepted, the\n"
    "listing, or refused<tab>NUMBER<tab>SIDE<tab>LINE. Exit status: 0 no wider, accepted,\n"
    "granted, or a listing; 1 wider, denied, or warned with --strict; 2 refused, or a\n"
    "file or the command line is at fault.\n";
static const char version[] = "budquarry " BUDQUARRY_VERSION "\n";

/* A role name has at most 64 bytes and a caller 32 of them. One byte and one name more are kept, so that a longer name and a caller with
 * more are refused by the library, and never cut to what is right. */
enum { NAMES = 33, NAME = 65 };

static struct command {
    const char *operand[4]; /* the verb first */
    int operands, quiet, all, strict, json;
    const char *accept; /* the file of accepted widenings */
    uint32_t login;
    size_t names, names_len;
    uint8_t name[NAMES * (NAME + 1)];
} command;

static struct listing first, second;
static budquarry_work work;

static int misused(const char *why, const char *what) {
    fprintf(stderr, "budquarry: %s", why);
    show_string(stderr, what);
    fprintf(stderr, "\n%s", usage);
    return FAILED;
}

static int refused(uint32_t number, uint32_t side, uint32_t line) {
    struct refusal refusal = {.number = number, .side = side, .line = line, .listing = side == 2 ? &second : &first};
    refusal.which = side == 2 ? "new " : command.operands == 3 ? "old " : "";
    refusal.method = command.operand[2];
    refusal.path = command.operand[3];
    refusal.roles = (struct text){command.name, command.names_len};
    if (command.json) {
        printf("{\"command\":\"%s\",", command.operand[0]);
        json_refusal(stdout, &refusal);
        fputs("}\n", stdout);
    } else {
        printf("refused\t%u\t%u\t%u\n", number, side, line);
    }
    if (handed_over() && !command.quiet) say_refusal(&refusal);
    return FAILED;
}

/* A file that can't be read is an error here, so that nobody takes it for an empty listing. */
static int read_on(int file, uint8_t *to, size_t room, size_t *len) {
    ssize_t got = 1;
    while (got > 0 && *len < room) {
        got = read(file, to + *len, room - *len);
        if (got > 0) *len += (size_t)got;
    }
    return got >= 0;
}

static int unreadable(const char *name) {
    const char *why = strerror(errno);
    fputs("budquarry: ", stderr);
    show_string(stderr, name);
    fprintf(stderr, ": %s\n", why);
    return 0;
}

static int open_named(const char *name) { return strcmp(name, "-") ? open(name, O_RDONLY) : STDIN_FILENO; }

/* Also descriptor 0, which a file gets where standard input is closed. */
static void close_named(const char *name, int file) {
    if (strcmp(name, "-")) close(file);
}

/* The file's bytes, taken for a web.xml. */
static int load_xml(struct listing *listing, const char *name) {
    int file = open_named(name);
    listing->name = name;
    listing->is_xml = 1;
    if (file < 0 || !read_on(file, listing->xml, sizeof listing->xml, &listing->xml_len)) return unreadable(name);
    close_named(name, file);
    return 1;
}

/* A web.xml or a listing, by its first bytes. */
static int load(struct listing *listing, const char *name) {
    if (!load_xml(listing, name)) return 0;
    listing->is_xml = looks_like_xml(file_of(listing));
    if (listing->is_xml) return 1;
    listing->len = listing->xml_len < sizeof listing->bytes ? listing->xml_len : sizeof listing->bytes;
    memcpy(listing->bytes, listing->xml, listing->len);
    return 1;
}

/* Writes the listing that a web.xml means; a listing stays as it is. */
static struct budquarry_report make_listing(struct listing *l) {
    if (!l->is_xml) return (struct budquarry_report){0, 0, 0};
    struct budquarry_written w = budquarry_from_web_xml(l->xml, l->xml_len, l->bytes, BUDQUARRY_LISTING, work, BUDQUARRY_WORK);
    l->len = w.length;
    return (struct budquarry_report){w.number, w.side, w.line};
}

/* A file of any length. */
static int load_all(struct text *text, const char *name) {
    int file = open_named(name);
    uint8_t *bytes = NULL;
    size_t room = 0, len = 0;
    do {
        room = 2 * room + 4096;
        uint8_t *more = file < 0 ? NULL : realloc(bytes, room);
        if (!more || !read_on(file, more, room, &len)) return unreadable(name);
        bytes = more;
    } while (len == room);
    close_named(name, file);
    *text = (struct text){bytes, len};
    return 1;
}

static void count_warning(const struct listing *listing, const struct warning *warning) { (void)listing, (void)warning; }

static void write_warning(const struct listing *listing, const struct warning *warning) {
    static int written;
    (void)listing;
    if (written++) putchar(',');
    json_warning(stdout, warning);
}

static int check(void) {
    if (!load(&first, command.operand[1])) return FAILED;
    struct budquarry_report r = make_listing(&first);
    if (!r.number) r = budquarry_read(first.bytes, first.len, work, BUDQUARRY_WORK);
    if (r.number) return refused(r.number, r.side, r.line);
    if (command.json) {
        fputs("{\"command\":\"check\"", stdout);
        json_member(stdout, "listing", text_of(first.name));
        fputs(",\"accepted\":true,\"warnings\":[", stdout);
        warn(&first, write_warning);
        fputs("]}\n", stdout);
    } else {
        fputs("accepted\n", stdout);
    }
    if (!handed_over()) return FAILED;
    return warn(&first, command.quiet ? count_warning : say_warning) && command.strict ? BAD : GOOD;
}

static int from_web_xml(void) {
    if (!load_xml(&first, command.operand[1])) return FAILED;
    struct budquarry_report r = make_listing(&first);
    if (r.number) return refused(r.number, r.side, r.line);
    struct text listing = {first.bytes, first.len};
    if (command.json) {
        fputs("{\"command\":\"from-web-xml\"", stdout);
        json_member(stdout, "web_xml", text_of(first.name));
        json_member(stdout, "written", listing);
        fputs("}\n", stdout);
    } else {
        show_answer(stdout, listing);
    }
    return handed_over() ? GOOD : FAILED;
}

static void write_decision(const char *answer, int granted) {
    fputs("{\"command\":\"decide\"", stdout);
    json_member(stdout, "listing", text_of(first.name));
    json_member(stdout, "method", text_of(command.operand[2]));
    json_member(stdout, "path", text_of(command.operand[3]));
    json_member(stdout, "answer", text_of(answer));
    printf(",\"granted\":%s,\"warnings\":[", granted ? "true" : "false");
    warn_path(text_of(command.operand[3]), write_warning);
    fputs("]}\n", stdout);
}

static int decide(void) {
    static const char *const answers[] = {"", "open", "by role", "closed", "login wanted", "role lacking"};
    const char *method = command.operand[2], *path = command.operand[3];
    if (!load(&first, command.operand[1])) return FAILED;
    struct budquarry_report r = make_listing(&first);
    if (r.number) return refused(r.number, r.side, r.line);
    struct budquarry_decision d = budquarry_decide(first.bytes, first.len, (const uint8_t *)path, strlen(path), (const uint8_t *)method,
                                                   strlen(method), command.login, command.name, command.names_len, work, BUDQUARRY_WORK);
    if (d.number) return refused(d.number, d.side, d.line);
    int granted = d.answer == BUDQUARRY_OPEN || d.answer == BUDQUARRY_BY_ROLE;
    if (command.json)
        write_decision(answers[d.answer], granted);
    else
        printf("%s\n", answers[d.answer]);
    if (!handed_over()) return FAILED;
    if (warn_path(text_of(path), command.quiet ? count_warning : say_warning) && command.strict) return BAD;
    return granted ? GOOD : BAD;
}

/* Writes both listings. All refusals of the old file come before those of the new one. */
static int make_both(void) {
    struct budquarry_report old = make_listing(&first), new = make_listing(&second);
    if (!old.number && new.number) old = budquarry_read(first.bytes, first.len, work, BUDQUARRY_WORK);
    if (old.number) return refused(old.number, 1, old.line);
    return new.number ? refused(new.number, 2, new.line) : GOOD;
}

static int compare(void) {
    static uint8_t answer[BUDQUARRY_ANSWER];
    static struct acceptance acceptance, *accepting;
    int inputs = !strcmp(command.operand[1], "-") + !strcmp(command.operand[2], "-") + (command.accept && !strcmp(command.accept, "-"));
    if (inputs > 1) return misused("only one file can be standard input", "");
    if (!load(&first, command.operand[1]) || !load(&second, command.operand[2])) return FAILED;
    if (command.accept) {
        accepting = &acceptance;
        acceptance.name = strcmp(command.accept, "-") ? command.accept : "standard input";
        if (!load_all(&acceptance.bytes, command.accept) || !cut_acceptance(accepting)) return FAILED;
    }
    if (make_both()) return FAILED;
    struct budquarry_comparison c =
        budquarry_compare(first.bytes, first.len, second.bytes, second.len, answer, sizeof answer, work, BUDQUARRY_WORK);
    if (c.number) return refused(c.number, c.side, c.line);
    return report_comparison(&(struct comparing){&first, &second, accepting, command.all, command.json, command.quiet}, (struct text){answer, c.length});
}

/* A byte 10 in a name would make two of it; byte 127 is as wrong in a name and doesn't. */
static void add_role(const char *name) {
    command.login = 1;
    if (command.names == NAMES) return;
    command.names++;
    for (size_t i = 0; name[i] && i < NAME; i++) command.name[command.names_len++] = name[i] == '\n' ? 127 : (uint8_t)name[i];
    command.name[command.names_len++] = '\n';
}

static int read_arguments(int argc, char **argv) {
    int options = 1;
    for (int i = 1; i < argc; i++) {
        if (!options || argv[i][0] != '-' || !argv[i][1]) {
            if (command.operands == 4) return misused("too many arguments: ", argv[i]);
            command.operand[command.operands++] = argv[i];
        } else if (!strcmp(argv[i], "--")) {
            options = 0;
        } else if (!strcmp(argv[i], "--quiet")) {
            command.quiet = 1;
        } else if (!strcmp(argv[i], "--all")) {
            command.all = 1;
        } else if (!strcmp(argv[i], "--json")) {
            command.json = 1;
        } else if (!strcmp(argv[i], "--accept")) {
            if (++i == argc) return misused("a file must follow --accept", "");
            if (command.accept) return misused("only one file can be accepted: ", argv[i]);
            command.accept = argv[i];
        } else if (!strcmp(argv[i], "--strict")) {
            command.strict = 1;
        } else if (!strcmp(argv[i], "--login")) {
            command.login = 1;
        } else if (!strcmp(argv[i], "--role")) {
            if (++i == argc) return misused("a name must follow --role", "");
            add_role(argv[i]);
        } else {
            return misused("unknown option: ", argv[i]);
        }
    }
    return GOOD;
}

static int told(const char *text) {
    fputs(text, stdout);
    return handed_over();
}

static int is_of_one_file(const char *verb) { return !strcmp(verb, "check") || !strcmp(verb, "from-web-xml"); }

/* Whether it is asked how to call the command: alone, or behind a verb and nothing else. */
static int asks_help(int argc, char **argv) {
    const char *last = argc > 1 ? argv[argc - 1] : "";
    if (argc == 2 && !strcmp(last, "help")) return 1;
    if (argc == 3 && strcmp(argv[1], "compare") && strcmp(argv[1], "decide") && !is_of_one_file(argv[1])) return 0;
    return argc <= 3 && (!strcmp(last, "--help") || !strcmp(last, "-h"));
}

/* A status of 0 must not come of a file's name that looks like an option: so `check --help` has none. */
static int help(int argc, char **argv) {
    int good = argc == 2 || !is_of_one_file(argv[1]);
    return told(usage) && good ? GOOD : FAILED;
}

static int run(int argc, char **argv) {
    static const struct verb {
        const char *name;
        int operands, asks_caller, (*run)(void);
    } verbs[] = {{"compare", 3, 0, compare}, {"decide", 4, 1, decide}, {"check", 2, 0, check}, {"from-web-xml", 2, 0, from_web_xml}};
    if (asks_help(argc, argv)) return help(argc, argv);
    if (argc == 2 && !strcmp(argv[1], "--version")) return told(version) ? GOOD : FAILED;
    if (read_arguments(argc, argv)) return FAILED;
    if (!command.operands) return misused("nothing to do", "");
    for (size_t i = 0; i < sizeof verbs / sizeof *verbs; i++) {
        if (strcmp(command.operand[0], verbs[i].name)) continue;
        if (command.operands != verbs[i].operands) return misused("wrong number of arguments for ", verbs[i].name);
        if (command.login && !verbs[i].asks_caller) return misused("--login and --role are for decide, not for ", verbs[i].name);
        if (command.strict && verbs[i].run != check && verbs[i].run != decide) return misused("--strict is for check and decide, not for ", verbs[i].name);
        if (command.accept && verbs[i].run != compare) return misused("--accept is for compare, not for ", verbs[i].name);
        if (command.all && verbs[i].run != compare) return misused("--all is for compare, not for ", verbs[i].name);
        return verbs[i].run();
    }
    return misused("no such command: ", command.operand[0]);
}

int main(int argc, char **argv) {
    static char text[4096], words[4096]; /* or the C library would allocate them */
    signal(SIGPIPE, SIG_IGN);            /* a reader that is gone is an error like a full disk */
    setvbuf(stdout, text, _IOFBF, sizeof text);
    setvbuf(stderr, words, _IOLBF, sizeof words);
    int status = run(argc, argv);
    if (fclose(stdout) && status != FAILED) {
        perror("budquarry: standard output");
        status = FAILED;
    }
    return fflush(stderr) || ferror(stderr) ? FAILED : status;
}
