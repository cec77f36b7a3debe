# make            the archive, the command and the test programs
# make check      the project's own tests, without the prover's
# make install    header, archive, shared library, pkg-config file, command, manual and completion, below DESTDIR and PREFIX; make uninstall
# make dist       the same as a tarball and a Debian package in build/, for people without the kit
# make sharp      wrong variants of the second implementation, each to be told apart: docs/SHARPNESS.md; some minutes
# make real-web-xml  the web.xml files of Debian's packages, fetched and read: docs/WEBXML.md
# make gateway    the gateway example; make check-gateway tests it alone
# make programs   the proved compare program on the cases of tests/compare
# make soak       the comparison with the second implementation on SOAK cases of a fresh seed
# make bench      counted instructions and stack, as bench/RESULTS.md has them; make growth draws bench/growth.svg alone
# make clean
X86 = tools/x86
WARN = -std=c11 -Wall -Wextra -Werror
SEED ?= $(shell date +%s)
SOAK ?= 3000000
PREFIX ?= /usr/local
VERSION = $(shell sed -n 's/.*BUDQUARRY_VERSION "\(.*\)"/\1/p' include/budquarry.h)
CRATES = text worktable writing limits names listings documents portals markup ledger elements forming importing decisions entries reading matching callers deciding trials fillers grants firsts numbers walks showing comparisons comparing library
PARTS = command/comparing.c command/json.c command/accept.c command/words.c command/causes.c command/webxml.c command/markup.c command/warnings.c command/widenings.c command/listing.c command/showing.c
COMMAND = command/budquarry.c $(PARTS)

ABI = 1
SHARED = libbudquarry.so.$(ABI)

all: build/budquarry build/agree build/stack build/calls

# The proved archive, as it comes. rt proves before it builds, and keeps in each crate's out/ what it made.
build/proved.a: $(shell find $(CRATES:%=crates/%) -name out -prune -o \( -name '*.rt' -o -name '*.antt' \) -print) crates.txt
	@tools/prove $@
# What C links: the proved calls, and beside them which version they are.
build/version.o: library/version.c include/budquarry.h
	mkdir -p build
	$(X86) cc $(WARN) -O2 -fPIC -c $< -o $@
build/libbudquarry.a: build/proved.a build/version.o
	cp build/proved.a $@.new
	$(X86) ar rs $@.new build/version.o
	mv $@.new $@
build/$(SHARED): build/libbudquarry.a
	$(X86) cc -shared -Wl,-soname,$(SHARED) -Wl,-z,defs,-z,now -Wl,--whole-archive $< -Wl,--no-whole-archive -o $@
# The command up to its first call of the library: what `./budquarry` answers with before anything is proved. Made whole at once, for two may be at it.
build/front: $(COMMAND) $(wildcard command/*.h) include/budquarry.h library/version.c tools/front.c
	mkdir -p build
	$(X86) cc $(WARN) -O2 -static $(COMMAND) library/version.c tools/front.c -o $@.$$$$ && mv $@.$$$$ $@

build/second.o: second/second.c second/second.h
	mkdir -p build
	$(X86) cc $(WARN) -O2 -c $< -o $@
build/yardstick.o: second/yardstick.c second/yardstick.h
	mkdir -p build
	$(X86) cc $(WARN) -O3 -c $< -o $@
build/generate.o: second/generate.c second/generate.h
	mkdir -p build
	$(X86) cc $(WARN) -O2 -c $< -o $@

build/webxml.o: second/webxml.c second/second.h
	mkdir -p build
	$(X86) cc $(WARN) -O2 -c $< -o $@
build/generate_xml.o: second/generate_xml.c second/generate_xml.h second/generate.h
	mkdir -p build
	$(X86) cc $(WARN) -O2 -c $< -o $@

build/edges: second/edges.c build/second.o build/yardstick.o
	$(X86) cc $(WARN) -O2 -static $^ -o $@
build/decide_edges: second/decide_edges.c build/second.o
	$(X86) cc $(WARN) -O2 -static $^ -o $@
build/compare_runs: second/compare_runs.c build/second.o
	$(X86) cc $(WARN) -O2 -static $^ -o $@
build/budquarry: $(COMMAND) $(wildcard command/*.h) include/budquarry.h build/libbudquarry.a
	$(X86) cc $(WARN) -O2 -static $(COMMAND) build/libbudquarry.a -o $@
# the same with the sanitizers, on x86-64 alone; `tests/command build/sanitized` runs it
build/sanitized: $(COMMAND) $(wildcard command/*.h) include/budquarry.h build/libbudquarry.a
	$(X86) cc $(WARN) -g -fsanitize=address,undefined -fno-sanitize-recover=all $(COMMAND) build/libbudquarry.a -o $@
build/agree: tests/agree.c include/budquarry.h build/second.o build/yardstick.o build/generate.o build/libbudquarry.a
	$(X86) cc $(WARN) -O2 -static tests/agree.c build/second.o build/yardstick.o build/generate.o build/libbudquarry.a -o $@
build/second_agree: second/agree.c build/second.o build/yardstick.o build/generate.o
	$(X86) cc $(WARN) -O2 -static $^ -o $@
build/typed: tests/typed.c include/budquarry.h build/second.o build/libbudquarry.a
	$(X86) cc $(WARN) -O2 -static tests/typed.c build/second.o build/libbudquarry.a -o $@
build/widenings: tests/widenings.c $(PARTS) $(wildcard command/*.h) include/budquarry.h build/second.o build/generate.o build/libbudquarry.a
	$(X86) cc $(WARN) -O2 -static tests/widenings.c $(PARTS) build/second.o build/generate.o build/libbudquarry.a -o $@
build/causes: tests/causes.c $(PARTS) $(wildcard command/*.h) include/budquarry.h build/generate_xml.o build/generate.o build/libbudquarry.a
	$(X86) cc $(WARN) -O2 -static tests/causes.c $(PARTS) build/generate_xml.o build/generate.o build/libbudquarry.a -o $@
build/seam: tests/seam.c include/budquarry.h build/libbudquarry.a
	$(X86) cc $(WARN) -O2 -static tests/seam.c build/libbudquarry.a -o $@
# the header's first example, as it stands in its comment
build/example.h: include/budquarry.h
	mkdir -p build
	sed -n '/^ \*     int may/,/^ \*     }/ s/^ \*     //p' $< >$@
build/threads: tests/threads.c build/example.h include/budquarry.h build/libbudquarry.a
	$(X86) cc $(WARN) -O2 -static -Ibuild tests/threads.c build/libbudquarry.a -pthread -o $@
build/properties: tests/properties.c build/second.o build/generate.o
	$(X86) cc $(WARN) -O2 -static $^ -o $@

# Reading web.xml: the proved call and the second implementation; second_ is the latter by itself, without the archive. expat is Debian's.
READERS = build/webxml.o build/second.o build/generate_xml.o build/generate.o
XML_TEST = $(X86) cc $(WARN) -O2 -static
build/agree_xml: tests/agree_xml.c include/budquarry.h $(READERS) build/libbudquarry.a
	$(XML_TEST) tests/agree_xml.c $(READERS) build/libbudquarry.a -o $@
build/typed_xml: tests/typed_xml.c tests/xml_cases.h include/budquarry.h build/webxml.o build/libbudquarry.a
	$(XML_TEST) tests/typed_xml.c build/webxml.o build/libbudquarry.a -o $@
build/expat: tests/expat.c include/budquarry.h $(READERS) build/libbudquarry.a
	$(X86) library expat expat.h libexpat1-dev
	$(XML_TEST) tests/expat.c $(READERS) build/libbudquarry.a -lexpat -o $@
build/second_agree_xml: tests/agree_xml.c include/budquarry.h $(READERS)
	$(XML_TEST) -DONLY_SECOND tests/agree_xml.c $(READERS) -o $@
build/second_typed_xml: tests/typed_xml.c tests/xml_cases.h include/budquarry.h build/webxml.o
	$(XML_TEST) -DONLY_SECOND tests/typed_xml.c build/webxml.o -o $@
build/second_expat: tests/expat.c include/budquarry.h $(READERS)
	$(X86) library expat expat.h libexpat1-dev
	$(XML_TEST) -DONLY_SECOND tests/expat.c $(READERS) -lexpat -o $@
build/read_web_xml: tests/read_web_xml.c build/webxml.o
	$(XML_TEST) $^ -o $@

# The wrong variants: second.c with an edit put in, its three calls renamed.
WRONG = $(patsubst second/wrong/%.edit,%,$(wildcard second/wrong/*.edit))
build/wrong/%.o: second/wrong/%.edit second/wrong/apply second/second.c second/second.h
	mkdir -p build/wrong
	second/wrong/apply $< second/second.c >build/wrong/$*.c
	$(X86) cc $(WARN) -Wno-unused -O2 -Isecond -Dsecond_read=$*_read -Dsecond_decide=$*_decide -Dsecond_compare=$*_compare -c build/wrong/$*.c -o $@
build/wrong/list.h: $(wildcard second/wrong/*.edit)
	mkdir -p build/wrong
	for name in $(WRONG); do echo "WRONG($$name)"; done >$@
build/sharp: tests/sharp.c build/wrong/list.h $(WRONG:%=build/wrong/%.o) build/second.o build/generate.o
	$(X86) cc $(WARN) -O2 -static tests/sharp.c $(WRONG:%=build/wrong/%.o) build/second.o build/generate.o -o $@

# The same of reading web.xml: webxml.c with an edit put in, its call renamed.
WRONG_XML = $(patsubst second/wrong/xml/%.edit,%,$(wildcard second/wrong/xml/*.edit))
build/wrong/xml/%.o: second/wrong/xml/%.edit second/wrong/apply second/webxml.c second/second.h
	mkdir -p build/wrong/xml
	second/wrong/apply $< second/webxml.c >build/wrong/xml/$*.c
	$(X86) cc $(WARN) -Wno-unused -O2 -Isecond -Dsecond_from_web_xml=$*_from_web_xml -c build/wrong/xml/$*.c -o $@
build/wrong/xml/list.h: $(wildcard second/wrong/xml/*.edit)
	mkdir -p build/wrong/xml
	for name in $(WRONG_XML); do echo "WRONG($$name)"; done >$@
build/sharp_xml: tests/sharp_xml.c tests/xml_cases.h build/wrong/xml/list.h $(WRONG_XML:%=build/wrong/xml/%.o) $(READERS)
	$(X86) cc $(WARN) -O2 -static tests/sharp_xml.c $(WRONG_XML:%=build/wrong/xml/%.o) $(READERS) -o $@

# the yardstick that walks through all trial paths, with and without vectors, its three calls renamed
build/walk.o build/scalar.o: second/yardstick.c second/yardstick.h
	mkdir -p build
	$(X86) cc $(WARN) -O3 $(if $(findstring scalar,$@),-fno-tree-vectorize) -DYARDSTICK_WALK \
		$(foreach name,read decide compare,-Dyardstick_$(name)=$(basename $(@F))_$(name)) -c $< -o $@
YARDSTICKS = build/yardstick.o build/walk.o build/scalar.o
INPUTS = bench/inputs.h bench/full.h bench/xml.h include/budquarry.h
build/stack: bench/stack.c $(INPUTS) build/generate.o build/generate_xml.o build/libbudquarry.a
	$(X86) cc $(WARN) -O2 -static bench/stack.c build/generate.o build/generate_xml.o build/libbudquarry.a -o $@
build/calls: bench/calls.c bench/grown.h bench/hostile.h $(INPUTS) build/generate.o build/webxml.o $(YARDSTICKS) build/libbudquarry.a
	$(X86) cc $(WARN) -O2 -static bench/calls.c build/generate.o build/webxml.o $(YARDSTICKS) build/libbudquarry.a -o $@

# Linked to Debian's libmicrohttpd, so not static. The checked one stops at a bad access, and at the end at a leak; it needs x86-64 itself.
CHECKED = $(if $(filter x86_64,$(shell uname -m)),build/gateway_checked)
GATEWAY = $(addprefix gateway/,gateway.c seats.c head.c users.c rules.c files.c log.c)
build/gateway: $(GATEWAY) gateway/gateway.h include/budquarry.h build/libbudquarry.a
	$(X86) library microhttpd microhttpd.h libmicrohttpd-dev
	$(X86) cc $(WARN) -O2 $(GATEWAY) build/libbudquarry.a -lmicrohttpd -pthread -o $@
build/gateway_checked: build/gateway
	$(X86) cc $(WARN) -g -O1 -fsanitize=address,undefined -fno-sanitize-recover=all $(GATEWAY) build/libbudquarry.a -lmicrohttpd -pthread -o $@
build/gateway_client: tests/gateway_client.c include/budquarry.h build/libbudquarry.a
	$(X86) cc $(WARN) -O2 -static tests/gateway_client.c build/libbudquarry.a -o $@
# the part that holds passwords, by itself; behind build/gateway, which sees to MHD's header
SECRET = tests/gateway_secret.c $(addprefix gateway/,users.c rules.c files.c log.c)
build/gateway_secret: $(SECRET) build/gateway
	$(X86) cc $(WARN) -O2 -static $(SECRET) build/libbudquarry.a -pthread -o $@

gateway: build/gateway
check-gateway: build/gateway $(CHECKED) build/gateway_client build/gateway_secret build/budquarry
	tests/gateway build/gateway $(CHECKED)

# The tests, in parts that two jobs run side by side: the second implementation by itself while the archive is proved, the rest behind it.
check: check-second check-command check-calls check-xml check-package check-here programs

check-second: build/second_agree build/properties build/edges build/decide_edges build/second_expat
	tests/stored
	$(X86) run build/second_agree 0 1 large >build/second_agree.out || { cat build/second_agree.out; exit 1; }
	$(X86) run build/properties 1 20000
	$(X86) run build/properties $(SEED) 4000
	$(X86) run build/second_expat 1 100000
# Reading web.xml by the second implementation alone, before there is an archive; but for the above it is all in check-xml.
check-second-xml: build/second_agree_xml build/second_typed_xml build/second_expat
	$(X86) run build/second_typed_xml
	$(X86) run build/second_agree_xml 1 100000
	$(X86) run build/second_agree_xml $(SEED) 20000
	$(X86) run build/second_expat 1 100000
	$(X86) run build/second_expat $(SEED) 20000
check-xml: build/agree_xml build/typed_xml build/expat
	$(X86) run build/typed_xml
	$(X86) run build/agree_xml 1 60000
	$(X86) run build/agree_xml $(SEED) 10000
	$(X86) run build/expat $(SEED) 20000
check-command: build/budquarry build/widenings build/causes
	tests/command
	tests/terminal
	tests/json
	$(X86) run build/causes 1 20000
	$(X86) run build/widenings 1 3000
	$(X86) run build/widenings $(SEED) 500
	tests/install
check-calls: build/agree build/typed build/seam build/stack
	$(X86) run build/seam
	$(X86) run build/typed
	$(X86) run build/agree 1 100000
	$(X86) run build/agree $(SEED) 20000
	$(X86) run build/stack
# the first run, the scripts, the package, and the header's example in threads
check-package: build/budquarry build/$(SHARED) build/threads
	tests/first
	tests/scripts
	tests/package
	$(X86) run build/threads
# alone, behind the others: it measures what it does under load
check-here: check-command check-calls check-xml check-package programs
	if $(X86) need curl curl && $(X86) need ab apache2-utils && $(X86) library microhttpd microhttpd.h libmicrohttpd-dev; \
		then $(MAKE) --no-print-directory check-gateway; else echo "gateway: not tried, for want of the packages above"; fi

# What the tests need of Debian, one after the other: two jobs at once would stand in each other's way.
needs: build/second.o
	$(X86) need pkg-config pkg-config
	$(X86) need script bsdutils
	$(X86) need jq jq
	for package in curl:curl ab:apache2-utils; do $(X86) need $${package%:*} $${package#*:} || :; done
	$(X86) library microhttpd microhttpd.h libmicrohttpd-dev || :
	$(X86) library expat expat.h libexpat1-dev

# rt proves the program before it builds it, as crates/compare/out/compare, and then runs it: here or not, since that may need the emulator.
programs: build/compare_runs build/libbudquarry.a
	(cd crates/compare && rt run </dev/null) >build/compare.out 2>build/compare.log || grep -q '^rt: running out/compare' build/compare.log || { tail -n 20 build/compare.log; exit 1; }
	tests/programs

sharp: build/sharp build/sharp_xml
	tests/sharp
	tests/sharp_xml

# the web.xml files of Debian's packages, fetched: docs/WEBXML.md; needs the network
real-web-xml: build/read_web_xml
	tests/real_web_xml

soak: build/agree
	$(X86) run build/agree $(SEED) $(SOAK)

bench: build/calls build/stack
	bench/run
growth: build/calls
	bench/growth

# LIBDIR and ZSHDIR for a system that has its own places for them; PCPREFIX is what the pkg-config file calls the prefix.
LIBDIR = $(PREFIX)/lib
ZSHDIR = $(PREFIX)/share/zsh/site-functions
DOCDIR = $(PREFIX)/share/doc/budquarry
PCPREFIX = $(PREFIX)
ROOT = $(DESTDIR)$(PREFIX)
LIBS = $(DESTDIR)$(LIBDIR)
DOCS = $(DESTDIR)$(DOCDIR)
EXAMPLES = link.c live/web.xml next/web.xml old.txt new.txt portal.txt
PAGES = budquarry-listing.5 budquarry-web-xml.5
# An empty or relative PREFIX would mean this folder, and so would its own name: its header is not to be written over, nor taken away.
ROOTED = case "$(PREFIX)" in /*) ;; *) echo "PREFIX must be a path that starts with /, and is '$(PREFIX)'" >&2; exit 2 ;; esac; \
	[ ! include -ef "$(ROOT)/include" ] || { echo "PREFIX must be another folder than this one, and is '$(PREFIX)'" >&2; exit 2; }
install: build/budquarry build/$(SHARED)
	@$(ROOTED)
	install -D -m 644 include/budquarry.h "$(ROOT)/include/budquarry.h"
	install -D -m 644 build/libbudquarry.a "$(LIBS)/libbudquarry.a"
	install -D -m 644 build/$(SHARED) "$(LIBS)/$(SHARED)"
	ln -sf $(SHARED) "$(LIBS)/libbudquarry.so"
	install -D -m 644 budquarry.pc.in "$(LIBS)/pkgconfig/budquarry.pc"
	sed -i -e 's|@PREFIX@|$(PCPREFIX)|' -e 's|@LIBDIR@|$(LIBDIR:$(PREFIX)/%=$${prefix}/%)|' -e 's|@VERSION@|$(VERSION)|' "$(LIBS)/pkgconfig/budquarry.pc"
	install -D -m 755 build/budquarry "$(ROOT)/bin/budquarry"
	install -D -m 644 man/budquarry.1 "$(ROOT)/share/man/man1/budquarry.1"
	install -D -m 644 -t "$(ROOT)/share/man/man5" $(PAGES:%=man/%)
	install -D -m 644 completion/budquarry.bash "$(ROOT)/share/bash-completion/completions/budquarry"
	install -D -m 644 completion/_budquarry "$(DESTDIR)$(ZSHDIR)/_budquarry"
	install -D -m 644 -t "$(DOCS)" README.md CHANGELOG.md
	for file in $(EXAMPLES); do install -D -m 644 "examples/$$file" "$(DOCS)/examples/$$file" || exit 1; done

uninstall:
	@$(ROOTED)
	rm -f "$(ROOT)/include/budquarry.h" "$(LIBS)/libbudquarry.a" "$(LIBS)/$(SHARED)" "$(LIBS)/libbudquarry.so" "$(LIBS)/pkgconfig/budquarry.pc" \
		"$(ROOT)/bin/budquarry" "$(ROOT)/share/man/man1/budquarry.1" $(PAGES:%="$(ROOT)/share/man/man5/%") \
		"$(ROOT)/share/bash-completion/completions/budquarry" "$(DESTDIR)$(ZSHDIR)/_budquarry" \
		"$(DOCS)/README.md" "$(DOCS)/CHANGELOG.md" $(EXAMPLES:%="$(DOCS)/examples/%")
	for folder in "$(DOCS)/examples/live" "$(DOCS)/examples/next" "$(DOCS)/examples" "$(DOCS)"; do rmdir "$$folder" 2>/dev/null || :; done

dist: build/budquarry build/$(SHARED)
	tools/dist $(VERSION)

clean:
	rm -rf build

.PHONY: all check check-second check-second-xml check-xml real-web-xml check-command check-calls check-package check-here needs programs sharp gateway check-gateway soak bench growth install uninstall dist clean
