# The station line. What can be made:
#
#   make help       this list
#   make run        the main job: proves the listing's program and runs it over examples/ (minutes the first time, then seconds)
#   make            the library for C, target/lib/libstation_line.a and .so
#   make console    the console program, target/console/station-line
#   make test       every test; the last line is 'N passed, 0 failed' (20 to 40 minutes on two processors)
#   make install    headers, library, program, man pages, completion and pkg-config file, to PREFIX (/usr/local); DESTDIR, BINDIR,
#                   INCLUDEDIR, LIBDIR, MANDIR and COMPLETIONDIR are heeded
#   make uninstall  removes them again
#   make soak       compares the library with an independent model on random input, for SECONDS seconds (600)
#   make fuzz       fuzzes the library through its C interface, for SECONDS seconds (600); needs clang with libFuzzer
#   make bench      times it beside that model and a tuned version (a minute)
#   make clean      removes target/
#
# All of it needs the Rattle kit, bash and a C compiler; the tests also need rustc and python3.
.PHONY: all help run test soak fuzz bench clean console install uninstall

CFLAGS ?= -O2
WARNINGS = -Wall -Wextra -Wpedantic -Wconversion -Wshadow
COMPILE = $(CC) -std=c11 $(WARNINGS) $(CPPFLAGS) $(CFLAGS) -Iinclude
HEADERS = include/station_line.h include/station_line_layout.h
VERSION = $(shell sed -n 's/^.define STATION_LINE_VERSION "\(.*\)"$$/\1/p' include/station_line.h)
SONAME = libstation_line.so.$(firstword $(subst ., ,$(VERSION)))

# The library for C, as an archive and as a shared library: the proved functions, and the words and the version in plain C.
all: target/lib/libstation_line.a target/lib/libstation_line.so

# Each of the two crates of the C interface is proved and compiled by itself (docs/DECISIONS.md), after those that it stands on; then they
# are one archive. NAME_c exports what NAME has, and the prover leaves it in the folder of NAME_c.
target/staticlib/lib%.a: crates.txt $(shell find crates -name out -prune -o \( -name '*.rt' -o -name '*.antt' \) -print)
	@mkdir -p $(@D)
	@cd crates/$*_c && rt lib
	@cp crates/$*_c/out/lib$*_c.a $@

target/staticlib/libstation_line_filled.a: | target/staticlib/libstation_line.a

target/proved/libstation_line.a: target/staticlib/libstation_line.a target/staticlib/libstation_line_filled.a
	@mkdir -p $(@D)
	@cp $< $@.new
	@cd $(@D) && $(AR) x ../staticlib/libstation_line_filled.a && $(AR) rs libstation_line.a.new station_line_filled_c.o
	@mv $@.new $@

target/lib/%.o: library/%.c $(HEADERS)
	@mkdir -p $(@D)
	$(COMPILE) -fPIC -c $< -o $@

target/lib/libstation_line.a: target/proved/libstation_line.a target/lib/words.o target/lib/version.o
	@cp $< $@.new
	$(AR) rs $@.new target/lib/words.o target/lib/version.o
	@mv $@.new $@

target/lib/libstation_line.so: target/lib/libstation_line.a
	$(CC) -shared -Wl,-soname,$(SONAME) -Wl,-z,defs $(LDFLAGS) -Wl,--whole-archive $< -Wl,--no-whole-archive -o $@.$(VERSION)
	@ln -sf libstation_line.so.$(VERSION) target/lib/$(SONAME)
	@ln -sf $(SONAME) $@

help:
	@sed -n '/^.PHONY/q; s/^#   //p' Makefile

# Runs the step list of examples/ over its table and prints the listing of document 01.
run:
	@./examples/run

# Every minute it is said how long is left, by what these take as a rule.
TEST_SECONDS ?= 1800
test:
	@./tests/timed 'make test' $(TEST_SECONDS) ./tests/all

# Compares the archive with the model of tests/model on random tables and step lists, for SECONDS seconds.
SECONDS ?= 600
soak:
	@./tests/timed 'make soak' $(SECONDS) ./tests/differential/run --soak $(SECONDS)

# Fuzzes the archive through its C interface, for SECONDS seconds.
fuzz:
	@./tests/timed 'make fuzz' $(SECONDS) ./fuzz/run $(SECONDS)

# Times the archive beside the model and a tuned Rust version; bench/run --count adds instruction counts.
bench:
	@./bench/run

clean:
	@rm -rf target

# The console program. It is linked to the archive, so it needs no library where it runs.
CONSOLE = target/console/station-line

console: $(CONSOLE)

$(CONSOLE): $(wildcard console/*.c console/*.h) $(HEADERS) target/lib/libstation_line.a
	@mkdir -p $(@D)
	$(COMPILE) console/*.c target/lib/libstation_line.a $(LDFLAGS) -o $@

# Headers, library, program, man pages, completion and pkg-config file. DESTDIR goes before every folder for packagers and is named nowhere in what is
# installed.
PREFIX ?= /usr/local
BINDIR ?= $(PREFIX)/bin
INCLUDEDIR ?= $(PREFIX)/include
LIBDIR ?= $(PREFIX)/lib
MANDIR ?= $(PREFIX)/share/man
COMPLETIONDIR ?= $(PREFIX)/share/bash-completion/completions
INSTALL ?= install
# The functions of the library, each of which has a man page that leads to station_line(3).
OPEN = (
FUNCTIONS = $(shell sed -n 's/.*[ *]\(station_line_[a-z_0-9]*\)[$(OPEN)].*/\1/p' include/station_line.h | sort -u)
BIN = $(DESTDIR)$(BINDIR)
INCLUDE = $(DESTDIR)$(INCLUDEDIR)
LIB = $(DESTDIR)$(LIBDIR)
MAN = $(DESTDIR)$(MANDIR)
COMPLETION = $(DESTDIR)$(COMPLETIONDIR)

install: all console
	$(INSTALL) -d "$(BIN)" "$(INCLUDE)" "$(LIB)/pkgconfig" "$(MAN)/man1" "$(MAN)/man3" "$(COMPLETION)"
	$(INSTALL) -m 755 $(CONSOLE) "$(BIN)/station-line"
	$(INSTALL) -m 644 console/station-line.bash "$(COMPLETION)/station-line"
	$(INSTALL) -m 644 $(HEADERS) "$(INCLUDE)"
	$(INSTALL) -m 644 target/lib/libstation_line.a "$(LIB)/libstation_line.a"
	$(INSTALL) -m 755 target/lib/libstation_line.so.$(VERSION) "$(LIB)/libstation_line.so.$(VERSION)"
	ln -sf libstation_line.so.$(VERSION) "$(LIB)/$(SONAME)"
	ln -sf $(SONAME) "$(LIB)/libstation_line.so"
	$(INSTALL) -m 644 console/station-line.1 "$(MAN)/man1/station-line.1"
	$(INSTALL) -m 644 library/station_line.3 "$(MAN)/man3/station_line.3"
	for name in $(FUNCTIONS); do echo .so man3/station_line.3 > "$(MAN)/man3/$$name.3" && chmod 644 "$(MAN)/man3/$$name.3" || exit 1; done
	sed -e 's|@PREFIX@|$(PREFIX)|' -e 's|@INCLUDEDIR@|$(INCLUDEDIR:$(PREFIX)/%=$${prefix}/%)|' \
	    -e 's|@LIBDIR@|$(LIBDIR:$(PREFIX)/%=$${prefix}/%)|' -e 's|@VERSION@|$(VERSION)|' \
	    library/station-line.pc.in > "$(LIB)/pkgconfig/station-line.pc"
	chmod 644 "$(LIB)/pkgconfig/station-line.pc"

uninstall:
	rm -f "$(BIN)/station-line" "$(COMPLETION)/station-line" "$(INCLUDE)/station_line.h" "$(INCLUDE)/station_line_layout.h"
	rm -f "$(LIB)/libstation_line.a" "$(LIB)/libstation_line.so" "$(LIB)/$(SONAME)" "$(LIB)/libstation_line.so.$(VERSION)"
	rm -f "$(LIB)/pkgconfig/station-line.pc" "$(MAN)/man1/station-line.1" "$(MAN)/man3/station_line.3"
	for name in $(FUNCTIONS); do rm -f "$(MAN)/man3/$$name.3" || exit 1; done
