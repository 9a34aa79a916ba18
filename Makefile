# make            the archive and the listing program, proved first where needed
# make incident   the example of examples/cabinet.c, told step by step
# make check      the gate
# make install    archive, header, pkg-config file and listing program to PREFIX, under
#                 DESTDIR if that is given; make uninstall takes them away again
# With V=1 each shows its commands and the prover's whole report.

PREFIX = /usr/local
DESTDIR =
VERSION = 0.1.0
CFLAGS = -O2
quietly = $(if $(filter 1,$(V)),,@)
# The archive that is installed; it is for x86-64.
ARCHIVE = target/staticlib/liblamptassel.a

SOURCES = crates.txt $(wildcard crates/*/src/*.rt crates/*/specs/*.antt crates/*/proofs/*.antt crates/*/proofs/*/*.antt)
place = $(DESTDIR)$(PREFIX)

all: $(ARCHIVE) target/bin/list

# One run of tools/archive writes both.
target/native/liblamptassel.a: $(SOURCES)
	$(quietly)tools/archive

target/staticlib/liblamptassel.a: target/native/liblamptassel.a
	$(quietly)[ -f $@ ] || tools/archive

# A program that needs no new proof is left as old as it is.
target/bin/list: $(SOURCES)
	$(quietly)tools/prove run list
	$(quietly)touch -c $@
	$(quietly)test -s $@

target/examples/cabinet: examples/cabinet.c include/lamptassel.h target/native/liblamptassel.a
	$(quietly)mkdir -p target/examples
	$(quietly)$(CC) -std=c11 -Wall -Wextra -Werror $(CFLAGS) -Iinclude examples/cabinet.c target/native/liblamptassel.a -o $@

incident: target/examples/cabinet
	@target/examples/cabinet incident

check:
	.ci/run

install: all
	mkdir -p "$(place)/lib/pkgconfig" "$(place)/include" "$(place)/bin"
	install -m 644 $(ARCHIVE) "$(place)/lib/liblamptassel.a"
	install -m 644 include/lamptassel.h "$(place)/include/lamptassel.h"
	install -m 755 target/bin/list "$(place)/bin/lamptassel-list"
	sed -e 's|@PREFIX@|$(PREFIX)|' -e 's|@VERSION@|$(VERSION)|' lamptassel.pc.in >"$(place)/lib/pkgconfig/lamptassel.pc"
	chmod 644 "$(place)/lib/pkgconfig/lamptassel.pc"
	@[ "$$(uname -m)" = x86_64 ] || \
	    echo "install: these are for x86-64, not for this machine: $(ARCHIVE) target/bin/list" >&2

uninstall:
	rm -f "$(place)/lib/liblamptassel.a" "$(place)/include/lamptassel.h" "$(place)/bin/lamptassel-list" \
	    "$(place)/lib/pkgconfig/lamptassel.pc"

.PHONY: all incident check install uninstall

# Two runs of tools/prove would write the same target folder.
.NOTPARALLEL:
