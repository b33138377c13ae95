# Builds the library, the listing program and clip, and installs them, with GNU make. rt proves and builds the Rattle
# code (tools/build), and is not called where that is done already. The usual names say where to: PREFIX, DESTDIR, bindir,
# libdir and so on; they may have spaces, but no quotes, and none of \ & | $.

# The header has the version: its major, minor and patch number, joined by dots.
VERSION = $(shell sed -n 's/^.define CLPI_VERSION_[MP][A-Z]* \([0-9]*\)$$/\1/p' include/clpi.h | paste -s -d . -)

PREFIX = /usr/local
prefix = $(PREFIX)
exec_prefix = $(prefix)
bindir = $(exec_prefix)/bin
libdir = $(exec_prefix)/lib
libexecdir = $(exec_prefix)/libexec
includedir = $(prefix)/include
datarootdir = $(prefix)/share
mandir = $(datarootdir)/man
docdir = $(datarootdir)/doc/clpi
pkgconfigdir = $(libdir)/pkgconfig

CFLAGS ?= -O2
INSTALL = install
STRICT = -std=c99 -Wall -Wextra -Wpedantic -Werror

library = target/staticlib/libclpi.a
lister = target/bin/list_clip
rattle = crates.txt $(shell find crates -name out -prune -o \( -name '*.rt' -o -name '*.antt' \) -print)
examples = $(notdir $(wildcard examples/*.c examples/*.h))
sources = tools/clip.c tools/list.h tools/minutes.h tools/words.h examples/clip_file.h examples/new_file.h include/clpi.h

all: $(library) $(lister) target/install/clip

# rt proves one thing at a time.
.NOTPARALLEL:
.DELETE_ON_ERROR:
.PHONY: all test install uninstall clean FORCE

# Looked for before the proofs, which take minutes.
compiler = $(firstword $(CC))
has_compiler = command -v '$(compiler)' >/dev/null || \
    { echo 'a C compiler is missing: there is no $(compiler) on the PATH; install one, or name yours with CC=NAME.' >&2; exit 2; }

$(library): $(rattle)
	@$(has_compiler)
	@tools/build staticlib clpi

$(lister): $(rattle)
	@tools/build check list_clip

# clip has the path of the listing program in it: the one of this folder for ./clip, or the installed one. It is
# compiled anew where that path is another.
target/tools/clip: list_program = $(CURDIR)/$(lister)
target/install/clip: list_program = $(libexecdir)/clpi/list_clip
target/tools/clip target/install/clip: target/%/clip: target/%/list_program $(sources) $(library) Makefile
	@$(has_compiler)
	$(CC) $(STRICT) $(CFLAGS) $(CPPFLAGS) -DLIST_PROGRAM='"$(list_program)"' -I include -I examples tools/clip.c \
	    $(library) $(LDFLAGS) -o $@.$$$$ && mv $@.$$$$ $@

target/tools/list_program target/install/list_program: FORCE
	@mkdir -p $(@D)
	@printf '%s\n' '$(list_program)' | cmp -s - $@ || printf '%s\n' '$(list_program)' >$@

test:
	./test

install: all
	$(INSTALL) -d '$(DESTDIR)$(bindir)' '$(DESTDIR)$(libdir)' '$(DESTDIR)$(libexecdir)/clpi' '$(DESTDIR)$(includedir)' \
	    '$(DESTDIR)$(pkgconfigdir)' '$(DESTDIR)$(mandir)/man1' '$(DESTDIR)$(mandir)/man3' '$(DESTDIR)$(docdir)/examples'
	$(INSTALL) -m 755 target/install/clip '$(DESTDIR)$(bindir)/clip'
	$(INSTALL) -m 755 $(lister) '$(DESTDIR)$(libexecdir)/clpi/list_clip'
	$(INSTALL) -m 644 $(library) '$(DESTDIR)$(libdir)/libclpi.a'
	$(INSTALL) -m 644 include/clpi.h '$(DESTDIR)$(includedir)/clpi.h'
	$(INSTALL) -m 644 man/clip.1 '$(DESTDIR)$(mandir)/man1/clip.1'
	$(INSTALL) -m 644 man/clpi.3 '$(DESTDIR)$(mandir)/man3/clpi.3'
	$(INSTALL) -m 644 NOTICE '$(DESTDIR)$(docdir)/NOTICE'
	$(INSTALL) -m 644 $(addprefix examples/,$(examples)) '$(DESTDIR)$(docdir)/examples'
	sed -e 's|@prefix@|$(prefix)|' -e 's|@includedir@|$(includedir)|' -e 's|@libdir@|$(libdir)|' \
	    -e 's|@version@|$(VERSION)|' tools/clpi.pc.in >'$(DESTDIR)$(pkgconfigdir)/clpi.pc'
	chmod 644 '$(DESTDIR)$(pkgconfigdir)/clpi.pc'

# Folders are left but for the three that are its own, and these too where something else is in them.
uninstall:
	rm -f '$(DESTDIR)$(bindir)/clip' '$(DESTDIR)$(libexecdir)/clpi/list_clip' '$(DESTDIR)$(libdir)/libclpi.a' \
	    '$(DESTDIR)$(includedir)/clpi.h' '$(DESTDIR)$(mandir)/man1/clip.1' '$(DESTDIR)$(mandir)/man3/clpi.3' \
	    '$(DESTDIR)$(docdir)/NOTICE' '$(DESTDIR)$(pkgconfigdir)/clpi.pc' \
	    $(foreach name,$(examples),'$(DESTDIR)$(docdir)/examples/$(name)')
	rmdir '$(DESTDIR)$(libexecdir)/clpi' '$(DESTDIR)$(docdir)/examples' '$(DESTDIR)$(docdir)' 2>/dev/null || true

clean:
	rm -rf target tests/target bench/target
