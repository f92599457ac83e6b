# make            the archive libforeituka.a (the first time this proves everything in it, which takes a while) and the command ./foreituka
# make check      the command's tests
# make install    header, archive, command, man page and pkg-config file; PREFIX=/usr/local, DESTDIR= stands before every path
# make uninstall, make clean; make distclean removes the proved crates too
#
# JUDGE_ARCHIVE=FILE in the environment or on the line: FILE is the archive already, and nothing is proved.
PREFIX = /usr/local
BINDIR = $(PREFIX)/bin
INCLUDEDIR = $(PREFIX)/include
LIBDIR = $(PREFIX)/lib
MANDIR = $(PREFIX)/share/man
DESTDIR =
CFLAGS = -O2
INSTALL = install
WARNINGS = -std=c11 -pedantic -Wall -Wextra -Werror
archive := $(or $(JUDGE_ARCHIVE),target/staticlib/libforeituka.a)
version := $(shell sed -n 's/.*FOREITUKA_VERSION "\(.*\)"/\1/p' include/foreituka.h)

all: foreituka

# tools/archive knows whether anything has changed
ifeq ($(JUDGE_ARCHIVE),)
$(archive): always
	@tools/archive >/dev/null
endif

foreituka: command/foreituka.c include/foreituka.h $(archive)
	$(CC) $(CFLAGS) $(WARNINGS) -Iinclude command/foreituka.c $(archive) -lm $(LDFLAGS) -o $@

check: foreituka
	JUDGE_ARCHIVE='$(abspath $(archive))' command/check

# written each time: the paths may be others than before
target/foreituka.pc: foreituka.pc.in always
	@mkdir -p target
	@sed -e 's|@PREFIX@|$(PREFIX)|' -e 's|@INCLUDEDIR@|$(INCLUDEDIR)|' -e 's|@LIBDIR@|$(LIBDIR)|' -e 's|@VERSION@|$(version)|' foreituka.pc.in >$@

install: foreituka target/foreituka.pc
	$(INSTALL) -d '$(DESTDIR)$(BINDIR)' '$(DESTDIR)$(INCLUDEDIR)' '$(DESTDIR)$(LIBDIR)/pkgconfig' '$(DESTDIR)$(MANDIR)/man1'
	$(INSTALL) -m 755 foreituka '$(DESTDIR)$(BINDIR)/foreituka'
	$(INSTALL) -m 644 include/foreituka.h '$(DESTDIR)$(INCLUDEDIR)/foreituka.h'
	$(INSTALL) -m 644 $(archive) '$(DESTDIR)$(LIBDIR)/libforeituka.a'
	$(INSTALL) -m 644 target/foreituka.pc '$(DESTDIR)$(LIBDIR)/pkgconfig/foreituka.pc'
	$(INSTALL) -m 644 man/foreituka.1 '$(DESTDIR)$(MANDIR)/man1/foreituka.1'

uninstall:
	rm -f '$(DESTDIR)$(BINDIR)/foreituka' '$(DESTDIR)$(INCLUDEDIR)/foreituka.h' '$(DESTDIR)$(LIBDIR)/libforeituka.a' \
	  '$(DESTDIR)$(LIBDIR)/pkgconfig/foreituka.pc' '$(DESTDIR)$(MANDIR)/man1/foreituka.1'

# what the prover keeps of proved crates stays
clean:
	rm -rf foreituka target/foreituka.pc target/staticlib target/archive.*

# all of target/ and what the prover keeps: the next build proves everything
distclean: clean
	rm -rf target crates/*/out

always:
.PHONY: all check install uninstall clean distclean always
