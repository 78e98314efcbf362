# The library for C.
#
#     make                                proves what is left to prove and writes out/liboskuramos.a (needs `rt`)
#     make install PREFIX=$HOME/.local    header, archive, code table, pkg-config file, manual page and bash completion; DESTDIR goes before every path
#     make uninstall PREFIX=$HOME/.local
#     make check                          calls the archive from C and from Rust
#
# The whole test is tests/run.

PREFIX ?= /usr/local
INCLUDEDIR ?= $(PREFIX)/include
LIBDIR ?= $(PREFIX)/lib
DATADIR ?= $(PREFIX)/share
MANDIR ?= $(DATADIR)/man
INSTALL ?= install

archive = out/liboskuramos.a
version = $(shell sed -n 's/^.define OSKURAMOS_VERSION "\(.*\)"$$/\1/p' include/oskuramos.h)

header = $(DESTDIR)$(INCLUDEDIR)/oskuramos.h
library = $(DESTDIR)$(LIBDIR)/liboskuramos.a
described = $(DESTDIR)$(LIBDIR)/pkgconfig/oskuramos.pc
codes = $(DESTDIR)$(DATADIR)/oskuramos/access2000.codes
licences = $(DESTDIR)$(DATADIR)/doc/oskuramos
manual = $(DESTDIR)$(MANDIR)/man1/oskuramos.1
completion = $(DESTDIR)$(DATADIR)/bash-completion/completions/oskuramos

.PHONY: all check install uninstall
all:
	tools/archive

check:
	tests/library

# `make install` needs no `rt` where the archive is there.
$(archive):
	tools/archive

install: $(archive)
	@case "$(PREFIX)" in /*) ;; *) echo "PREFIX must be a whole path, from / on: $(PREFIX) isn't" >&2; exit 2 ;; esac
	$(INSTALL) -d "$(DESTDIR)$(INCLUDEDIR)" "$(DESTDIR)$(LIBDIR)/pkgconfig" "$(DESTDIR)$(DATADIR)/oskuramos" "$(licences)"
	$(INSTALL) -m 644 include/oskuramos.h "$(header)"
	$(INSTALL) -m 644 $(archive) "$(library)"
	$(INSTALL) -m 644 data/access2000.codes "$(codes)"
	$(INSTALL) -m 644 LICENSE-MIT LICENSE-APACHE NOTICE "$(licences)"
	$(INSTALL) -D -m 644 man/oskuramos.1 "$(manual)"
	$(INSTALL) -D -m 644 completion/oskuramos.bash "$(completion)"
	sed -e 's|@PREFIX@|$(PREFIX)|' -e 's|@INCLUDEDIR@|$(INCLUDEDIR)|' -e 's|@LIBDIR@|$(LIBDIR)|' -e 's|@DATADIR@|$(DATADIR)|' \
	    -e 's|@VERSION@|$(version)|' include/oskuramos.pc.in > "$(described)"
	chmod 644 "$(described)"

uninstall:
	rm -f "$(header)" "$(library)" "$(described)" "$(codes)" "$(manual)" "$(completion)"
	rm -f "$(licences)/LICENSE-MIT" "$(licences)/LICENSE-APACHE" "$(licences)/NOTICE"
	rmdir "$(DESTDIR)$(DATADIR)/oskuramos" "$(licences)" 2> /dev/null || true
