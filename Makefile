# make                                           the program, made current where it isn't there or is older than an edit
# make install [PREFIX=/usr/local] [DESTDIR=]    the program, its man page and its completions
# make uninstall                                 takes them away again
# make dist                                      dist/sf-VERSION-x86_64-linux.tar.gz, which holds all of that
# make library                                   dist/sf-library-VERSION.tar.gz: the crates that a program of one's own needs
# make c                                         dist/libsf.a, libsf.so, sf.h, sf_c.h and libsf.pc, for C: proved and built by rt.
#                                                Once they are there, make install puts them in place, too
# make check                                     tests the program and the pages (./test)
# make wheel                                     dist/sf_scan-VERSION-py3-none-linux_x86_64.whl: for Python, over what make c builds
# make prebuilt                                  proves and builds the program here, and packs it in prebuilt/
#
# The program is the prebuilt one where that is of the sources that stand here. Else it is proved and built first, by the
# kit's rt.

PREFIX ?= /usr/local
BINDIR ?= $(PREFIX)/bin
MANDIR ?= $(PREFIX)/share/man
BASHDIR ?= $(PREFIX)/share/bash-completion/completions
FISHDIR ?= $(PREFIX)/share/fish/vendor_completions.d
# (the shell zsh looks for packages' completions elsewhere than for those of /usr/local)
ifeq ($(PREFIX),/usr)
ZSHDIR ?= $(PREFIX)/share/zsh/vendor-completions
else
ZSHDIR ?= $(PREFIX)/share/zsh/site-functions
endif
LIBDIR ?= $(PREFIX)/lib
INCLUDEDIR ?= $(PREFIX)/include
INSTALL ?= install

PROGRAM = crates/sf/out/sf

# The version stands in the source of the command line alone.
VERSION = $(shell sed -n 's/^const VERSION: &str = "\(.*\)";$$/\1/p' crates/sf_words/src/line.rt)
DIST = sf-$(VERSION)-x86_64-linux
STAGE = dist/$(DIST)
LIBRARY = sf-library-$(VERSION)
CRATES = dist/$(LIBRARY)
# The time of each file in an archive, so that the same files make the same archive: 2026-01-01, if none is given.
SOURCE_DATE_EPOCH ?= 1767225600
AS_NOBODY = --owner=0 --group=0 --numeric-owner --mode=u=rwX,go=rX
PACK = tar -C dist --format=ustar --sort=name --mtime="@$(SOURCE_DATE_EPOCH)" $(AS_NOBODY)

all:
	./sf --build

# What C needs: the archive of crates/sf_c with the kit's calls of malloc, and c/sf.c over them.
C_FLAGS = -std=c11 -O2 -fPIC -Wall -Wextra
C_LIBRARY = dist/libsf.so

c:
	cd crates/sf_c && rt lib
	$(MAKE) --no-print-directory c-linked

# (of the archive that stands there: the gate makes it over the libraries that it has proved)
c-linked:
	rm -rf dist/c && mkdir -p dist/c
	gcc $(C_FLAGS) $(CFLAGS) -c -o dist/c/sf.o c/sf.c
	cd dist/c && for it in ../../crates/sf_c/out/libsf_c.a "$$(dirname "$$(rt doc)")/c/liblibc_c.a"; do ar x "$$it"; done
	rm -f dist/libsf.a && ar rcsD dist/libsf.a dist/c/*.o
	printf '{ global: sf_*; local: *; };\n' >dist/c/exports
	gcc -shared -s -Wl,--gc-sections,--build-id=none,-soname,libsf.so,--version-script,dist/c/exports -o dist/libsf.so dist/c/*.o
	cp c/sf.h c/sf_c.h dist
	sed 's/@VERSION@/$(VERSION)/' c/libsf.pc.in >dist/libsf.pc
	rm -rf dist/c

install: all
	$(INSTALL) -d "$(DESTDIR)$(BINDIR)" "$(DESTDIR)$(MANDIR)/man1" "$(DESTDIR)$(BASHDIR)" "$(DESTDIR)$(ZSHDIR)" "$(DESTDIR)$(FISHDIR)"
	$(INSTALL) -m 755 $(PROGRAM) "$(DESTDIR)$(BINDIR)/sf"
	$(INSTALL) -m 644 man/sf.1 "$(DESTDIR)$(MANDIR)/man1/sf.1"
	$(INSTALL) -m 644 completions/sf.bash "$(DESTDIR)$(BASHDIR)/sf"
	$(INSTALL) -m 644 completions/_sf "$(DESTDIR)$(ZSHDIR)/_sf"
	$(INSTALL) -m 644 completions/sf.fish "$(DESTDIR)$(FISHDIR)/sf.fish"
	if [ -e "$(C_LIBRARY)" ]; then $(MAKE) --no-print-directory install-c; fi

install-c:
	$(INSTALL) -d "$(DESTDIR)$(LIBDIR)/pkgconfig" "$(DESTDIR)$(INCLUDEDIR)"
	$(INSTALL) -m 644 dist/libsf.a "$(DESTDIR)$(LIBDIR)"
	$(INSTALL) -m 755 dist/libsf.so "$(DESTDIR)$(LIBDIR)"
	$(INSTALL) -m 644 dist/sf.h dist/sf_c.h "$(DESTDIR)$(INCLUDEDIR)"
	sed 's:@LIBDIR@:$(LIBDIR):; s:@INCLUDEDIR@:$(INCLUDEDIR):' dist/libsf.pc >"$(DESTDIR)$(LIBDIR)/pkgconfig/libsf.pc"

uninstall:
	rm -f "$(DESTDIR)$(BINDIR)/sf" "$(DESTDIR)$(MANDIR)/man1/sf.1" "$(DESTDIR)$(BASHDIR)/sf" "$(DESTDIR)$(ZSHDIR)/_sf" "$(DESTDIR)$(FISHDIR)/sf.fish"
	rm -f "$(DESTDIR)$(LIBDIR)/libsf.a" "$(DESTDIR)$(LIBDIR)/libsf.so" "$(DESTDIR)$(LIBDIR)/pkgconfig/libsf.pc"
	rm -f "$(DESTDIR)$(INCLUDEDIR)/sf.h" "$(DESTDIR)$(INCLUDEDIR)/sf_c.h"

dist: all
	test "$$(./sf --version)" = "sf $(VERSION)"
	rm -rf "$(STAGE)"
	$(MAKE) --no-print-directory install DESTDIR= C_LIBRARY= PREFIX="$(STAGE)" BINDIR="$(STAGE)/bin" MANDIR="$(STAGE)/share/man" \
		BASHDIR="$(STAGE)/share/bash-completion/completions" ZSHDIR="$(STAGE)/share/zsh/site-functions" \
		FISHDIR="$(STAGE)/share/fish/vendor_completions.d"
	$(INSTALL) -m 644 LICENSE NOTICE prebuilt/COPYING.LIB "$(STAGE)"
	$(INSTALL) -m 644 prebuilt/README.dist "$(STAGE)/README"
	$(PACK) -cf "$(STAGE).tar" "$(DIST)"
	gzip -9nf "$(STAGE).tar"
	rm -rf "$(STAGE)"

library:
	rm -rf "$(CRATES)"
	tools/vendor "$(CRATES)" example_sum
	mv "$(CRATES)/LICENSE.sf" "$(CRATES)/LICENSE"
	rm -rf "$(CRATES)/.git"
	mkdir "$(CRATES)/tools"
	cp tools/vendor "$(CRATES)/tools"
	$(INSTALL) -m 644 prebuilt/README.library "$(CRATES)/README"
	$(PACK) -cf "$(CRATES).tar" "$(LIBRARY)"
	gzip -9nf "$(CRATES).tar"
	rm -rf "$(CRATES)"

.PHONY: wheel
wheel:
	if command -v rt >/dev/null; then $(MAKE) --no-print-directory c; fi
	SOURCE_DATE_EPOCH=$(SOURCE_DATE_EPOCH) python/wheel

check:
	./test

prebuilt:
	prebuilt/pack

.PHONY: all c c-linked install install-c uninstall dist library check prebuilt
