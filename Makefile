# Builds and installs segtool and the library for C. Needs GNU make, a C compiler and, to build, Python 3 and Rattle's toolchain.
#
#   make                            proves and builds what isn't built yet
#   make install PREFIX=/usr/local  installs it below PREFIX, and below DESTDIR if that is set
#                                   (run ldconfig after it, if PREFIX/lib is one of the loader's folders)
#   make uninstall                  removes what `make install` with the same variables installed
#   make clean                      removes what was built, so that `make` proves and builds it anew
#
# `make` doesn't look at the sources: after a change of them, `make clean` comes first.
MAKEFLAGS += --no-builtin-rules
PREFIX ?= /usr/local
BINDIR ?= $(PREFIX)/bin
LIBDIR ?= $(PREFIX)/lib
INCLUDEDIR ?= $(PREFIX)/include
DATADIR ?= $(PREFIX)/share
MANDIR ?= $(DATADIR)/man
DOCDIR ?= $(DATADIR)/doc/lezgauri
BASHDIR ?= $(DATADIR)/bash-completion/completions
ZSHDIR ?= $(DATADIR)/zsh/site-functions
FISHDIR ?= $(DATADIR)/fish/vendor_completions.d
PKGCONFIGDIR ?= $(LIBDIR)/pkgconfig
CMAKEDIR ?= $(LIBDIR)/cmake/lezgauri
INSTALL ?= install

# The proved program and library. Others can be given, to install what was built elsewhere.
SEGTOOL ?= crates/segtool/out/segtool
ARCHIVE ?= crates/lezgauri_c/out/liblezgauri.a
OUT ?= out

HEADER := crates/lezgauri_c/include/lezgauri.h
CPP_HEADER := crates/lezgauri_c/include/lezgauri.hpp
VERSION := $(shell sed -n 's/^const VERSION: &str = "\([0-9.]*\) .*/\1/p' crates/cli_host/src/command_line.rt)
$(if $(VERSION),,$(error crates/cli_host/src/command_line.rt has no VERSION))
MAJOR := $(firstword $(subst ., ,$(VERSION)))
SONAME := liblezgauri.so.$(MAJOR)
SHARED := liblezgauri.so.$(VERSION)
# The functions of the header, which are all that the shared library exports.
OPEN := (
CALLS := $(shell sed -n 's/^[a-z].* \**\(lezgauri_[a-z_]*\)$(OPEN).*/\1/p' $(HEADER))

all: $(SEGTOOL) $(ARCHIVE) $(OUT)/$(SHARED)

crates/segtool/out/segtool:
	python3 build.py segtool

crates/lezgauri_c/out/liblezgauri.a:
	python3 build.py lezgauri_c

$(OUT)/exports.map: $(HEADER)
	@mkdir -p $(OUT)
	{ echo 'LEZGAURI_$(MAJOR) {'; echo 'global:'; printf '    %s;\n' $(CALLS); echo 'local:'; echo '    *;'; echo '};'; } > $@

# Links all of the static library. Fails if its code isn't position-independent, or if it needs more than the C library.
$(OUT)/$(SHARED): $(ARCHIVE) $(OUT)/exports.map
	$(CC) $(LDFLAGS) -shared -o $@ -Wl,-soname,$(SONAME) -Wl,--version-script=$(OUT)/exports.map -Wl,-Bsymbolic \
	  -Wl,-z,defs -Wl,-z,text -Wl,-z,relro -Wl,-z,now -Wl,--gc-sections -Wl,--whole-archive $(ARCHIVE) -Wl,--no-whole-archive
	nm -D --defined-only $@ | sed -n 's/.* [^A] \([^@]*\).*/\1/p' | sort > $(OUT)/exported
	printf '%s\n' $(CALLS) | sort | diff - $(OUT)/exported

# Puts the folders and the version into a file.
FILL = sed -e 's|@VERSION@|$(VERSION)|g' -e 's|@MAJOR@|$(MAJOR)|g' -e 's|@PREFIX@|$(PREFIX)|g' -e 's|@LIBDIR@|$(LIBDIR)|g' \
  -e 's|@INCLUDEDIR@|$(INCLUDEDIR)|g' -e 's|@CMAKEDIR@|$(CMAKEDIR)|g'

install: all
	$(INSTALL) -d $(addprefix $(DESTDIR),$(BINDIR) $(LIBDIR) $(INCLUDEDIR) $(PKGCONFIGDIR) $(CMAKEDIR) $(MANDIR)/man1 \
	  $(MANDIR)/man3 $(DOCDIR) $(BASHDIR) $(ZSHDIR) $(FISHDIR))
	$(INSTALL) -m 755 $(SEGTOOL) $(DESTDIR)$(BINDIR)/segtool
	$(INSTALL) -m 644 $(ARCHIVE) $(DESTDIR)$(LIBDIR)/liblezgauri.a
	$(INSTALL) -m 755 $(OUT)/$(SHARED) $(DESTDIR)$(LIBDIR)/$(SHARED)
	ln -sf $(SHARED) $(DESTDIR)$(LIBDIR)/$(SONAME)
	ln -sf $(SONAME) $(DESTDIR)$(LIBDIR)/liblezgauri.so
	$(INSTALL) -m 644 $(HEADER) $(CPP_HEADER) $(DESTDIR)$(INCLUDEDIR)
	$(FILL) packaging/lezgauri.pc.in > $(DESTDIR)$(PKGCONFIGDIR)/lezgauri.pc
	$(FILL) packaging/lezgauriConfig.cmake.in > $(DESTDIR)$(CMAKEDIR)/lezgauriConfig.cmake
	$(FILL) packaging/lezgauriConfigVersion.cmake.in > $(DESTDIR)$(CMAKEDIR)/lezgauriConfigVersion.cmake
	chmod 644 $(DESTDIR)$(PKGCONFIGDIR)/lezgauri.pc $(DESTDIR)$(CMAKEDIR)/lezgauriConfig.cmake \
	  $(DESTDIR)$(CMAKEDIR)/lezgauriConfigVersion.cmake
	$(INSTALL) -m 644 packaging/segtool.1 $(DESTDIR)$(MANDIR)/man1/segtool.1
	$(INSTALL) -m 644 packaging/lezgauri.3 $(DESTDIR)$(MANDIR)/man3/lezgauri.3
	for call in $(CALLS); do ln -sf lezgauri.3 $(DESTDIR)$(MANDIR)/man3/$$call.3 || exit 1; done
	$(INSTALL) -m 644 packaging/completion/segtool.bash $(DESTDIR)$(BASHDIR)/segtool
	$(INSTALL) -m 644 packaging/completion/_segtool $(DESTDIR)$(ZSHDIR)/_segtool
	$(INSTALL) -m 644 packaging/completion/segtool.fish $(DESTDIR)$(FISHDIR)/segtool.fish
	$(INSTALL) -m 644 LICENSE docs/FORMATS.md docs/TUTORIAL.md $(DESTDIR)$(DOCDIR)

uninstall:
	rm -f $(addprefix $(DESTDIR),$(BINDIR)/segtool $(addprefix $(LIBDIR)/,liblezgauri.a $(SHARED) $(SONAME) liblezgauri.so) \
	  $(addprefix $(INCLUDEDIR)/,lezgauri.h lezgauri.hpp) $(PKGCONFIGDIR)/lezgauri.pc \
	  $(addprefix $(CMAKEDIR)/,lezgauriConfig.cmake lezgauriConfigVersion.cmake) \
	  $(MANDIR)/man1/segtool.1 $(MANDIR)/man3/lezgauri.3 $(CALLS:%=$(MANDIR)/man3/%.3) $(BASHDIR)/segtool $(ZSHDIR)/_segtool \
	  $(FISHDIR)/segtool.fish $(addprefix $(DOCDIR)/,LICENSE FORMATS.md TUTORIAL.md))
	-rmdir $(DESTDIR)$(CMAKEDIR) $(DESTDIR)$(DOCDIR)

clean:
	rm -rf $(OUT)
	rm -f crates/segtool/out/segtool crates/lezgauri_c/out/liblezgauri.a

.DELETE_ON_ERROR:
# one proof at a time: it uses all processors
.NOTPARALLEL:
.PHONY: all install uninstall clean
