# Builds, tests and installs the command yinqocha and the library (GNU make).
#
#     make              target/desk/yinqocha, and first what is proved, where that is not there or not up to date
#     make sanitized    target/desk-sanitized/yinqocha, with the address and undefined-behaviour sanitizers
#     make check        the tests of the desk and of the install
#     make install      to the folders below PREFIX (/usr/local); with DESTDIR, to the same folders below DESTDIR
#     make uninstall    removes what install installed with the same variables
#     make clean        removes what was compiled from C; what was proved stays
#
# Everything is made below target/, but for what rt makes in crates/*/out. CC, CFLAGS and LDFLAGS may come from the command line or the environment.

VERSION = 0.1.0

PREFIX = /usr/local
BINDIR = $(PREFIX)/bin
LIBDIR = $(PREFIX)/lib
INCLUDEDIR = $(PREFIX)/include
MANDIR = $(PREFIX)/share/man
PKGCONFIGDIR = $(LIBDIR)/pkgconfig
BASHCOMPDIR = $(PREFIX)/share/bash-completion/completions

CFLAGS ?= -O2
LDFLAGS ?= -pie -Wl,-z,relro -Wl,-z,now
INSTALL = install

# The prover. Where there is none, the archive and the program that are there are used as they are.
RT = rt

always = -std=c11 -D_POSIX_C_SOURCE=200809L -Wall -Wextra -Wconversion -Werror \
    -DYINQOCHA_VERSION='"$(VERSION)"' -Idesk -Iinclude -MMD -MP
# The checks of _FORTIFY_SOURCE need a compiler that optimizes.
fortify = $(if $(filter -O1 -O2 -O3 -Os,$(CFLAGS)),-U_FORTIFY_SOURCE -D_FORTIFY_SOURCE=2)
hardening = $(fortify) -fstack-protector-strong -fPIE
sanitizers = -O1 -g -fsanitize=address,undefined -fno-sanitize-recover=all -fno-omit-frame-pointer

archive = crates/yinqocha/out/libyinqocha.a
bay = crates/bay/out/bay
command = target/desk/yinqocha
sanitized = target/desk-sanitized/yinqocha

sources = $(wildcard desk/*/*.c)
objects = $(sources:desk/%.c=target/desk/%.o)
sanitized_objects = $(sources:desk/%.c=target/desk-sanitized/%.o)
proved_sources = crates.txt $(shell find crates -path 'crates/*/out' -prune -o \( -name '*.rt' -o -name '*.antt' \) -print)

# The page of the library is found under each function's name too.
functions = write read plan best compare check_plan check_set check_page
pages = $(patsubst man/%,target/desk/man/%,$(wildcard man/*.[135]))
function_pages = $(functions:%=target/desk/man/yinqocha_%.3)

all: $(command) $(bay) $(pages) $(function_pages)

$(command): $(objects) $(archive) target/desk/link
	$(CC) $(CFLAGS) $(LDFLAGS) -o $@ $(objects) $(archive)

target/desk/%.o: desk/%.c target/desk/compile
	@mkdir -p $(@D)
	$(CC) $(always) $(hardening) $(CFLAGS) -c -o $@ $<

sanitized: $(sanitized) $(sanitized_objects)

$(sanitized): $(sanitized_objects) $(archive)
	$(CC) $(sanitizers) -o $@ $(sanitized_objects) $(archive)

target/desk-sanitized/%.o: desk/%.c target/desk-sanitized/compile
	@mkdir -p $(@D)
	$(CC) $(always) $(sanitizers) -c -o $@ $<

# A command line, kept in a file that is written only where it differs from the one that was used last.
keep = mkdir -p $(@D) && printf '%s\n' '$(subst ','\'',$(1))' | cmp -s - $@ || printf '%s\n' '$(subst ','\'',$(1))' >$@

target/desk/compile: FORCE
	@$(call keep,$(CC) $(always) $(hardening) $(CFLAGS))

target/desk/link: FORCE
	@$(call keep,$(CC) $(CFLAGS) $(LDFLAGS))

target/desk-sanitized/compile: FORCE
	@$(call keep,$(CC) $(always) $(sanitizers))

target/desk/version: FORCE
	@$(call keep,$(VERSION))

# What is proved, by a command of rt in the folder of a crate. rt itself finds out what is to be proved again; touch tells
# make that it has. The two are made one after the other: the second finds the libraries that the first proved. rt runs a
# program that it makes, here with an empty input.
prove = if command -v $(RT) >/dev/null 2>&1; then \
        echo "$(RT) $(2) in crates/$(1): proves the sources of $@, which takes long the first time"; \
        (cd crates/$(1) && $(RT) $(2)) </dev/null >target/desk/rt.log 2>&1 || \
            { cat target/desk/rt.log >&2; exit 1; }; touch -c $@; \
    elif [ -f $@ ]; then echo "$@ is older than its sources and used as it is, for there is no $(RT)"; \
    else echo "$@ is not there, and there is no $(RT) to make it" >&2; exit 1; fi

$(archive): $(proved_sources)
	@mkdir -p target/desk
	@$(call prove,yinqocha,lib)

$(bay): $(proved_sources) | $(archive)
	@mkdir -p target/desk
	@$(call prove,bay,run)

target/desk/man/%: man/% target/desk/version
	@mkdir -p $(@D)
	sed 's/@VERSION@/$(VERSION)/' $< >$@

$(function_pages):
	@mkdir -p $(@D)
	echo '.so man3/yinqocha.3' >$@

check: all sanitized
	tests/desk/run
	tests/install

# A folder as the .pc file has it, told from the prefix that stands there.
pc_path = $(subst $(PREFIX)/,$${prefix}/,$(1))

install: all
	$(INSTALL) -D -m 755 $(command) "$(DESTDIR)$(BINDIR)/yinqocha"
	$(INSTALL) -D -m 755 $(bay) "$(DESTDIR)$(BINDIR)/bay"
	$(INSTALL) -D -m 644 $(archive) "$(DESTDIR)$(LIBDIR)/libyinqocha.a"
	$(INSTALL) -D -m 644 include/yinqocha.h "$(DESTDIR)$(INCLUDEDIR)/yinqocha.h"
	$(INSTALL) -D -m 644 yinqocha.pc.in "$(DESTDIR)$(PKGCONFIGDIR)/yinqocha.pc"
	sed -e 's|@PREFIX@|$(PREFIX)|' -e 's|@LIBDIR@|$(call pc_path,$(LIBDIR))|' \
	    -e 's|@INCLUDEDIR@|$(call pc_path,$(INCLUDEDIR))|' -e 's|@VERSION@|$(VERSION)|' \
	    yinqocha.pc.in >"$(DESTDIR)$(PKGCONFIGDIR)/yinqocha.pc"
	$(INSTALL) -D -m 644 desk/completion.bash "$(DESTDIR)$(BASHCOMPDIR)/yinqocha"
	for page in $(pages) $(function_pages); do \
	    $(INSTALL) -D -m 644 $$page "$(DESTDIR)$(MANDIR)/man$${page##*.}/$${page##*/}" || exit 1; \
	done

uninstall:
	rm -f "$(DESTDIR)$(BINDIR)/yinqocha" "$(DESTDIR)$(BINDIR)/bay"
	rm -f "$(DESTDIR)$(LIBDIR)/libyinqocha.a" "$(DESTDIR)$(INCLUDEDIR)/yinqocha.h"
	rm -f "$(DESTDIR)$(PKGCONFIGDIR)/yinqocha.pc" "$(DESTDIR)$(BASHCOMPDIR)/yinqocha"
	for page in $(pages) $(function_pages); do \
	    rm -f "$(DESTDIR)$(MANDIR)/man$${page##*.}/$${page##*/}" || exit 1; \
	done

clean:
	rm -rf target/desk target/desk-sanitized

FORCE:

.PHONY: all check clean install sanitized uninstall FORCE
.DELETE_ON_ERROR:

-include $(objects:.o=.d) $(sanitized_objects:.o=.d)
