# make builds the library, the words of its refusals and the command postlapse; make install puts them, the header, the pkg-config file and
# the man page under PREFIX, before which DESTDIR stands; make uninstall takes them away. GNU make, ar, a C compiler; tools/build, which
# proves the library where it is missing or a source is newer, takes the toolchain of Rattle and cargo.

VERSION = 1.0.0
PREFIX = /usr/local
DESTDIR =

CFLAGS ?= -O2
INSTALL = install

LIBRARY = target/staticlib/libpostlapse.a
WORDS = target/staticlib/libpostlapse_words.a
COMMAND = target/bin/postlapse
TO = $(DESTDIR)$(PREFIX)

all: $(WORDS)
	tools/build fresh || tools/build command

$(WORDS): c/words.c include/postlapse.h
	mkdir -p target/c target/staticlib
	$(CC) -std=c99 -fPIC $(CPPFLAGS) $(CFLAGS) -Iinclude -c c/words.c -o target/c/words.o
	rm -f $@
	$(AR) rcs $@ target/c/words.o

# PREFIX stands in the pkg-config file as pkg-config reads it, a space after a backslash; the signs that sed takes for its own are marked
install: all
	$(INSTALL) -d "$(TO)/lib/pkgconfig" "$(TO)/include" "$(TO)/bin" "$(TO)/share/man/man1" \
		"$(TO)/share/bash-completion/completions" "$(TO)/share/doc/postlapse"
	$(INSTALL) -m 644 $(LIBRARY) $(WORDS) "$(TO)/lib"
	$(INSTALL) -m 644 include/postlapse.h "$(TO)/include"
	sed -e "s|@PREFIX@|$$(printf '%s' '$(PREFIX)' | sed -e 's/ /\\ /g' -e 's/[\\&|]/\\&/g')|" -e 's/@VERSION@/$(VERSION)/' \
		share/postlapse.pc.in >"$(TO)/lib/pkgconfig/postlapse.pc"
	chmod 644 "$(TO)/lib/pkgconfig/postlapse.pc"
	$(INSTALL) -m 755 $(COMMAND) "$(TO)/bin"
	$(INSTALL) -m 644 share/postlapse.1 "$(TO)/share/man/man1"
	$(INSTALL) -m 644 share/postlapse.bash "$(TO)/share/bash-completion/completions/postlapse"
	$(INSTALL) -m 644 LICENSE NOTICE "$(TO)/share/doc/postlapse"

uninstall:
	rm -f "$(TO)/lib/libpostlapse.a" "$(TO)/lib/libpostlapse_words.a" "$(TO)/include/postlapse.h" "$(TO)/lib/pkgconfig/postlapse.pc" \
		"$(TO)/bin/postlapse" "$(TO)/share/man/man1/postlapse.1" "$(TO)/share/bash-completion/completions/postlapse" \
		"$(TO)/share/doc/postlapse/LICENSE" "$(TO)/share/doc/postlapse/NOTICE"
	-rmdir "$(TO)/share/doc/postlapse"

test: all
	tests/all

.PHONY: all install uninstall test
