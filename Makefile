# make install PREFIX=/usr/local copies the programs that release/ holds, a manual page for each, and the documents;
# make uninstall takes them away again. DESTDIR is put before every path, for whoever makes packages. Nothing is built.
PREFIX = /usr/local
DESTDIR =
PROGRAMS = $(patsubst release/%.x86_64-linux,%,$(wildcard release/*.x86_64-linux))
ROOT = $(DESTDIR)$(PREFIX)

install:
	install -d "$(ROOT)/bin" "$(ROOT)/lib/1-2-3/release" "$(ROOT)/lib/1-2-3/scripts" "$(ROOT)/share/man/man1" \
	    "$(ROOT)/share/doc/1-2-3"
	install -m 644 VERSION "$(ROOT)/lib/1-2-3"
	install -m 644 release/built_from "$(ROOT)/lib/1-2-3/release"
	install -m 644 scripts/launch "$(ROOT)/lib/1-2-3/scripts"
	install -m 644 README.md CHANGELOG.md docs/*.md "$(ROOT)/share/doc/1-2-3"
	for name in $(PROGRAMS); do \
	    install -m 755 "release/$$name.x86_64-linux" "$(ROOT)/lib/1-2-3/release" && \
	    install -m 755 "$$name" "$(ROOT)/lib/1-2-3" && \
	    install -m 644 "man/$$name.1" "$(ROOT)/share/man/man1" && \
	    ln -sf "../lib/1-2-3/$$name" "$(ROOT)/bin/$$name" || exit 1; \
	done

uninstall:
	rm -rf "$(ROOT)/lib/1-2-3" "$(ROOT)/share/doc/1-2-3"
	for name in $(PROGRAMS); do rm -f "$(ROOT)/bin/$$name" "$(ROOT)/share/man/man1/$$name.1"; done

.PHONY: install uninstall
