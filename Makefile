# Installs the proved programs with what belongs to them, and makes packages of the same.
#
#   make install    PREFIX=/usr/local and DESTDIR= say where
#   make uninstall  removes what install puts there
#   make package    ptmreplay-VERSION.tar.gz and ptmreplay_VERSION_amd64.deb in OUT=out, for machines without Rattle's kit
#
# The programs are proved and built first where that is due, which needs the kit and takes long.
PREFIX ?= /usr/local
DESTDIR ?=
OUT ?= out
CRATES = ptmreplay kernel_calls
TOOLS = heapmap whatif record heap_of trace_of
# The day of the last change, as a version, and its name.
VERSION := $(shell git log -1 --format=0.%cd.%h --date=format:%Y%m%d 2>/dev/null || echo 0)
MAINTAINER ?= nobody <nobody@localhost>

bin = $(DESTDIR)$(PREFIX)/bin
# The programs as the tools look for them: two folders above a tool's own.
own = $(DESTDIR)$(PREFIX)/libexec/ptmreplay
man = $(DESTDIR)$(PREFIX)/share/man/man1
doc = $(DESTDIR)$(PREFIX)/share/doc/ptmreplay
completions = $(DESTDIR)$(PREFIX)/share/bash-completion/completions
package = $(OUT)/ptmreplay_$(VERSION)_amd64
archive = $(OUT)/ptmreplay-$(VERSION)

help:
	@sed -n 's/^# \{0,3\}//;1,7p' Makefile

programs:
	@for name in $(CRATES); do tools/start --build $$name || exit; done

record:
	@$(MAKE) -s -C tools/record

install: programs record
	install -d "$(bin)" "$(own)" "$(man)" "$(doc)" "$(completions)"
	for name in $(CRATES); do \
	    install -m 755 crates/$$name/out/$$name "$(own)/$$name" && \
	    ln -sf ../libexec/ptmreplay/$$name "$(bin)/$$name" || exit; \
	done
	for name in $(TOOLS); do \
	    install -d "$(own)/tools/$$name" && \
	    install -m 755 tools/$$name/$$name "$(own)/tools/$$name" && \
	    install -m 644 tools/$$name/README.md "$(doc)/$$name.md" && \
	    ln -sf ../libexec/ptmreplay/tools/$$name/$$name "$(bin)/$$name" || exit; \
	done
	install -m 644 tools/heapmap/heap_*.py tools/heapmap/*.js tools/heapmap/*.css "$(own)/tools/heapmap"
	install -m 644 tools/whatif/whatif_*.py "$(own)/tools/whatif"
	install -m 644 tools/heap_of/*_*.py "$(own)/tools/heap_of"
	install -m 644 tools/trace_of/*_*.py "$(own)/tools/trace_of"
	install -m 755 tools/record/record.so "$(own)/tools/record"
	strip "$(own)/tools/record/record" "$(own)/tools/record/record.so"
	install -m 644 docs/ptmreplay.1 "$(man)"
	install -m 644 README.md docs/FORMATS.md "$(doc)"
	install -m 644 tools/completion/ptmreplay.bash "$(completions)/ptmreplay"

uninstall:
	for name in $(CRATES) $(TOOLS); do rm -f "$(bin)/$$name" || exit; done
	rm -f "$(man)/ptmreplay.1" "$(completions)/ptmreplay"
	rm -rf "$(own)" "$(doc)"

# The newest version of the C library that a program asks for is the one that the package depends on.
package:
	rm -rf "$(package)" "$(archive)"
	$(MAKE) -s install DESTDIR="$(package)" PREFIX=/usr
	mkdir -p "$(package)/DEBIAN"
	tools/control '$(VERSION)' '$(MAINTAINER)' "$(package)" >"$(package)/DEBIAN/control"
	dpkg-deb --root-owner-group --build "$(package)" "$(package).deb"
	rm -rf "$(package)"
	$(MAKE) -s install DESTDIR="$(archive)" PREFIX=
	tar -C "$(OUT)" --owner=0 --group=0 -czf "$(archive).tar.gz" "ptmreplay-$(VERSION)"
	rm -rf "$(archive)"

.PHONY: help programs record install uninstall package
