# The library for C and C++, below a prefix. It is proved and built by bindings/build, unless KNIFESILVER_ARCHIVE
# names an archive of the crate that is. The program coap, where it is built, goes along with its man page and
# completions of shells. (A package of tools/package has all of this, and needs no prover.)
#
#   make                                         builds it in bindings/out
#   make install PREFIX=/usr/local DESTDIR=      and uninstall, with the same words
#   make check                                   tries it (bindings/check)
PREFIX ?= /usr/local
DESTDIR ?=
BUILT ?= bindings/out
INSTALL ?= install
PROGRAM ?= crates/coap/out/coap
headers := $(notdir $(wildcard bindings/include/*.h bindings/include/*.hpp))
into := $(DESTDIR)$(PREFIX)
doc := $(into)/share/doc/knifesilver
pc := $(into)/lib/pkgconfig/knifesilver.pc
words := $(shell cd tools/packaging/share && find . -type f)

.PHONY: all install uninstall check
all:
	bindings/build --prefix $(BUILT) >/dev/null

install: all
	$(INSTALL) -d $(into)/include $(into)/lib/pkgconfig $(doc)
	$(INSTALL) -m 644 $(headers:%=bindings/include/%) $(into)/include/
	$(INSTALL) -m 644 $(BUILT)/lib/libknifesilver.a $(into)/lib/
	sed 's|^prefix=.*|prefix=$${pcfiledir}/../..|' $(BUILT)/lib/pkgconfig/knifesilver.pc >$(pc)
	$(INSTALL) -m 644 LICENSE $(doc)/
ifneq ($(wildcard $(PROGRAM)),)
	$(INSTALL) -D -m 755 $(PROGRAM) $(into)/bin/coap
	$(foreach it,$(words),$(INSTALL) -D -m 644 tools/packaging/share/$(it) $(into)/share/$(it) &&) :
else
	@echo "the program coap is not built (./coap), so neither it nor its man page and completions are installed"
endif

uninstall:
	rm -f $(headers:%=$(into)/include/%) $(into)/lib/libknifesilver.a $(pc) $(doc)/LICENSE
	rm -f $(into)/bin/coap $(words:%=$(into)/share/%)

check:
	bindings/check
