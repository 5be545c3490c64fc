# Installs the built program, the programs around it, and the manual.
#
#     make install PREFIX=/usr/local      what is installed is listed by `make -n install`
#     make uninstall PREFIX=/usr/local
#     make dist                           acmefs-VERSION.tar.gz: all of it, to be installed so elsewhere
#
# The program must be built: here `./acmefs replay < /dev/null` proves and builds it. Man pages are made by lowdown; where
# that isn't there the pages are installed as they are alone.
PREFIX ?= /usr/local
DESTDIR ?=
PROGRAM ?= $(firstword $(wildcard program/acmefs) crates/acmefs/out/acmefs)
VERSION ?= $(firstword $(shell cat VERSION 2>/dev/null) 0)
INSTALL ?= install

home = $(DESTDIR)$(PREFIX)/lib/acmefs
commands = $(DESTDIR)$(PREFIX)/bin
man = $(DESTDIR)$(PREFIX)/share/man
doc = $(DESTDIR)$(PREFIX)/share/doc/acmefs
tools = $(notdir $(filter-out %~,$(wildcard bin/*)))
packages = acme9 acmefs_tools
modules = $(foreach it,$(packages),$(wildcard python/$(it)/*.py python/$(it)/*.html python/$(it)/py.typed))
# the parts of the launcher that look after a server
launch = $(foreach it,__init__ child serving telling words,launch/$(it).py)
pages = $(shell packaging/man-pages --names)
texts = $(wildcard docs/manual/*.md docs/manual/*.txt docs/formats/*.md docs/images/*.png examples/*)
stage = out/dist/acmefs-$(VERSION)
# copies a file as it stands, with the folders above it
copy = copy() { $(INSTALL) -D -m $$([ -x "$$1" ] && echo 755 || echo 644) "$$1" "$$2"; }; set -e
# the usage without the launcher, which isn't installed
usage = awk -v RS= -v ORS='\n\n' '!/\.\/acmefs/' docs/manual/usage.txt | \
  sed -e '/^status 70:/d' -e 's/^More: .*/More: acmefs(1), acmefs-clients(7)/'
figures = if [ -f FIGURES ]; then cat FIGURES; else packaging/figures $(PROGRAM); fi

.PHONY: all install install-program install-tools install-man install-doc uninstall dist clean
all:
	@sed -n '/^#/!q; s/^# \{0,1\}//p' Makefile

install: install-program install-tools install-man install-doc

install-program: $(PROGRAM)
	$(INSTALL) -d $(home)/program $(commands)
	$(INSTALL) -m 755 $(PROGRAM) $(home)/program/acmefs
	$(INSTALL) -m 755 packaging/acmefs packaging/serve $(home)
	$(copy); for it in $(launch); do copy $$it $(home)/$$it; done
	$(usage) > $(home)/usage.txt
	$(figures) > $(home)/FIGURES
	ln -sf ../lib/acmefs/acmefs $(commands)/acmefs

install-tools:
	$(INSTALL) -d $(home)/bin $(commands) $(packages:%=$(home)/python/%)
	$(INSTALL) -m 755 $(tools:%=bin/%) $(home)/bin
	$(copy); for it in $(modules); do copy $$it $(home)/$$it; done
	set -e; for it in $(tools); do ln -sf ../lib/acmefs/bin/$$it $(commands)/$$it; done

# Pages that were made before are in man/, as in a tarball.
install-man:
	$(copy); made=man; if [ ! -d man ]; then made=out/man; rm -rf out/man; \
	packaging/man-pages out/man || { echo "no man pages are installed: read $(PREFIX)/share/doc/acmefs"; exit 0; }; fi; \
	for it in $(pages); do copy $$made/$$it $(man)/$$it; done

install-doc:
	$(copy); for it in $(texts); do copy $$it $(doc)/$$it; done

uninstall:
	rm -rf $(home) $(doc)
	rm -f $(commands)/acmefs $(tools:%=$(commands)/%) $(pages:%=$(man)/%)

dist: $(PROGRAM)
	rm -rf $(stage)
	$(INSTALL) -d $(stage)/program
	cp $(PROGRAM) $(stage)/program/acmefs
	$(usage) > $(stage)/usage.txt
	$(figures) > $(stage)/FIGURES
	cp packaging/acmefs packaging/serve $(stage)
	cp Makefile $(wildcard README.md LICENSE CHANGELOG.md VERSION) $(stage)
	$(copy); for it in $(modules) $(launch) $(texts) $(tools:%=bin/%) $(wildcard packaging/*); do copy $$it $(stage)/$$it; done
	packaging/man-pages $(stage)/man || echo "the tarball has no man pages"
	tar -C out/dist -czf acmefs-$(VERSION).tar.gz acmefs-$(VERSION)
	@echo made acmefs-$(VERSION).tar.gz

clean:
	rm -rf out

$(PROGRAM):
	@echo "there is no program $(PROGRAM): ./acmefs replay < /dev/null proves and builds it" >&2; exit 1
