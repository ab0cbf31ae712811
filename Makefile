# make                        prove the library once and build it: static, shared, and what the Python module needs
# make install PREFIX=..      the libraries, the header, a pkg-config file, the command dwj and the Python module, under a prefix (/usr/local)
# make uninstall PREFIX=..    takes them away again
# make test                   ./test
# DESTDIR goes before PREFIX, for packages. What is missing of Debian's packages is installed, or named in one line.
PREFIX ?= /usr/local
# Paths go into commands as they are: none has a blank, or a character that a shell would read.
odd = $(shell printf '%s' '$(subst ','\'',$(PREFIX)$(DESTDIR)$(CURDIR))' | tr -d 'A-Za-z0-9/._+:~@%,=\200-\377-')
ifneq ($(if $(strip $(PREFIX)),,none)$(filter-out 0 1,$(words $(PREFIX)) $(words $(DESTDIR)) $(words $(CURDIR)))$(odd),)
$(error PREFIX, DESTDIR and this folder's path have neither blanks nor characters that a shell reads in them; PREFIX isn't empty)
endif
override PREFIX := $(abspath $(PREFIX))
PYTHON ?= /usr/bin/python3
VERSION := $(shell cat VERSION)
MAJOR := $(firstword $(subst ., ,$(VERSION)))
NATIVE := target/native
STATIC := $(NATIVE)/libdwejrasq.a
SHARED := $(NATIVE)/libdwejrasq.so.$(VERSION)
# What the library is made of: where none of it has changed, nothing is proved again.
SOURCES := crates.txt $(shell find crates -name out -prune -o -type f \( -name '*.rt' -o -name '*.antt' \) -print)
MODULE := $(wildcard python/dwejrasq/*.py) $(wildcard python/dwejrasq/*.html) python/dwejrasq/py.typed
# What the command and the module need when they run.
NEEDS := $(shell cat build/users)

into := $(DESTDIR)$(PREFIX)
modules = $(into)/lib/python$(shell $(PYTHON) -c 'import sys; print("%d.%d" % sys.version_info[:2])')/dist-packages
completions := $(into)/share/bash-completion/completions

.PHONY: all install uninstall test
all: $(SHARED)

$(STATIC): $(SOURCES) build/library
	@echo 'make: the library is being proved and built; the first time that takes some minutes on two processors'
	build/library $(STATIC)

$(SHARED): $(STATIC) include/dwejrasq.h VERSION python/guard.c build/shared
	build/shared $(STATIC)
	touch $(SHARED)

install: all
	@PYTHON=$(PYTHON) build/packages $(NEEDS)
	umask 022 && install -d $(into)/lib/pkgconfig $(into)/include $(into)/bin $(modules)/dwejrasq $(completions)
	install -m 644 $(STATIC) $(into)/lib/libdwejrasq.a
	install -m 755 $(SHARED) $(into)/lib/libdwejrasq.so.$(VERSION)
	ln -sf libdwejrasq.so.$(VERSION) $(into)/lib/libdwejrasq.so.$(MAJOR)
	ln -sf libdwejrasq.so.$(MAJOR) $(into)/lib/libdwejrasq.so
	install -m 644 include/dwejrasq.h $(into)/include/dwejrasq.h
	sed 's#@PREFIX@#$(PREFIX)#; s#@VERSION@#$(VERSION)#' build/dwejrasq.pc >$(into)/lib/pkgconfig/dwejrasq.pc
	rm -rf $(modules)/dwejrasq
	install -d $(modules)/dwejrasq
	install -m 644 $(MODULE) $(modules)/dwejrasq
	install -m 755 $(NATIVE)/guard.so $(modules)/dwejrasq/guard.so
	cd python && PYTHONDONTWRITEBYTECODE=1 $(PYTHON) -c 'import sys; from dwejrasq._native import declared; declared(sys.argv[1])' \
	  $(abspath $(modules))/dwejrasq/_declared.py
	sed 's#@PYTHON@#$(PYTHON)#; s#@MODULES@#$(patsubst $(into)/%,%,$(modules))#' build/dwj >$(into)/bin/dwj
	chmod 755 $(into)/bin/dwj
	$(PYTHON) -m compileall -q $(modules)/dwejrasq
	$(into)/bin/dwj completion bash >$(completions)/dwj
	chmod 644 $(into)/lib/pkgconfig/dwejrasq.pc $(completions)/dwj && chmod -R u=rwX,go=rX $(modules)/dwejrasq
	@echo 'make: dwj $(VERSION) is in $(PREFIX)/bin, and for Python in $(patsubst $(DESTDIR)%,%,$(modules))'

uninstall:
	rm -f $(into)/lib/libdwejrasq.a $(into)/lib/libdwejrasq.so $(into)/lib/libdwejrasq.so.$(MAJOR) $(into)/lib/libdwejrasq.so.$(MAJOR).*
	rm -f $(into)/include/dwejrasq.h $(into)/lib/pkgconfig/dwejrasq.pc $(into)/bin/dwj $(completions)/dwj
	rm -rf $(modules)/dwejrasq
	@rmdir $(modules) $(dir $(modules)) $(completions) $(dir $(completions)) $(into)/share $(into)/lib/pkgconfig $(into)/lib $(into)/include \
	  $(into)/bin $(into) 2>/dev/null || true

test:
	./test
