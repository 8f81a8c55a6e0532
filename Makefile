# What a user of the repository calls; `make help` tells. The tests of the C side are in host/Makefile.
include host/machine.mk

SCRIPT = scripts/meter.txt
PREFIX ?= /usr/local
DESTDIR ?=
# The shell reads these itself, so that a script's name may have spaces.
export SCRIPT PREFIX DESTDIR

.PHONY: help list lib install uninstall gate
help:
	@echo "make list [SCRIPT=file]                run a script of frames and list what the loop does"
	@echo "make lib                               build target/staticlib/libpil.a, for benches in C"
	@echo "make install [PREFIX=..] [DESTDIR=..]  install libpil.a, its headers and pil.pc ($(PREFIX))"
	@echo "make uninstall [PREFIX=..] [DESTDIR=..]"
	@echo "make gate                              prove everything from nothing and run every test"
	@echo "make -C host help                      the tests of the C side, one by one"

list:
	@host/tools.sh run
	@$(MAKE) -s -C host lister
	@host/list.sh target/bin/pil_list "$$SCRIPT" $(RUN)

# The library needs no compiler, but the bench that links it does.
lib:
	@$(MAKE) -s -C host lib
	@host/tools.sh compile run || echo "libpil.a is built; a bench is linked and run with what is missing here." >&2

install: lib
	@host/install.sh install "$$PREFIX" "$$DESTDIR"
uninstall:
	@host/install.sh uninstall "$$PREFIX" "$$DESTDIR"

gate:
	bash .ci/run
