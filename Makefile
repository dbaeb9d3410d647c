# Proves the crates, and builds the programs.
#
#   make              all programs, into out/bin; make tape builds one, and make volume_store proves a crate with those below it
#   make install      the programs and their manual pages, into PREFIX, below DESTDIR where it is given; make uninstall
#   make test         the tests that need no proof, in two to three minutes after a build
#   make check        the gate, which also proves everything: docs/GATE.md
#   make clean        removes all that make made
#
# make -j 2 proves two crates at once; prove says how many it takes by itself, and what is proved again. What was proved is kept, so a
# build that was interrupted goes on where it was. It is kept outside the checkout, since the gate refuses a file of code below it that
# no crate has, as those of a library are.
export ROOM := $(or $(XDG_CACHE_HOME),$(HOME)/.cache)/tape/$(shell pwd -P | cksum | tr ' ' -)
PREFIX = /usr/local
SHELL = bash
MAKEFLAGS += --no-print-directory

crates := $(shell sed -n 's/^\([a-z0-9_]*\).*:.*/\1/p' crates.txt)
# code_speed measures: nobody installs it.
programs := $(filter-out code_speed,$(foreach name,$(crates),$(if $(wildcard crates/$(name)/src/main.rt),$(name))))
manuals := $(wildcard man/*.1)

no_rt = there is no rt on the path: the Rattle kit that README.md names has it in its folder bin
has_rt = $(or $(shell command -v rt),$(error $(no_rt)))
jobs = $(patsubst -j%,--jobs %,$(filter -j%,$(MAKEFLAGS)))
prove = @$(if $(has_rt),./prove $(jobs) $(if $(PROCESSOR),--processor $(PROCESSOR)))
# The crates that were asked for are one build: that of the first.
asked := $(filter tape $(crates),$(MAKECMDGOALS))

all: ; $(prove) $(or $(programs),$(error crates.txt has no program))
$(sort tape $(crates)): ; $(if $(filter $(firstword $(asked)),$@),$(prove) $(asked),@:)

programs: ; @echo $(programs)

# The superuser may have no rt on the path, and then installs what was built.
install: $(if $(shell command -v rt),all)
	install -D -m 0755 -t "$(DESTDIR)$(PREFIX)/bin" $(programs:%=out/bin/%)
	install -D -m 0644 -t "$(DESTDIR)$(PREFIX)/share/man/man1" $(manuals)

uninstall:
	rm -f $(programs:%="$(DESTDIR)$(PREFIX)/bin/%") $(manuals:man/%="$(DESTDIR)$(PREFIX)/share/man/man1/%")

test: ; @.ci/test

check: ; @.ci/run

clean: ; rm -rf out "$$ROOM"
.PHONY: all programs install uninstall test check clean tape $(crates)
