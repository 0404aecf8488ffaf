# The one door for commands. Each line calls what does it.
#
#   make                       builds the library for C programs (c/out) and the programs ntrun and ntlook
#   make quick                 what a change breaks at once, with no proof: ./gate quick
#   make check                 the tests of the whole repository, with each proof: ./gate
#   make check-all             the same with every mutant, case and planted fault: ./gate all
#   make bench                 each bench, over proved programs, and the tables of docs/PERFORMANCE.md anew (bench/all)
#   make install PREFIX=DIR    headers, libraries, man pages, and files for pkg-config and cmake; DESTDIR comes before DIR
#   make uninstall PREFIX=DIR  takes them away
#   make dist                  an archive and Debian packages in dist, which need no kit, of what is proved; UNPROVED=1: of what is there
#   make clean                 removes all that was built here, proved or not
#   make help                  prints these lines

PREFIX ?= /usr/local
RT ?= $(shell command -v rt || echo /opt/rattle/bin/rt)
# A folder as c/Makefile is to have it, which works in a folder of its own.
from_here = $(if $(filter-out /%,$(firstword $(1))),$(CURDIR)/)$(1)
PLACES = PREFIX='$(call from_here,$(PREFIX))' DESTDIR='$(call from_here,$(DESTDIR))'
# Whoever runs make by itself takes no part in this run.
BY_ITSELF = env -u MAKEFLAGS -u MFLAGS -u MAKELEVEL

all: library programs

library:
	$(MAKE) --no-print-directory -C c all

# (A launcher builds its program where it has to, and runs it.)
programs:
	./ntrun script examples/hand_over.nts > /dev/null
	./ntlook why examples/hand_over.nts > /dev/null

quick:
	@$(BY_ITSELF) ./gate quick

check:
	@$(BY_ITSELF) ./gate

check-all:
	@$(BY_ITSELF) ./gate all

bench:
	$(MAKE) --no-print-directory -C c proved
	cd crates/nt_bench && $(RT) run > /dev/null
	cd crates/nt_front_bench && $(RT) run > /dev/null
	$(BY_ITSELF) ./ntrun --proved script examples/hand_over.nts > /dev/null
	$(BY_ITSELF) bench/all

install:
	$(MAKE) --no-print-directory -C c install $(PLACES)

uninstall:
	$(MAKE) --no-print-directory -C c uninstall $(PLACES)

dist:
	@release/make $(if $(UNPROVED),--unproved)

clean:
	$(MAKE) --no-print-directory -C c clean
	rm -rf out dist crates/*/out

help:
	@sed -n 's/^#   //p' Makefile

.PHONY: all library programs quick check check-all bench install uninstall dist clean help
