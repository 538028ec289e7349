# All commands need the Rattle toolchain (`rt` on the path, or in /opt/rattle/bin) and nothing else.
export PATH := $(PATH):/opt/rattle/bin
PREFIX ?= /usr/local
CRATE ?= vcc
SOURCE ?= examples/tutorial/step1.c
EXAMPLES := $(CURDIR)/examples

.PHONY: run try build install test check fmt

# Judges the lock and replays it, by one build without proofs: 80 to 210 seconds, by the machine.
run:
	@echo "unproved run; \`make test\` proves it"
	@cd crates/vcc && rt try --cases $(EXAMPLES)/cases $(foreach it,c cert sched,--data lock.$(it)=$(EXAMPLES)/lock.$(it))

# Prints what `verify` says of one source, by a build without proofs; no certificate is kept: make try SOURCE=mine.c
try:
	@cd crates/vcc && rt try --data source.c=$(abspath $(SOURCE)) -- verify source.c source.cert

# Proves and builds the program with every other crate, side by side on all cores, by what `make test` runs first: one to two and a half hours on four
# cores from nothing, minutes where `make test` passed on this machine before.
build:
	rt ci
	crates/vcc/out/vcc check $(EXAMPLES)/lock.c $(EXAMPLES)/lock.cert

# Puts the program that `make build` makes, its manual page, the pages for its users and the examples below PREFIX.
install: build
	install -D crates/vcc/out/vcc $(PREFIX)/bin/vcc
	install -D -m 644 docs/vcc.1 $(PREFIX)/share/man/man1/vcc.1
	install -d $(PREFIX)/share/doc/vcc $(PREFIX)/share/vcc
	install -m 644 docs/*.md $(PREFIX)/share/doc/vcc
	cp -R examples $(PREFIX)/share/vcc/

# Every proof, test, program and must-fail edit, but for what passed on this machine before over the same files, and the repository's own checks.
test:
	bash .ci/run

# Proves one crate and those below it, but for what was proved on this machine before: make check CRATE=terms
check:
	rt ci $(CRATE)

# Lays out one crate's files: make fmt CRATE=terms
fmt:
	cd crates/$(CRATE) && rt fmt
