# make run      builds the library and the command, and shows the main job on an example
# make test     everything: what the documents name, every proof, must-fail edit and program, then the C interface, the host side
#               against an independent model and the installation; the last line is the toolchain's 'N passed, M failed'
# make check    the proofs, of what changed since the last run only, and the programs
# make lib      the static library target/staticlib/libcsorvelin.a, proved before it is built
# make list     the program target/bin/list, which prints an archive, proved before it is built
# make host     the command host/target/release/csorvelin
# make install  library, header, pkg-config file, command, manual page and bash completion under $(DESTDIR)$(PREFIX);
#               PREFIX is /usr/local unless given
# make bench    times beside peers in C, and over GMP where its development files are there
# make fmt      lays out every .rt and .antt file
# make clean    removes all that is built

.PHONY: help test check trace results layout straight lib list c-test host host-test install-test run install bench fmt clean FORCE
.DEFAULT_GOAL := help
SHELL := /bin/bash
.SHELLFLAGS := -o pipefail -c

CFLAGS = -std=c11 -O2 -Wall -Wextra -Wpedantic -Werror
LIB = target/staticlib/libcsorvelin.a
LIST = target/bin/list
# What the library and the program are proved and built from; rt itself takes of it what has changed.
SOURCES = crates.txt $(foreach depth,* */* */*/* */*/*/*,$(wildcard crates/*/src/$(depth).rt crates/*/specs/$(depth).antt \
    crates/*/proofs/$(depth).antt))
# Without it the time of a peer's short loop, or of a call of few steps, depends on where the linker puts it. The functions of
# the library that is measured are moved to lines of the cache in the same way.
BENCH_CFLAGS = $(CFLAGS) -falign-loops=32 -falign-functions=64 -Iinclude -Ibench
BENCH_LIB = target/c/libcsorvelin.a
HOST_SOURCES = include/csorvelin.h $(wildcard host/Cargo.* host/*/Cargo.toml host/*/build.rs) \
    $(foreach depth,* */*,$(wildcard host/*/src/$(depth).rs))
CARGO = --quiet --offline --release --manifest-path host/Cargo.toml
COMMAND = host/target/release/csorvelin
DEMO = target/demo

PREFIX = /usr/local
DESTDIR =
to = $(DESTDIR)$(PREFIX)
VERSION = $(shell sed -n 's/^\#define CSORVELIN_VERSION "\(.*\)"$$/\1/p' include/csorvelin.h)

# Says what is missing: a program, and what it is.
needs = command -v $(1) >/dev/null || { echo 'make: $(1) is not on the path: $(2)' >&2; exit 1; }
needs-rt = $(call needs,rt,it is the Rattle toolchain$(comma) which proves and builds the library; docs/TRUST.md has the version)
needs-cargo = $(call needs,cargo,it builds the command; Rust 1.89 or later is needed)
needs-cc = $(call needs,$(CC),it is the C compiler)
comma = ,

help:
	@while IFS= read -r line && [[ $$line == '#'* ]]; do echo "$${line#??}"; done <Makefile

# The library under test is built over the crates as `rt ci` has proved them, and the program `list` is the one that it ran. It
# passes where a must-fail edit cannot be applied, so that is looked for. Its last line is said again when all has passed.
test: trace results layout
	@$(needs-rt)
	@said=$$(mktemp) && trap 'rm -f "$$said"' EXIT && rt ci | tee "$$said" && $(call all-edits-count,"$$said") && \
	    $(MAKE) --no-print-directory target/toolchain && install -D $(call product,list,list) $(LIST) && \
	    $(MAKE) --no-print-directory straight c-test host-test install-test && tail -n 1 "$$said"

all-edits-count = { grep -q '^rt: ok' $(1) && ! grep -qE '^rt: ok.*, [1-9][0-9]* bad' $(1) || \
    { echo 'test: rt ci has not said rt: ok, or a must-fail edit is bad: BAD EDIT above says which'; exit 1; }; }

check:
	@$(needs-rt)
	@rt all test

# The names in docs/TRACE.md and docs/ARCHITECTURE.md are those of the code.
trace:
	@tests/trace

# Each function that returns something says by an equation what.
results:
	@tests/results

# docs/FORMAT.md prints the tables of fields.
layout:
	@tests/layout

# Filing writes into the archive that it is lent, with no record put together elsewhere.
straight: $(LIB)
	@$(needs-rt)
	@tests/straight

lib: $(LIB)

list: $(LIST)

# What rt makes of a crate.
product = crates/$(1)/out/$(2)
# What rt prints stands in target/NAME.log; each crate that it begins to prove is said at once.
said = 2>&1 | tee target/$(1).log | sed -un 's/^rt: chose .* for \([a-z0-9_]*\)$$/$(1): \1/p' || { cat target/$(1).log; exit 1; }

$(LIB): $(SOURCES) target/toolchain
	@$(needs-rt)
	@echo 'lib: proving what is not proved yet'
	@(cd crates/csorvelin_c && rt lib) $(call said,lib)
	@install -D -m 644 $(call product,csorvelin_c,libcsorvelin_c.a) $@

# Behind the library, so that one rt is at work at a time. The program has to print what `rt ci` wants of it.
$(LIST): $(SOURCES) target/toolchain | $(LIB)
	@$(needs-rt)
	@echo 'list: proving what is not proved yet'
	@(cd crates/list && rt run <stdin 3>&1 >$(CURDIR)/target/list.out 2>&3) $(call said,list)
	@cmp crates/list/stdout target/list.out
	@install -D $(call product,list,list) $@

# The toolchain's identity: another one proves anew. Who installs what is built needs none.
target/toolchain: FORCE
	@[ -d target ] || mkdir target
	@if command -v rt >/dev/null; then rt version | cmp -s - $@ || rt version >$@; else [ -f $@ ] || : >$@; fi

c-test: $(LIB)
	@$(needs-cc)
	@$(call needs,nm,it comes with the linker)
	@tests/exports
	@mkdir -p target/c
	@sed -n '/^```c$$/,/^```$$/{/^```/!p}' README.md >target/c/readme.c
	@$(CC) $(CFLAGS) -Iinclude target/c/readme.c $(LIB) -o target/c/readme
	@grep -qxF "    $$(target/c/readme)" README.md || { echo 'c-test: the program in README.md prints something else'; exit 1; }
	@$(CC) $(CFLAGS) -Iinclude tests/c/interface.c $(LIB) -o target/c/interface
	@target/c/interface >target/c/interface.out
	@diff tests/c/interface.expected target/c/interface.out
	@for name in $$(sed -n 's/^#define \(CSORVELIN_[A-Z0-9_]*\)[ (].*/\1/p' include/csorvelin.h); do \
	    grep -q "^$$name[ (]" target/c/interface.out || { echo "c-test: nothing is compared with $$name"; exit 1; }; done
	@echo 'c-test: the C interface answers as expected'

host: $(COMMAND)

$(COMMAND): $(LIB) $(HOST_SOURCES)
	@$(needs-cargo)
	@cargo build $(CARGO) -p csorvelin-cli
	@touch $@

# rt takes no link below the checkout, and some of these tests make links where they run.
host-test: $(LIB) $(LIST)
	@$(needs-cargo)
	@trap 'find host/target/tmp -type l -delete' EXIT; env -u CSORVELIN_LIB -u CSORVELIN_LIST cargo test $(CARGO)

install: host
	@install -d '$(to)'/{bin,lib/pkgconfig,include,share/man/man1,share/bash-completion/completions}
	@install -m 755 $(COMMAND) '$(to)/bin/csorvelin'
	@install -m 644 $(LIB) '$(to)/lib/libcsorvelin.a'
	@install -m 644 include/csorvelin.h '$(to)/include/csorvelin.h'
	@sed 's|@PREFIX@|$(PREFIX)|; s|@VERSION@|$(VERSION)|' include/csorvelin.pc.in | \
	    install -m 644 /dev/stdin '$(to)/lib/pkgconfig/csorvelin.pc'
	@$(COMMAND) help man | install -m 644 /dev/stdin '$(to)/share/man/man1/csorvelin.1'
	@$(COMMAND) help completion | install -m 644 /dev/stdin '$(to)/share/bash-completion/completions/csorvelin'
	@echo 'install: csorvelin $(VERSION) is installed under $(to)'

install-test: host
	@tests/install

# Prints a command line and runs it in the folder of the example.
shown = echo; echo '$$ csorvelin $(1)'; cd $(DEMO) && ../../$(COMMAND) $(1)

run: host
	@rm -rf $(DEMO) && mkdir -p $(DEMO)
	@$(call shown,new archive)
	@$(call shown,file archive kind=4 row=1 dossier=7 a=100 b=0 c=1)
	@$(call shown,file archive kind=2 row=3 route=2 dossier=8 a=0.001 c=0.5)
	@$(call shown,file archive kind=6 row=1 dossier=9 a=1.5 b=0.5) 2>&1 || echo "exit status $$?"
	@$(call shown,list archive)
	@$(call shown,worst archive surface)
	@$(call shown,explain archive 0)
	@$(call shown,verify archive)

bench: $(LIB)
	@$(needs-cc)
	@$(call needs,objcopy,it comes with the linker)
	@mkdir -p target/c
	@objcopy --wildcard --set-section-alignment '.text.*=64' $(LIB) $(BENCH_LIB)
	@if printf '#include <gmp.h>\n' | $(CC) -E - >/dev/null 2>&1; then \
	    $(CC) $(BENCH_CFLAGS) -DWITH_GMP bench/bench.c bench/peer_scan.c bench/peer_gmp.c $(BENCH_LIB) -lgmp -o target/c/bench; \
	else \
	    echo 'bench: gmp.h is not there (Debian: libgmp-dev); work out is not measured'; \
	    $(CC) $(BENCH_CFLAGS) bench/bench.c bench/peer_scan.c $(BENCH_LIB) -o target/c/bench; \
	fi
	@target/c/bench

fmt:
	@$(needs-rt)
	@for crate in crates/*; do (cd "$$crate" && rt fmt) || exit 1; done

clean:
	@rm -rf target host/target crates/*/out
