## make run                              document 01's example, read by the proved program at its address of examples/plan.txt
## make read FILE=.. CA=.. IOA=..        another message file, at another address of that plan
## make values                           every kind of value, one text a line
## make examples                         every file of examples/, with the host program's answer
##
## make lib                              the library for C hosts: target/staticlib/libgateway.a
## make host                             the host program: target/host/halimpung-read
## make install PREFIX=.. DESTDIR=..     header, library, pkg-config file, host program and manual pages (on another processor
##                                       than x86-64 with ANYWAY=1 alone)
## make uninstall PREFIX=.. DESTDIR=..   takes exactly these away
##
## make test                             the gate: proves all that rt ci has not passed on this machine, and tests all
## make check                            proves what changed
## make fmt                              lays every file out
## make clean                            removes target/ and each crate's out/, and so what make check and make lib proved
##
## make test-host                        the library and the host program, tried from C and the shell
## make test-host-valgrind               the library's entries under valgrind
## make test-reference                   the reference, a second implementation in Rust, tried alone
## make compare COUNT=.. SEED=..         the library against the reference, over many inputs
## make bench                            both timed, the book's calls too, and the library's stack
## make fuzz SECONDS=..                  the library against the reference under libFuzzer, from the corpus of target/fuzz
##
## What is not proved yet is proved first, which takes some minutes once. The library is x86-64 code, and the Rattle kit runs on
## x86-64 Linux alone.
.PHONY: help run read values examples lib host install uninstall for-x86-64 for-proved test check fmt clean test-host test-host-valgrind test-reference compare bench fuzz

# the lines above
help:
	@sed -n 's/^## \{0,1\}//p' Makefile

FILE ?= examples/rc.txt
CA ?= 7
IOA ?= 300

PREFIX ?= /usr/local
# the header's
VERSION = $(shell sed -n 's/^.define HALIMPUNG_VERSION "\(.*\)"$$/\1/p' host/include/halimpung.h)
# copies of what rt lib makes in the crates gateway_c and, for make bench alone, bench_book
LIB = target/staticlib/libgateway.a
PACE = target/staticlib/libbench_book.a
CFLAGS ?= -O2
STRICT = -std=c11 -pedantic -Wall -Wextra -Werror

# builds and runs C programs that call the library
X86 = CC='$(CC)' tools/x86
MACHINE := $(shell uname -m)
# OURS is what a Rust program needs to call the library: the library, or the program that calls it in its place.
# EAGER binds all symbols before the program begins.
ifeq ($(MACHINE),x86_64)
OURS = $(LIB)
SANITIZED = -fsanitize=address,undefined -fno-sanitize-recover=all
EAGER = -static
else
OURS = target/host/far
EAGER = -Wl,-z,now
endif

# The commands that a target needs are asked for first: nobody waits for a proof to learn that cargo is missing. (rt is asked for where
# something is to be proved; cargo links with cc.)
NEEDS_host = $(firstword $(CC))
NEEDS_install = $(NEEDS_host)
NEEDS_test-host = $(NEEDS_host) $(firstword $(CXX)) python3
NEEDS_test-host-valgrind = $(NEEDS_host) $(if $(filter x86_64,$(MACHINE)),valgrind)
NEEDS_test-reference = cargo cc
NEEDS_compare = $(NEEDS_host) $(NEEDS_test-reference)
NEEDS_bench = $(NEEDS_compare)
NEEDS_fuzz = $(NEEDS_compare) rustc clang

needs-%:
	@tools/need $(sort $(NEEDS_$*))

test:
	.ci/run

check:
	@tools/need rt
	rt all check

run: read

read:
	@tools/proving halimpung
	@{ printf 'ca=%s\nioa=%s\n' '$(CA)' '$(IOA)'; cat '$(FILE)'; } | (cd examples && ../tools/run halimpung)

values:
	@tools/proving show_values
	@tools/run show_values < examples/values.txt

fmt:
	@tools/need rt
	@for crate in crates/*/; do (cd "$$crate" && rt fmt) || exit; done

clean:
	rm -rf target crates/*/out

lib: $(LIB)

host: needs-host target/host/halimpung-read

$(LIB): CRATE = gateway_c
$(PACE): CRATE = bench_book
# rt takes a while to find that nothing changed, so make asks first
$(LIB) $(PACE): crates.txt $(shell find crates -name out -prune -o \( -name '*.rt' -o -name '*.antt' \) -print)
	@tools/need rt
	cd crates/$(CRATE) && rt lib
	@mkdir -p $(@D)
	@cp crates/$(CRATE)/out/lib$(CRATE).a $@

# one rt at a time
$(PACE): | $(LIB)

# by way of another name: where the words and the header differ, no table is left that a second make would take
target/host/refusals.inc: host/refusal-words host/include/halimpung.h docs/REFUSALS.md docs/RIFIUTI.md
	@mkdir -p target/host
	host/refusal-words host/include/halimpung.h docs/REFUSALS.md docs/RIFIUTI.md > $@.new
	@mv $@.new $@

# the fields of the layouts, from their definitions
target/host/fields.inc: host/field-words $(wildcard crates/value*/specs/*.antt crates/layout/specs/*.antt crates/reader_accent/specs/*.antt)
	@mkdir -p target/host
	host/field-words crates > $@.new
	@mv $@.new $@

# value.c is for other hosts to copy
PROGRAM = $(filter-out host/c/value.%,$(wildcard host/c/*.c host/c/*.h)) host/include/halimpung.h target/host/refusals.inc target/host/fields.inc $(LIB)

target/host/halimpung-read: $(PROGRAM)
	$(X86) cc $(STRICT) $(CFLAGS) -Ihost/include -Itarget/host -o $@ $(filter %.c,$^) $(LIB) $(LDFLAGS)

# the same for its tests
target/host/halimpung-read-test: $(PROGRAM)
	$(X86) cc $(STRICT) -g -O1 $(SANITIZED) -Ihost/include -Itarget/host -o $@ $(filter %.c,$^) $(LIB)

# status 1: some are refused, and are to be
examples: needs-host target/host/halimpung-read
	@examples/show target/host/halimpung-read 2>&1; [ $$? -eq 1 ]

# under PREFIX
INSTALLED = include/halimpung.h lib/libhalimpung.a lib/pkgconfig/halimpung.pc bin/halimpung-read share/man/man1/halimpung-read.1 \
	share/man/man3/halimpung.3
TO = '$(DESTDIR)$(PREFIX)'

install: needs-install for-x86-64 $(LIB) target/host/halimpung-read
	install -d $(addprefix $(TO)/,$(sort $(dir $(INSTALLED))))
	install -m 644 host/include/halimpung.h $(TO)/include/
	install -m 644 $(LIB) $(TO)/lib/libhalimpung.a
	sed '/^#/d; s|@PREFIX@|$(PREFIX)|; s|@VERSION@|$(VERSION)|' host/halimpung.pc.in > $(TO)/lib/pkgconfig/halimpung.pc
	chmod 644 $(TO)/lib/pkgconfig/halimpung.pc
	install -m 755 target/host/halimpung-read $(TO)/bin/
	install -m 644 host/man/halimpung-read.1 $(TO)/share/man/man1/
	install -m 644 host/man/halimpung.3 $(TO)/share/man/man3/

uninstall:
	rm -f $(addprefix $(TO)/,$(INSTALLED))

# a compiler for another processor could not link the library; asked before anything is proved
for-x86-64:
	@[ '$(ANYWAY)' = 1 ] || case $$($(CC) -dumpmachine) in x86_64-*) ;; *) \
	echo "nothing is installed: the library is x86-64 code, and $(CC) compiles for $$($(CC) -dumpmachine) (ANYWAY=1 installs it)" >&2; exit 1 ;; esac

TESTS = $(wildcard host/test/*.c host/test/*.h) host/c/value.c host/c/value.h host/include/halimpung.h $(LIB)

target/host/entries-test: $(TESTS)
	@mkdir -p target/host
	$(X86) cc $(STRICT) -g -O1 $(SANITIZED) -Ihost/include -o $@ $(filter %.c,$^) $(LIB)

target/host/entries-plain: $(TESTS)
	@mkdir -p target/host
	$(X86) cc $(STRICT) -g -O1 -Ihost/include -o $@ $(filter %.c,$^) $(LIB)

# what is told of a refusal, tried without the host program: all its sources but main.c
target/host/telling: $(wildcard host/test/telling/*.c host/test/telling/*.h) $(PROGRAM)
	$(X86) cc $(STRICT) -g -O1 $(SANITIZED) -Ihost/c -Ihost/include -Itarget/host -o $@ $(filter-out host/c/main.c,$(filter %.c,$^)) $(LIB)

test-host: needs-test-host target/host/halimpung-read target/host/halimpung-read-test target/host/entries-test target/host/telling
	$(CC) $(STRICT) -fsyntax-only host/include/halimpung.h
	$(CXX) -pedantic -Wall -Wextra -Werror -x c++ -fsyntax-only host/include/halimpung.h
	@$(if $(SANITIZED),,echo 'on $(MACHINE): under an emulator, without sanitizers')
	@$(X86) run target/host/entries-test examples
	@host/test/program target/host/halimpung-read-test
	@host/test/units target/host/halimpung-read-test
	@host/test/forms target/host/halimpung-read-test
	@host/test/languages target/host/halimpung-read-test
	@host/test/examples target/host/halimpung-read-test
	@host/test/words
	@host/test/fields
	@host/test/places target/host/telling
	@CC='$(CC)' CXX='$(CXX)' host/test/install '$(LIB)'
	@host/test/make

# the library is not instrumented, so valgrind sees in it what AddressSanitizer does not
test-host-valgrind: needs-test-host-valgrind target/host/entries-plain
	@[ $(MACHINE) = x86_64 ] || { echo 'make test-host-valgrind needs an x86-64 machine: valgrind sees nothing through an emulator'; exit 1; }
	valgrind -q --error-exitcode=1 target/host/entries-plain examples

COUNT ?= 200000
SEED ?= 1

# nothing is built in the source folders
CARGO = CARGO_TARGET_DIR='$(CURDIR)/target/cargo' HALIMPUNG_LIB='$(abspath $(LIB))' cargo

test-reference: needs-test-reference
	cd host/reference && $(CARGO) test --release --offline -q

# with the guards of the C tests about its slices
target/host/far: host/compare/far.c host/test/place.c host/test/check.c $(wildcard host/test/*.h) host/include/halimpung.h $(LIB)
	@mkdir -p target/host
	$(X86) cc $(STRICT) $(CFLAGS) -Ihost/include -Ihost/test -o $@ $(filter %.c,$^) $(LIB)

# first that the comparison itself sees a wrong side
compare: needs-compare $(OURS)
	cd host/compare && $(CARGO) test --release --offline -q --lib
	cd host/compare && $(CARGO) run --release --offline -q --bin compare -- $(COUNT) $(SEED)

target/host/stack: $(LIB)

# eager: else the first call through the dynamic linker would be counted in the stack
target/host/stack: tools/stack.c
	@mkdir -p $(@D)
	$(X86) cc $(CFLAGS) $(EAGER) -o $@ tools/stack.c $(filter %.a,$^)

# an earlier kit could
for-proved:
	@[ -z '$(NATIVE)' ] || { echo 'make bench NATIVE=1: this kit compiles no code that is not proved (make bench times the proved library)' >&2; exit 1; }
	@[ $(MACHINE) = x86_64 ] || { echo 'make bench needs an x86-64 machine' >&2; exit 1; }

bench: needs-bench for-proved $(LIB) $(PACE) target/host/stack
	cd host/compare && HALIMPUNG_PACE_LIB='$(abspath $(PACE))' $(CARGO) run --release --offline -q --features pace --bin bench
	@host/compare/stack target/host/stack examples target/host/stack-plan.txt

SECONDS ?= 60
FUZZ = target/fuzz
RUST_HOST = $(shell rustc -vV | sed -n 's/^host: //p')
# the branches and comparisons of the reference guide the search; a target is named so that cargo's build scripts go without these flags
GUIDED = -Cpasses=sancov-module -Ccodegen-units=1 $(addprefix -Cllvm-args=-sanitizer-coverage-,level=3 inline-8bit-counters pc-table trace-compares)

fuzz: needs-fuzz $(OURS)
	cd host/fuzz && $(CARGO) run --release --offline -q --bin seeds -- '$(CURDIR)/$(FUZZ)/corpus' '$(CURDIR)/$(FUZZ)/words'
	cd host/fuzz && RUSTFLAGS='$(GUIDED)' $(CARGO) build --release --offline -q --lib --target $(RUST_HOST) --target-dir '$(CURDIR)/$(FUZZ)/cargo'
	clang -fsanitize=fuzzer -o $(FUZZ)/entries $(FUZZ)/cargo/$(RUST_HOST)/release/libhalimpung_fuzz.a -lm -lpthread -ldl
	cd $(FUZZ) && ./entries -max_total_time=$(SECONDS) -max_len=9000 -dict=words -print_final_stats=1 corpus
