# make test     rt ci: prove every crate from nothing, try the edits that must be refused; then try the library and the program that were built
# make check    prove what changed since the last time
# make lib      the proved library for C: target/lib/libzitherquasar.a and target/include/zitherquasar.h
# make run      the proved program on case M; make run TABLE=file on a table file
# make harness  the C harness over the library, on the tables of harness/tables
# make compare  the library and the program beside the second program; make compare SEED=7 draws other tables
# make bench    the library's times beside the second program's, in one run
# make unit     the second program's own tests

RT := rt
CC := cc
CARGO := cargo

TABLE := harness/tables/m.table
SEED := 1

LIBRARY := target/lib/libzitherquasar.a
INCLUDE := target/include
PROGRAM := target/bin/slots
SOURCES = crates.txt $(shell find crates -name out -prune -o \( -name '*.rt' -o -name '*.antt' \) -print)
SECOND := $(CARGO) run --release --offline --quiet --manifest-path second/Cargo.toml --
LINKED := ZQ_LIBRARY="$(abspath $(LIBRARY))" $(SECOND)

# Each rt takes all processors by itself.
.NOTPARALLEL:

.PHONY: test check lib run harness compare bench unit program need-rt need-cc need-cargo

test: need-rt need-cc need-cargo
	@RT="$(RT)" .ci/parts

check: need-rt
	@$(RT) all check

lib: need-rt $(LIBRARY) $(INCLUDE)/zitherquasar.h

$(LIBRARY): $(SOURCES)
	@cd crates/capi_c && $(RT) lib >&2
	@mkdir -p $(@D)
	@cp crates/capi_c/out/libcapi_c.a $@

$(INCLUDE)/zitherquasar.h: include/zitherquasar.h
	@mkdir -p $(@D)
	@cp $< $@

program: need-rt $(PROGRAM)

# rt leaves a program that it has proved and built, and runs it.
$(PROGRAM): $(SOURCES)
	@cd crates/slots && $(RT) run </dev/null >/dev/null
	@mkdir -p $(@D)
	@cp crates/slots/out/slots $@

run: program
	@$(PROGRAM) < "$(TABLE)"

harness: need-cc lib
	@CC="$(CC)" harness/check $(LIBRARY) $(INCLUDE) target/harness

compare: need-cc need-cargo lib program
	@$(LINKED) compare --program $(PROGRAM) --seed $(SEED)

bench: need-cc need-cargo lib
	@$(LINKED) bench

unit: need-cargo need-cc
	@$(CARGO) test --offline --quiet --manifest-path second/Cargo.toml | awk '/^test result:/ { passed += $$4; failed += $$6; told = 1 } { print } END { if (told) print passed " passed, " failed " failed" }'

need-rt:
	@command -v $(firstword $(RT)) >/dev/null 2>&1 || { echo "make: '$(RT)' is not on the PATH; it is the command of the Rattle toolchain, which proves and builds the crates" >&2; exit 1; }

need-cc:
	@command -v $(firstword $(CC)) >/dev/null 2>&1 || { echo "make: '$(CC)' is not on the PATH; a C compiler builds the harness and links the comparison (CC=.. names another)" >&2; exit 1; }

need-cargo:
	@command -v $(firstword $(CARGO)) >/dev/null 2>&1 || { echo "make: '$(CARGO)' is not on the PATH; it builds the second program (Rust with edition 2024; no crates, no network)" >&2; exit 1; }
