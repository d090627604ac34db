# The Rust, C and Python side of the core: comparison, program cases, benchmarks, examples, sanitizers.
# Needs cargo, a C and a C++ compiler and Python 3. The archive and the program are for x86-64: elsewhere they are
# emulated (make/emulated.mk), and what times them or watches them run is not done.
# The main Makefile includes it; alone it is `make -f make/harness.mk TARGET` in the root of the repository.
.PHONY: archive program compare program-test selftest must-notice valgrind asan bench bench-test before example \
	example-ring example-worth example-why example-notice exports header header-c header-cxx rust-test native always

# The archive under test, and the program. Either can be another one, which is then taken as it is.
NATIVE := $(filter x86_64,$(shell uname -m))
HOP_ARCHIVE ?= $(if $(NATIVE),target/staticlib,build/emulated)/libhop_c.a
HOP_PROGRAM ?= $(if $(NATIVE),target/bin,build/emulated)/hop_program
# What the comparison is asked: --seconds N, --cases N, --seed N, --group NAME, --case N, --skip NAME, --first, --list.
COMPARE ?= --seconds 60

HARNESS_OUT := build/harness
HARNESS_BIN := build/cargo/release
C_FLAGS := -std=c11 -Wall -Wextra -Wpedantic -Werror -Iinclude
# The archive for x86-64 itself, on every machine, and what compiles a C program and links it to that.
X86_ARCHIVE = $(HOP_ARCHIVE)
X86_LINKED = $(CC) $(C_FLAGS)
# For cargo: with the archive, and without any; a folder each, so that neither builds the other's again.
LINKED = HOP_ARCHIVE='$(HOP_ARCHIVE)' CARGO_TARGET_DIR=build/cargo
UNLINKED = HOP_ARCHIVE=none CARGO_TARGET_DIR=build/unlinked

archive: target/staticlib/libhop_c.a

program: target/bin/hop_program

# With MADE=1 both are what stands there: the gate has made them from what it proved.
ifndef MADE
# Written anew where a source is younger; a folder is younger where a file came or went. rt proves first what it has not
# proved yet, library by library.
SOURCES := $(wildcard crates/*/src crates/*/specs crates/*/proofs)
target/staticlib/libhop_c.a: crates.txt $(shell find $(SOURCES) -type d -o -name '*.rt' -o -name '*.antt')
	@cd crates/hop_c && rt lib
	@mkdir -p $(@D)
	@cp crates/hop_c/out/libhop_c.a $@

# rt itself finds out whether a source changed. It builds the program only to run it, here on the worked script.
target/bin/hop_program: always
	@cd crates/hop_program && rt run < stdin > /dev/null
	@mkdir -p $(@D)
	@cmp -s crates/hop_program/out/hop_program $@ || cp crates/hop_program/out/hop_program $@
endif

ifndef NATIVE
include make/emulated.mk
endif

# For what would say something about the emulator and not about the core.
native:
	@$(if $(NATIVE),:,echo 'only on an x86-64 machine: elsewhere the core is emulated'; exit 1)

$(HARNESS_OUT):
	@mkdir -p $@

# The core against the second implementation. The last line is 'N passed, M failed'.
compare: $(HOP_ARCHIVE) $(HOP_PROGRAM)
	@$(LINKED) cargo build --quiet --release -p hop_harness
	@$(HARNESS_BIN)/compare --program $(HOP_PROGRAM) $(COMPARE)

# The program on the scripts of tests/program/cases, against the texts beside them. The last line is 'N passed, M failed'.
program-test: $(HOP_PROGRAM)
	@python3 tests/program/cases.py $(HOP_PROGRAM)

# The second implementation against the documents' own numbers. Needs no archive.
selftest:
	@$(UNLINKED) cargo build --quiet --release -p hop_harness
	@build/unlinked/release/compare --selftest

# The comparison itself: it must notice each of many wrong cores. Needs no archive; takes some minutes. NOTICE: what the
# names begin with (worth, why-path, ..), for these alone.
must-notice:
	@harness/must-notice/run $(NOTICE)

# The safe Rust crate: its tests and the examples of its documentation. The last line is 'N passed, M failed'.
rust-test: $(HOP_ARCHIVE)
	@$(LINKED) tests/cargo-test --quiet -p hop

# The header by itself, as C and as C++.
header: header-c header-cxx

header-c:
	@printf '#include "hop.h"\n' | $(CC) $(C_FLAGS) -x c -fsyntax-only -

header-cxx:
	@printf '#include "hop.h"\n' | $(CXX) -std=c++11 -Wall -Wextra -Wpedantic -Werror -Iinclude -x c++ -fsyntax-only -

# The names that the archive exports are those that the header declares; a program with a call that went does not link.
exports: $(X86_ARCHIVE)
	@tests/exports $(X86_ARCHIVE) $(X86_LINKED)

# The C examples: what each prints is shown, and held to the text beside it.
example: example-ring example-worth example-why example-notice

example-ring example-worth example-why example-notice: example-%: $(HOP_ARCHIVE) | $(HARNESS_OUT)
	@$(CC) $(C_FLAGS) -O2 examples/$*.c $(HOP_ARCHIVE) -o $(HARNESS_OUT)/$*
	@$(HARNESS_OUT)/$* > $(HARNESS_OUT)/$*.stdout; status=$$?; cat $(HARNESS_OUT)/$*.stdout; exit $$status
	@diff examples/$*.stdout $(HARNESS_OUT)/$*.stdout

# What the sanitizers run: the comparison with few cases of each group, without those that are all-or-nothing and long.
# Its fences have closed pages on both sides with or without them.
FEW := --cases 5 --skip three-nodes --skip every-node-count --skip every-byte --skip numbers --skip queue-places \
	--skip worth-node-counts --skip why-node-counts --skip route-node-counts

# Reads of what nobody wrote and accesses outside of a buffer, in the archive's own code: exact buffers from C, then
# the comparison.
valgrind: native $(HOP_ARCHIVE) $(HOP_PROGRAM) | $(HARNESS_OUT)
	@$(CC) $(C_FLAGS) -O1 -g harness/c/drive.c $(HOP_ARCHIVE) -o $(HARNESS_OUT)/drive
	@valgrind --quiet --leak-check=full --error-exitcode=1 $(HARNESS_OUT)/drive
	@$(LINKED) cargo build --quiet --release -p hop_harness
	@valgrind --quiet --error-exitcode=1 $(HARNESS_BIN)/compare --program $(HOP_PROGRAM) $(FEW)

# The same under the address sanitizer, and from C under the one for undefined behaviour too. The archive is not
# instrumented: what they see is the callers' side, the header's use, and what the archive hands to the C library.
# Rust has its sanitizer behind a flag that is not stable, hence RUSTC_BOOTSTRAP; it needs its own folder.
ASAN_TARGET := x86_64-unknown-linux-gnu
asan: native $(HOP_ARCHIVE) $(HOP_PROGRAM) | $(HARNESS_OUT)
	@$(CC) $(C_FLAGS) -O1 -g -fsanitize=address,undefined -fno-sanitize-recover=all \
		harness/c/drive.c $(HOP_ARCHIVE) -o $(HARNESS_OUT)/drive-asan
	@$(HARNESS_OUT)/drive-asan
	@RUSTC_BOOTSTRAP=1 RUSTFLAGS=-Zsanitizer=address $(LINKED) cargo build --quiet --release -p hop_harness \
		--target $(ASAN_TARGET) --target-dir build/asan
	@build/asan/$(ASAN_TARGET)/release/compare --program $(HOP_PROGRAM) $(FEW)

# The safe implementation that the core is timed against, held to the second one. Needs no archive.
# The last line is 'N passed, M failed'.
bench-test:
	@$(UNLINKED) tests/cargo-test --quiet --release -p hop_bench

# Ratios of the core's time to a careful safe Rust implementation's, every byte equal first. BENCH: a word of the rows'
# names (check, pass, records, ..) for these alone, or --itself for the safe implementation against itself.
# BEFORE: an older archive, which then stands where the safe implementation does, for --itself too; built in a folder
# of its own. Calls that came with a later request, hop_route with R-4, it does not have: they are not timed, and those
# that it alone has are not asked.
BEFORE_LINKED = HOP_ARCHIVE=$(HARNESS_OUT)/libhop_now.a HOP_BEFORE=$(HARNESS_OUT)/libhop_before.a \
	CARGO_TARGET_DIR=build/before
bench: native $(HOP_ARCHIVE) $(if $(BEFORE),before)
	@$(if $(BEFORE),$(BEFORE_LINKED),$(LINKED)) cargo build --quiet --release -p hop_bench
	@$(if $(BEFORE),build/before/release,$(HARNESS_BIN))/bench $(BENCH)

# Both archives as they are timed beside each other. The older one has other names for its calls. Every function starts
# where 64 bytes do: elsewhere the same code can take a quarter longer, and the linker would choose.
before: $(HOP_ARCHIVE) $(BEFORE) | $(HARNESS_OUT)
	@nm --defined-only --extern-only --format=just-symbols $(BEFORE) | sed -n 's/^hop_.*/& before_&/p' \
		> $(HARNESS_OUT)/before.names
	@objcopy --set-section-alignment '.text*=64' $(HOP_ARCHIVE) $(HARNESS_OUT)/libhop_now.a
	@objcopy --set-section-alignment '.text*=64' --redefine-syms=$(HARNESS_OUT)/before.names $(BEFORE) \
		$(HARNESS_OUT)/libhop_before.a
