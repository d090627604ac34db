# Archive and program for x86-64 on another machine, under qemu-x86_64. make/harness.mk includes it.
# Uses this machine's clang, ld.lld, qemu-x86_64 and C compiler, and the kit's loader and C library for x86-64.
KIT_LIB = $(patsubst %/START-HERE.md,%,$(shell rt doc))/toolchain/lib
EMULATOR = $(shell command -v qemu-x86_64)
# The archive and the program that are emulated. Either can be another one, which is then taken as it is.
EMULATED_ARCHIVE ?= target/staticlib/libhop_c.a
EMULATED_PROGRAM ?= target/bin/hop_program

EMULATED := build/emulated
EMULATED_C := harness/c/emulated

# For C programs without a C library. One that is only linked, and never run, can have memcpy and memset anywhere.
X86_CC = clang --target=x86_64-unknown-linux-gnu $(C_FLAGS) -O2 -ffreestanding -fno-stack-protector \
	-fno-pie -nostdinc -isystem $(EMULATED_C)/freestanding
X86_ARCHIVE = $(EMULATED_ARCHIVE)
X86_LINKED = $(X86_CC) -fuse-ld=lld -nostdlib -static -Wl,-e,main,--defsym,memcpy=0,--defsym,memset=0

$(EMULATED):
	@mkdir -p $@

# Where emulator, kit, repository, archive and program stand, for all that is built here. It is younger only where that changed.
$(EMULATED)/where: always | $(EMULATED)
	@echo '$(EMULATOR) $(KIT_LIB) $(CURDIR) $(EMULATED_ARCHIVE) $(EMULATED_PROGRAM)' > $@.now
	@cmp -s $@.now $@ || cp $@.now $@

# The archive as a program that is asked its calls. Nothing but the archive and this one file is linked.
$(EMULATED)/served: $(EMULATED_ARCHIVE) $(EMULATED_C)/served.c $(EMULATED_C)/turn.h include/hop.h $(EMULATED)/where
	@$(X86_CC) -c $(EMULATED_C)/served.c -o $@.o
	@ld.lld -static $@.o $(EMULATED_ARCHIVE) -o $@

# An archive for this machine with the same calls, each of which is made there.
$(EMULATED)/libhop_c.a: $(EMULATED)/served $(EMULATED_C)/far.c
	@$(CC) $(C_FLAGS) -O2 -fPIC -DEMULATOR='"$(EMULATOR)"' -DSERVED='"$(CURDIR)/$<"' \
		-c $(EMULATED_C)/far.c -o $(EMULATED)/far.o
	@rm -f $@
	@$(AR) rcs $@ $(EMULATED)/far.o

# The program over the kit's loader and C library. Nothing in the environment steers the emulator.
$(EMULATED)/hop_program: $(EMULATED_PROGRAM) $(EMULATED)/where
	@printf '#!/bin/sh\nexec env -i %s %s --library-path %s %s "$$@"\n' '$(EMULATOR)' \
		'$(KIT_LIB)/ld-linux-x86-64.so.2' '$(KIT_LIB)' '$(abspath $<)' > $@
	@chmod +x $@
