# make example, make viewer, make converter, make codes: see examples/examples.mk.
# make test: all tests and proofs, as the gate runs them.
# make bench: how long judging, starting and stepping take, beside the independent program, and the stack that one call uses.
INDEPENDENT := docs/src/independent
COMPARE := docs/src/compare
CARGO = CARGO_TARGET_DIR=$(CURDIR)/target/$(notdir $(1)) cargo
INDEPENDENT_WALK := $(CURDIR)/target/independent/release/walk
ARCHIVE := target/staticlib/libtillerwrap.a
ARCHIVE_CRATE := crates/tillerwrap_c
STRICT := -Wall -Wextra -Werror -pedantic -Iinclude
CLIENT := docs/src/client/client.c

# The archive is for x86-64. On another processor its clients are compiled for x86-64 too and run under an emulator, the kit's where
# there is no other: there address sanitizing does not run, fewer calls are compared, and a time says nothing.
PROCESSOR := $(shell uname -m)
ifeq ($(PROCESSOR),x86_64)
CC64 := gcc -std=c99
RUN64 :=
SANITIZED := -g -fsanitize=address,undefined
COUNT := 200000
else
KIT := $(shell dirname $$(dirname $$(readlink -f $$(command -v rt))))
CC64 := x86_64-linux-gnu-gcc -std=c99 -static
RUN64 := $(shell command -v qemu-x86_64 || echo $(KIT)/on/$(PROCESSOR)/toolchain/bin/qemu-x86_64)
SANITIZED := -g -fsanitize=undefined -fsanitize-undefined-trap-on-error
COUNT := 6000
endif

include examples/examples.mk

.PHONY: independent independent-test compiler archive client-test compare compare-test promises-test wrong-rules-test bench test

independent:
	cd $(INDEPENDENT) && $(call CARGO,$(INDEPENDENT)) build --release --offline --quiet

independent-test:
	cd $(INDEPENDENT) && $(call CARGO,$(INDEPENDENT)) test --release --offline --quiet

# A compiler for x86-64, from Debian's packages where it is missing.
compiler:
	command -v $(firstword $(CC64)) > /dev/null || apt-get install -qq -y gcc-x86-64-linux-gnu libc6-dev-amd64-cross > /dev/null

# Targets that are made at the same time call rt one after the other. What it prints is shown where it fails.
RT := flock $(CURDIR)/Makefile rt

# The library for C: rt proves what is not proved yet, then compiles.
archive:
	@mkdir -p $(dir $(ARCHIVE))
	@cd $(ARCHIVE_CRATE) && $(RT) lib > $(CURDIR)/target/archive.log 2>&1 || { cat $(CURDIR)/target/archive.log; exit 1; }
	@cp $(ARCHIVE_CRATE)/out/libtillerwrap_c.a $(ARCHIVE)

# The header in C and in C++, and a client of all of it under the sanitizers.
client-test: archive compiler
	gcc -std=c99 $(STRICT) -fsyntax-only $(CLIENT)
	g++ -x c++ -std=c++11 $(STRICT) -fsyntax-only $(CLIENT)
	$(CC64) $(SANITIZED) $(STRICT) $(CLIENT) $(ARCHIVE) -o target/client
	$(RUN64) target/client

# The independent program beside a C client of the archive at the other end of a pipe, which is compiled for each use.
compare:
	cd $(COMPARE) && $(call CARGO,$(COMPARE)) build --release --offline --quiet

compare-test: compare archive compiler
	$(CC64) -O2 $(SANITIZED) $(STRICT) $(COMPARE)/bridge.c $(ARCHIVE) -o target/bridge-sanitized
	target/compare/release/compare "$(RUN64) target/bridge-sanitized" 1 $(COUNT)

# The statements that docs/PROMISES.md quotes stand so in the sources.
promises-test:
	python3 docs/src/promises/check.py

# Five wrong rules, each in a copy of the crates: the theorems must refuse them.
wrong-rules-test:
	docs/src/wrong-rules/run

bench: compare archive compiler
	$(CC64) -O2 $(STRICT) $(COMPARE)/bridge.c $(ARCHIVE) -o target/bridge
	$(if $(RUN64),@echo "Our times are those of an emulator and say nothing; the stack holds.")
	target/compare/release/compare "$(RUN64) target/bridge" bench

test:
	bash .ci/run
