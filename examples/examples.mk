# What a reader runs: the worked session, the converter and the viewer; and the table of the codes. Included by the Makefile, which
# has the archive, a compiler for x86-64 (CC64) and what runs its programs here (RUN64).
#
# make example: builds the session program `walk` and runs it on the worked session, examples/worked.
# make viewer: builds the viewer and runs it on the converter, examples/converter.
# make converter: runs `walk` on the converter's unlucky order and the way back.
# make assemble: writes the files of the examples that have a text.
# make codes: writes docs/CODES.md from the header.
VIEWER_SOURCES := examples/viewer.c examples/listing.c
CODES := docs/src/codes/codes.c
WITH_TEXT := converter forms

# The session program wants x86-64's C library: the kit has one beside its emulator.
ifeq ($(RUN64),)
WALK := $(CURDIR)/target/bin/walk
else
LIBRARY := $(KIT)/on/$(PROCESSOR)/toolchain/lib
WALK := $(RUN64) $(LIBRARY)/ld-linux-x86-64.so.2 --library-path $(LIBRARY) $(CURDIR)/target/bin/walk
endif

.PHONY: example converter example-test assemble assemble-test walk viewer viewer-build viewer-test codes codes-build codes-test

example: walk
	@cd examples/worked && $(WALK) < commands

converter: walk
	@cd examples/converter && $(WALK) < commands

# rt proves what is not proved yet, compiles, and runs the program, here where it finds no image.
walk:
	@mkdir -p target/bin
	@cd crates/walk && $(RT) run < /dev/null > $(CURDIR)/target/walk.log 2>&1 || { cat $(CURDIR)/target/walk.log; exit 1; }
	@cp crates/walk/out/walk target/bin/walk

# Both session programs print the stored lines of each example.
example-test: walk independent
	for name in worked $(WITH_TEXT); do \
	    (cd examples/$$name && $(WALK) < commands | diff expected - && $(INDEPENDENT_WALK) < commands | diff expected -) || exit 1; \
	done

assemble:
	for name in $(WITH_TEXT); do python3 examples/assemble.py examples/$$name || exit 1; done

# The files of the examples are those that their texts give.
assemble-test:
	for name in $(WITH_TEXT); do \
	    mkdir -p target/examples/$$name && cp examples/$$name/*.text target/examples/$$name && \
	    python3 examples/assemble.py target/examples/$$name || exit 1; \
	    for file in prog.cril first.mem commands; do cmp examples/$$name/$$file target/examples/$$name/$$file || exit 1; done; \
	done

viewer-build: archive compiler
	@$(CC64) -O1 $(STRICT) $(VIEWER_SOURCES) $(ARCHIVE) -o target/viewer

# In a terminal each key acts at once.
viewer: viewer-build
	@saved=$$(stty -g 2> /dev/null); stty -icanon 2> /dev/null; \
	$(RUN64) target/viewer examples/converter; status=$$?; stty "$$saved" 2> /dev/null; exit $$status

# The keys of each example against what the viewer showed; and a folder without an image.
viewer-test: archive compiler
	$(CC64) -O1 $(SANITIZED) $(STRICT) $(VIEWER_SOURCES) $(ARCHIVE) -o target/viewer-test
	for name in $(WITH_TEXT); do \
	    $(RUN64) target/viewer-test examples/$$name < examples/$$name/keys | diff examples/$$name/viewed - || exit 1; \
	done
	test "$$($(RUN64) target/viewer-test examples)" = "refused (1) at 0: the image is empty or longer than 4,096 bytes"

codes-build:
	@mkdir -p target
	gcc -std=c99 $(STRICT) $(CODES) -o target/codes

codes: codes-build
	target/codes > docs/CODES.md

codes-test: codes-build
	target/codes | diff docs/CODES.md -
