# make try       shows the sample in half a minute, unproved
# make           builds ./midibridge, proved: a line a crate as it is proved
# make demo      the sample on the proved program
# make test      the whole gate: every proof, must-fail edit, test and stored run
# make install   puts the program, its man page and its completion below PREFIX (and DESTDIR)

SHELL := bash
.SHELLFLAGS := -o pipefail -c

PROGRAM := midibridge
PREFIX ?= /usr/local
# how many crates are proved side by side; one that waits for a crate below it holds its place
JOBS ?= $(shell echo $$(($$(nproc) * 3 / 2)))

# the crates that the program needs: it, and again and again what a crate of it names
NEEDED := $(shell tac crates.txt | awk -F '[: ]+' -v top=$(PROGRAM) \
  '$$1 == top || $$1 in needed { print $$1; for (i = 2; i <= NF; i++) needed[$$i] }')
SOURCES := $(shell find $(NEEDED:%=crates/%) -path '*/out' -prune -o \( -name '*.rt' -o -name '*.antt' \) -print)

SAMPLE := examples/scale.din
HAS_RT := command -v rt >/dev/null || { echo "no rt, the command of the Rattle kit: README.md says which kit"; exit 1; }

$(PROGRAM): crates.txt $(SOURCES)
	@$(HAS_RT)
	@mkdir -p out
	@echo "$(words $(NEEDED)) crates, $(JOBS) side by side; what their checks say stands in out/make.log"
	@(cd crates/$(PROGRAM) && rt all check --jobs $(JOBS)) 2>&1 | tee out/make.log | awk -f bench/progress.awk
	@(cd crates/$(PROGRAM) && rt run < stdin -- $$(cat args)) 2>&1 >/dev/null | tee -a out/make.log \
	  | awk -f bench/progress.awk
	@cp crates/$(PROGRAM)/out/$(PROGRAM) $(PROGRAM)

try:
	@$(HAS_RT)
	@echo "A scale under running status, as it comes from a DIN port:"
	@od -An -v -tx1 $(SAMPLE)
	@echo "The same as USB-MIDI event packets of cable 0, by a build in which nothing is proved:"
	@mkdir -p out
	@(cd crates/$(PROGRAM) && rt try -- convert din usb:0 < ../../$(SAMPLE)) 2>out/try.log | od -An -v -tx1 \
	  || { cat out/try.log; exit 1; }
	@echo "That was a try, unproved and slow. 'make' proves the program and builds it."

demo: $(PROGRAM)
	@echo "A scale under running status, as it comes from a DIN port:"
	@od -An -tx1 $(SAMPLE)
	@echo "The same as USB-MIDI event packets of cable 0:"
	@./$(PROGRAM) convert din usb:0 < $(SAMPLE) | od -An -tx1

install: $(PROGRAM)
	install -D -m 755 $(PROGRAM) "$(DESTDIR)$(PREFIX)/bin/$(PROGRAM)"
	install -D -m 644 man/$(PROGRAM).1 "$(DESTDIR)$(PREFIX)/share/man/man1/$(PROGRAM).1"
	install -D -m 644 completion/$(PROGRAM).bash "$(DESTDIR)$(PREFIX)/share/bash-completion/completions/$(PROGRAM)"

test:
	@$(HAS_RT)
	rt ci

.PHONY: try demo install test
