# cobix: `make try` runs a deck over the files of DIR without the proofs: the program is built in minutes, and kept;
# `make quick` tries cases, edges and sessions over that program;
# `make run` proves and builds the program, JOBS crates side by side, and runs a deck;
# `make test` proves and tests everything,
# runs the examples, the cases and some of them out of memory, tries the library and, where cobc is there,
# COBOL programs, and checks the documents;
# `make library` proves and builds the library for C and Python (see docs/LIBRARY.md);
# `make gnucobol` tries COBOL programs at length;
# `make bench` measures its verbs beside those of GnuCOBOL, where cobc is there;
# `make dist` and `make deb` pack what `make test` has passed: an archive, and a package for Debian (see CONTRIBUTING.md);
# `make install` puts the program that `make run` or `make test` built into PREFIX/bin, its manual page,
# its completion for bash and its line for file(1) into PREFIX/share.
.PHONY: try quick run test tried-program tried-library install library gnucobol bench dist deb

SHELL = /bin/bash -o pipefail
DECK = examples/payroll.deck
DIR = files
PREFIX = /usr/local
PROGRAM = crates/cobix/out/cobix
LISTS = crates/decks_over_lists/out/decks_over_lists
PROVED = crates/cobix_inside/out/libcobix_inside.a
QUICK = examples cases 'command lines' mistakes edges sessions scripts copies rejects
JOBS = 2
# How many crates the gate proves side by side, each by one process, and tries the edits of: one a processor, as far as there are four gigabytes for each.
LANES = $(shell awk -v most=$$(nproc) '/^MemAvailable/ { few = int($$2 / 4000000); print (few < 1 ? 1 : few < most ? few : most) }' /proc/meminfo)

try: | $(DIR)
	@program=$$(cases/build-unproved) && $$program run $(DECK) --folder $(DIR)

quick:
	program=$$(cases/build-unproved) && cases/run $$program $(QUICK)

run: | $(DIR)
	@cd crates/cobix && rt all check --jobs $(JOBS) >&2 && rt run -- run $(abspath $(DECK)) --folder $(abspath $(DIR))

$(DIR):
	mkdir -p $@

# A gate that passes leaves the program that it built in crates/cobix/out, and a note of it in out/gate. It proves by `rt ci`, over a
# copy without the must-fail edits, and tries these over what was proved.
test:
	rm -rf out/gate library/out
	mkdir -p out
	edits/run
	docs/believed
	share/write --check
	RT_JOBS=$(LANES) edits/prove | tee out/rt-ci
	cases/run $(PROGRAM)
	$(MAKE) --no-print-directory --output-sync=target -j2 tried-program tried-library
	LANES=$(LANES) edits/run gate | tee out/edits
	package/gate out/rt-ci out/edits $(PROGRAM) $(PROVED) > out/gate.new
	package/test $(PROGRAM) $(PROVED) out/gate.new
	mv out/gate.new out/gate

# What the gate tries side by side: the rest of the program, and the library over its proved part.
tried-program:
	cases/run-out-of-memory $(PROGRAM) $(LISTS)
	docs/check $(PROGRAM)

tried-library:
	library/build-proved cobix_inside
	library/test $(PROGRAM)
	make -s -C library
	gnucobol/test $(PROGRAM) 20

# The proved part is a static library, which the gate proves and does not build.
library:
	library/build-proved cobix_inside
	$(MAKE) -C library

# Programs that GnuCOBOL compiles, over the program that was built: needs cobc.
gnucobol: $(PROGRAM) library
	cases/cobol $(PROGRAM)
	gnucobol/test $(PROGRAM)

# Each work load by turns with 64 frames, and with so many that all pages are held.
bench: $(PROGRAM)
	benchmarks/decks/run $(PROGRAM) 10000 20 5 64
	benchmarks/decks/run $(PROGRAM) 10000 20 5 4096

# To be used without the kit: see docs/FIRST-NIGHT.md.
dist:
	package/archive

deb:
	package/debian

install: $(PROGRAM)
	install -D $(PROGRAM) $(PREFIX)/bin/cobix
	install -D -m 644 share/man/man1/cobix.1 $(PREFIX)/share/man/man1/cobix.1
	install -D -m 644 share/bash-completion/completions/cobix $(PREFIX)/share/bash-completion/completions/cobix
	install -D -m 644 share/file/cobix $(PREFIX)/share/file/cobix

$(PROGRAM):
	@echo "make run or make test builds the program, with its proof"; false
