# Builds, shows and tests pdbmerge. RT is the kit's command.
RT ?= rt
PREFIX ?= /usr/local
PROGRAM := build/pdbmerge
SOURCES := $(shell find crates -name '*.rt' -o -name '*.antt') crates.txt

.PHONY: all try announce demo test wrong-bodies bench install uninstall library dist static arm64 windows web ports clean distclean

all: $(PROGRAM)

# The kit proves every crate below the program before it links it, and then runs it once.
$(PROGRAM): $(SOURCES)
	cd crates/pdbmerge && $(RT) run
	mkdir -p build
	cp crates/pdbmerge/out/pdbmerge $@

GUID := 00112233-4455-6677-8899-aabbccddeeff

# Compiles the program once, merges two shipped files, and shows the first types of the merge. Nothing is proved or
# kept. The kit runs the program for each file of a folder, here twice without an input. The arguments of a run are the
# lines of the file with the ending .args.
TRIED := memptr.pdb sample.pdb
RUNS := build/try
try:
	@echo 'The program is compiled and run. Nothing of it is proved here, and no file is kept.'
	@rm -rf $(RUNS) && mkdir -p $(RUNS)/runs && touch $(RUNS)/runs/1-merge $(RUNS)/runs/2-types
	@printf '%s\n' merge --guid $(GUID) --age 1 '$(CURDIR)/$(RUNS)/one.pdb' $(TRIED) >$(RUNS)/runs/1-merge.args
	@printf '%s\n' types '$(CURDIR)/$(RUNS)/one.pdb' >$(RUNS)/runs/2-types.args
	cd crates/pdbmerge && $(RT) try $(foreach file,$(TRIED),--data $(file)=../../examples/$(file)) \
		--cases ../../$(RUNS)/runs >../../$(RUNS)/printed
	@head -n 10 $(RUNS)/printed && echo ..
	@rm -rf $(RUNS)

# Merges two shipped files in both orders, and compares what comes out.
MERGE := $(PROGRAM) merge --guid $(GUID) --age 1
announce:
	@echo 'The whole program is proved before it is built. The first time this takes forty minutes on four cores.'

demo: announce $(PROGRAM)
	@mkdir -p build
	$(MERGE) build/one.pdb examples/memptr.pdb examples/sample.pdb
	$(MERGE) build/other.pdb examples/sample.pdb examples/memptr.pdb
	cmp build/one.pdb build/other.pdb
	@echo 'The order of the files makes no difference: the same bytes.'

# The gate: every proof from nothing, with the edits of must-fail/, and every test; then the scripts; then the wrong
# bodies, as many as there is time for until the gate has taken so many minutes. tests/tools installs the tools that the
# scripts need, and `rt ci` leaves the programs that it proved and linked. Every script takes the program that this
# variable names.
GATE_MINUTES ?= 150
BEGAN := $(shell date +%s)
test: export PDBMERGE := $(CURDIR)/$(PROGRAM)
test:
	tests/tools
	$(RT) ci
	mkdir -p build
	cp crates/pdbmerge/out/pdbmerge $(PROGRAM)
	$(MAKE) --jobs=$$(nproc) --output-sync --keep-going scripts
	tests/inputs
	tests/spread
	tools/wrong_bodies --minutes $$(( $(GATE_MINUTES) - ($$(date +%s) - $(BEGAN)) / 60 ))

# All wrong bodies, over what `rt ci` or `make` left. Before a release; with CRATE, after a change of that crate.
wrong-bodies:
	tools/wrong_bodies $(CRATE:%=--only %)

# The scripts that share nothing, so that they run side by side, the longest first: the packages, the program
# as a process, with each call to the system failing in turn, a minute of damaged files, and half a minute of
# them over the libraries, by the program of campaign_driver. Of tests/inputs and tests/spread the clock is a
# part, so that they run alone.
SCRIPTS := tools/archive tests/dist tests/library tests/failures tests/campaign crates/campaign_driver tests/driver \
	tests/surroundings tests/answers tests/outputs tests/places tests/program tests/examples examples/differences tests/rows \
	tests/explain tests/guid tests/maps tests/difference tests/members tests/changes tests/position \
	tests/streams tests/faults tests/cookbook tests/manual tests/help tests/wrong_bodies \
	tools/figures tools/readmes tools/faults tools/stale tools/lint
.PHONY: scripts tools/compile $(SCRIPTS)
scripts: $(SCRIPTS)

# Of a program that `rt ci` has kept it leaves no object file, so that is compiled again.
tools/compile:
	[ -f $(OBJECT) ] || $@ pdbmerge x86_64-unknown-linux-gnu $(OBJECT)

examples/differences:
	tests/examples $@

crates/campaign_driver:
	tests/campaign --driver $@/out/campaign_driver 30 1

# What these use of the kit and of what it made waits for the first two. A script that runs make has its own flags.
tests/dist tests/library tests/cookbook: tools/archive tools/compile
tests/campaign: words := 60 1
tools/figures tools/readmes tools/faults: words := --check
$(filter-out examples/% crates/%,$(SCRIPTS)):
	MAKEFLAGS= $@ $(words)

# Times merges of growing size beside llvm-pdbutil, and plots them in docs/sizes.svg.
bench: $(PROGRAM)
	PDBMERGE=$(PROGRAM) bench/sizes

# Where each file is installed.
SHARE = $(DESTDIR)$(PREFIX)/share
INSTALLED = $(DESTDIR)$(PREFIX)/bin/pdbmerge
PAGE = $(SHARE)/man/man1/pdbmerge.1
FOR_BASH = $(SHARE)/bash-completion/completions/pdbmerge
FOR_ZSH = $(SHARE)/zsh/site-functions/_pdbmerge
FOR_FISH = $(SHARE)/fish/vendor_completions.d/pdbmerge.fish

install: $(PROGRAM)
	install -D $(PROGRAM) $(INSTALLED)
	install -D -m 644 man/pdbmerge.1 $(PAGE)
	install -D -m 644 completions/pdbmerge.bash $(FOR_BASH)
	install -D -m 644 completions/_pdbmerge $(FOR_ZSH)
	install -D -m 644 completions/pdbmerge.fish $(FOR_FISH)

uninstall:
	rm -f $(INSTALLED) $(PAGE) $(FOR_BASH) $(FOR_ZSH) $(FOR_FISH)

# The object file of the program, which is left beside the program, and the static library of the crate, from which the
# libraries for C are made. Its crate is proved first.
OBJECT := crates/pdbmerge/out/pdbmerge.o
ARCHIVE := crates/pdbmerge_c/out/libpdbmerge_c.a
$(ARCHIVE): $(SOURCES)
	cd crates/pdbmerge_c && $(RT) lib

# The shared and the static library for C, in build/library.
library: $(ARCHIVE)
	tools/library $(ARCHIVE) build/library

# All packages for Linux on x86-64, in build/dist.
dist: $(PROGRAM) $(ARCHIVE)
	tools/dist $(OBJECT) build/dist $(ARCHIVE)

# The program with the C library inside, in build/static.
static: $(PROGRAM)
	tools/static $(OBJECT) build/static

# Packages for other systems, each in build/ under its name. What was proved is compiled again: for aarch64 by the kit,
# for others from the module that the kit gave its compiler. tests/ports installs what they need, and tries them.
arm64: $(PROGRAM) $(ARCHIVE)
	tools/compile pdbmerge aarch64-unknown-linux-gnu build/compiled/arm64/pdbmerge.o
	tools/compile pdbmerge_c aarch64-unknown-linux-gnu build/compiled/arm64/libpdbmerge_c.a
	tools/dist build/compiled/arm64/pdbmerge.o build/arm64 build/compiled/arm64/libpdbmerge_c.a

MODULES := build/compiled/modules
$(MODULES)/pdbmerge.bc: $(PROGRAM)
	mkdir -p $(MODULES)
	tools/module pdbmerge $@

$(MODULES)/pdbmerge_c.bc: $(ARCHIVE)
	mkdir -p $(MODULES)
	tools/module pdbmerge_c $@

windows: $(MODULES)/pdbmerge_c.bc $(MODULES)/pdbmerge.bc
	tools/windows $^ build/windows

web: $(MODULES)/pdbmerge_c.bc
	tools/web $< build/web

ports: static arm64 windows web

# Removes what was built. The proofs are kept: they take forty minutes.
clean:
	rm -rf build

# Removes the proofs too.
distclean: clean
	rm -rf crates/*/out
