# make run            prints the frames of examples/frames.hex, or of FRAMES=file
# make build          proves and builds the programs, the C library and its man pages
# make install        installs them, with [PREFIX=/usr/local] [LIBDIR=PREFIX/lib] [DESTDIR=]
# make uninstall      removes the files that make install put there, with the same variables
# make crate          makes a Rust crate with the library in it: out/crate
# make dist           packs them for use without the kit: out/ip_wire-VERSION-x86_64-linux.tar.gz
# make deb            packs them as Debian packages in out/deb, with dpkg-dev
# make lint           compares the pages, the C header and the definitions with the sources
# make quick          runs the tests of the libraries and the programs, without proofs
# make sketch         compiles the C library with rustc, without proofs, in out/unproved
# make native         writes the library in Rust, as a package for cargo: out/native
# make test-native    tests this package with cargo, and compares its text with the proved one
# make check          proves one crate, CRATE=name, over the libraries that make test proved
# make affected       proves what the change since SINCE=HEAD reaches, with tests and wrong bodies
# make test           proves and tests everything, or repeats some checks: ONLY='judge kernel'
# make mutants        tries the new wrong bodies, or all with ANEW=yes
# make new            makes a crate of your own, CRATE=name, with one proved call
# make reference      writes the reference as HTML pages to out/reference
# make statements     prints the contracts and definitions that differ since a commit, SINCE=HEAD
# make size           prints the lines, functions, definitions and proofs of each crate
# make compare        prints the first line that ip_frames and REFERENCE=program print differently
# make compare-calls  the same for ip_calls, which makes one library call per line
# make bench          times library and program: [REFERENCE_BENCH=library.so] [REFERENCE=program]
# make help           prints these lines
#
# The library is in out/lib, and its man pages are in out/man. A goal that needs a built file first builds it, if it is
# older than its sources, and ends if a proof fails. make check also proves the libraries that have changed. make test
# ANEW=yes proves again what the kit kept. make dist needs a make test of these sources; its log is out/test.log. make
# compare gives both programs LINES generated lines, from SEED on. make bench also times hand-written C (bench/floor.c)
# and a shared library with the same calls (bench/reference.rs wraps smoltcp). It prints tables in Markdown.
#
# Without the Rattle kit, make install and make crate need UNPROVED=yes: cargo compiles the C library from the same text, and
# nothing is proved.

FRAMES ?= examples/frames.hex
CRATE ?=
REFERENCE ?=
REFERENCE_BENCH ?=
SEED ?= 1
LINES ?= 100000
PREFIX ?= /usr/local
DESTDIR ?=
ANEW ?=
SINCE ?= HEAD
LIBDIR ?=
ONLY ?=
UNPROVED ?=
# Recipes read these as environment variables, so that a value may contain any character. On the command line of make a
# dollar is written twice.
export FRAMES CRATE REFERENCE_BENCH SEED LINES PREFIX DESTDIR LIBDIR ANEW SINCE ONLY UNPROVED

PROGRAM := crates/ip_frames/out/ip_frames
CALLS := crates/ip_calls/out/ip_calls
ARCHIVE := crates/c_exports/out/libc_exports.a
LIBRARY := out/lib/libip_wire.a
SHARED := out/lib/libip_wire.so.$(shell c/version)
ifeq ($(UNPROVED),yes)
ifneq ($(filter-out install uninstall crate out/unproved/%,$(or $(MAKECMDGOALS),run)),)
$(error make $(MAKECMDGOALS): UNPROVED=yes is for make install, uninstall and crate)
endif
PROGRAM := out/unproved/ip_frames
ARCHIVE := out/unproved/libc_exports.a
LIBRARY := out/unproved/libip_wire.a
SHARED := out/unproved/libip_wire.so.$(shell c/version)
endif
# The last page that c/pages writes stands for all of them.
PAGES := out/man/man3/ip_wire.3
FIND_SOURCES := find crates.txt crates -name out -prune -o \( -name '*.rt' -o -name '*.antt' -o -name crates.txt \)
SOURCES := $(shell $(FIND_SOURCES) -print)

# Without the packages of the machine. It starts in less time, and Ctrl-C meanwhile would print a traceback.
PYTHON := python3 -S

# fail MESSAGE: ends the recipe with one line
fail = { echo "make $(or $(MAKECMDGOALS),run): $(1)" >&2; exit 1; }
# Two goals have another way.
OR_CARGO := $(if $(filter install crate,$(MAKECMDGOALS)),. Without it make $(MAKECMDGOALS) UNPROVED=yes compiles the same text with cargo and proves nothing)
HAS_RT = command -v rt > /dev/null || $(call fail,rt is not on the path; it comes with the Rattle kit$(OR_CARGO))
HAS_CARGO = command -v cargo > /dev/null || $(call fail,cargo is not on the path)
CAN_WRITE = test -w . || $(call fail,this folder is not writable)

ifneq ($(filter compare compare-calls,$(MAKECMDGOALS)),)
ifeq ($(REFERENCE),)
$(error make $(MAKECMDGOALS): name a program, as REFERENCE=program)
endif
endif

# What makes a file leaves none that is not whole, so make need not delete it.
.PRECIOUS: $(PROGRAM) $(CALLS) $(ARCHIVE) $(LIBRARY) $(SHARED) $(PAGES)
# rt uses all processors by itself.
.NOTPARALLEL:
.PHONY: run build install uninstall crate dist deb lint quick sketch native test-native check affected mutants new test reference \
	statements size compare compare-calls bench help

run:
	@test -r "$$FRAMES" && ! test -d "$$FRAMES" || $(call fail,cannot read $$FRAMES)
	@if test -x $(PROGRAM) && test -z "$$($(FIND_SOURCES) -newer $(PROGRAM) -print)"; then \
		$(PROGRAM) < "$$FRAMES"; \
	elif ! command -v rt > /dev/null; then \
		command -v cargo > /dev/null || $(call fail,neither rt nor cargo is on the path); \
		$(MAKE) -s --no-print-directory UNPROVED=yes out/unproved/ip_frames >&2 && exec out/unproved/ip_frames < "$$FRAMES"; \
	else \
		test -x $(PROGRAM) && why='older than its sources' || why='not built yet'; \
		echo "$$why, so run without proofs, in half a minute each time (make build proves first)" >&2; \
		exec < "$$FRAMES" 3>&1; cd crates/ip_frames || exit; \
		said=$$(rt try 2>&1 >&3); status=$$?; \
		printf '%s\n' "$$said" | sed '/^interpreter: ended /d; /^checked: ended /d; /^run=ended /d; /^$$/d' >&2; \
		exit $$status; \
	fi

help:
	@sed -n '/^#$$/q; s/^# //p' $(firstword $(MAKEFILE_LIST))

build: $(PROGRAM) $(CALLS) $(LIBRARY) $(SHARED) $(PAGES)
	@echo $(PROGRAM)
	@echo $(CALLS)
	@echo $(LIBRARY)

install: install-places $(PROGRAM) $(LIBRARY) $(SHARED) $(PAGES)
	@tools/alone - packaging/install install

uninstall: uninstall-places $(PAGES)
	@tools/alone - packaging/install uninstall

crate: $(LIBRARY)
	@tools/alone - packaging/crate out/crate

dist: verdicts $(PROGRAM) $(LIBRARY) $(SHARED) $(PAGES)
	@tools/alone - packaging/dist out

deb: has-dpkg-dev $(PROGRAM) $(LIBRARY) $(SHARED) $(PAGES)
	@tools/alone - packaging/deb out/deb

quick check affected mutants new: ready

# What is looked at before anything is built
.PHONY: ready install-places uninstall-places verdicts has-dpkg-dev
ready:
	@$(HAS_RT)
	@$(CAN_WRITE)

install-places uninstall-places:
	@packaging/install $(@:-places=) places

has-dpkg-dev:
	@command -v dpkg-gensymbols > /dev/null || $(call fail,dpkg-gensymbols is not on the path; it comes with dpkg-dev)

verdicts: ready
	@tests/gate/verdicts.py > /dev/null

lint:
	@tools/alone - tests/all lint

quick:
	@tools/alone - tests/all quick

sketch:
	@$(MAKE) -s --no-print-directory UNPROVED=yes out/unproved/libip_wire.a
	@echo out/unproved/libip_wire.a

native:
	@$(CAN_WRITE)
	@tools/alone - tools/native/make.py

test-native:
	@$(HAS_CARGO)
	@$(CAN_WRITE)
	@tests/native/run

check:
	@test -n "$$CRATE" && test -d "crates/$$CRATE/src" || $(call fail,name a crate of crates.txt as CRATE=name)
	@tests/gate/proved.py check "$$CRATE"; status=$$?; [ $$status = 3 ] || exit $$status; cd "crates/$$CRATE" && rt check

affected:
	@tests/gate/affected.py "$$SINCE"

# The crates that only bench/run uses are proved here too.
mutants:
	@tests/gate/mutants

new:
	@tools/new-crate "$$CRATE"

reference:
	@$(CAN_WRITE)
	@rm -rf out/reference
	@tools/reference/make.py out/reference . ../../
	@echo out/reference/index.html

statements:
	@tests/docs/statements.py "$$SINCE"

size:
	@tools/size.py

test:
	@exec tools/alone - tests/all $$ONLY

compare: $(PROGRAM)
	@tests/frames/compare.py $(PROGRAM) "$$SEED" "$$LINES" $(REFERENCE)

compare-calls: $(CALLS)
	@tests/frames/compare_calls.py $(CALLS) "$$SEED" "$$LINES" $(REFERENCE)

bench: $(PROGRAM) $(LIBRARY)
	@bench/bench.py $${REFERENCE_BENCH:+--calls "$$REFERENCE_BENCH"} $(if $(REFERENCE),--program $(REFERENCE))

ifeq ($(UNPROVED),yes)
$(PROGRAM) $(ARCHIVE): $(SOURCES) $(shell find tools/native -name __pycache__ -prune -o -type f -print)
	@$(HAS_CARGO)
	@$(CAN_WRITE)
	@echo 'compiling $(@F) with cargo, without proofs'
	@tools/alone $@ tools/native/build $@
else
$(PROGRAM) $(CALLS): COMMAND := run
$(ARCHIVE): COMMAND := archive
$(PROGRAM) $(CALLS) $(ARCHIVE): $(SOURCES)
	@$(HAS_RT)
	@$(CAN_WRITE)
	@echo 'proving $(@F)'
	@mkdir -p $(@D)
	@tools/alone $@ tests/gate/build $(notdir $(@D:/out=)) $(COMMAND)
endif

$(PAGES): c/pages include/ip_wire.h c/proved.txt man/ip_wire.3 $(wildcard examples/*.c programs/*.[ch] programs/*/*.c)
	@$(CAN_WRITE)
	@tools/alone $@ $(PYTHON) c/pages $(@D)

# The shared library is made with the static one. It is made again if it is missing.
$(SHARED): | $(LIBRARY)
	@test -e $@ || exec tools/alone $@ c/link $(ARCHIVE) $(@D)

$(LIBRARY): $(ARCHIVE) c/link c/version c/cpu.c c/names.c include/ip_wire.h c/ip_wire.map
	@$(CAN_WRITE)
	@tools/alone $@ c/link $(ARCHIVE) $(@D)
