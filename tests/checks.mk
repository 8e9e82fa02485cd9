# The checks of make test as rules of GNU make: what each one runs, and what it waits for. tests/all runs all of them, or
# those that make test ONLY=.. names, over what the last run built.

SHELL := bash
ONLY ?=
PROGRAM := crates/ip_frames/out/ip_frames
CALLS := crates/ip_calls/out/ip_calls
STEPS := crates/tcp_steps/out/tcp_steps
# check COMMAND: runs it for this rule, if ONLY names it, and those that its line names before | have passed. It sees what
# these have built, and of others nothing.
check = $(if $(filter $@,$(CHOSEN)),@tests/check $@ '$^' '$(filter $(CHOSEN),$^)' $(1))
# Long work that needs no clock takes the processors that the gate leaves idle.
beside = $(call check,$(if $(ONLY),,nice -n 19 )$(1))

LINT := reference manual statements markdown requirements rfc c_calls definitions layout diagrams speed cases bench one_version licences abi native_text
UNPROVED := $(shell sed -n 's/^\(test_\w*\):.*/\1/p' crates.txt)
MODELS := rebuilt model_counts model_faults model_answers
PROGRAMS := ip_frames ip_calls tcp_steps
OF_PROGRAMS := recorded written failures bad_input compare network linux
OF_LIBRARY := judge kernel other_stack lwip stack c_example examples two_borrows peers baseline
OF_BOTH := counts tools dump install deb
CHECKS := $(LINT) gate library $(PROGRAMS) wrong_bodies $(UNPROVED) $(MODELS) goals native \
	$(OF_PROGRAMS) $(OF_LIBRARY) $(OF_BOTH) commands dist
TRIED := $(PROGRAMS:%=try_%)
QUICK := worked $(UNPROVED) $(TRIED)
CHOSEN := $(or $(patsubst quick,$(QUICK),$(patsubst lint,$(LINT),$(ONLY))),$(CHECKS))
.PHONY: all lint quick worked $(CHECKS) $(TRIED)

all: $(CHECKS)
lint: $(LINT)
# What reads only the sources comes first, and then the gate, which takes longest.
$(filter-out $(LINT),$(CHECKS)): | $(LINT)
quick: $(QUICK)

# What reads only the sources
markdown statements requirements rfc c_calls manual definitions diagrams speed reference:
	$(call check,tests/docs/$@.py)
cases bench:
	$(call check,tests/docs/$@)
layout:
	$(call check,tests/gate/layout)
one_version:
	$(call check,tests/install/one_version)
abi licences:
	$(call check,tests/install/$@.py)
native_text:
	$(call check,tests/native/text)

# What is proved and built
gate:
	$(call check,--live tests/gate/gate)
library:
	$(call check,tests/gate/library)
$(PROGRAMS):
	$(call check,tests/gate/proved.py built $@)
wrong_bodies:
	$(call beside,tests/gate/wrong.py --beside-gate)

# What needs nothing of the gate
$(UNPROVED):
	$(call beside,tests/gate/unproved $@)
worked:
	$(call beside,tests/judge/sketched)
$(TRIED):
	$(call beside,sh -c 'cd crates/$(@:try_%=%) && rt try --seconds 36000 < stdin 2> /dev/null | cmp - stdout')
rebuilt:
	$(call beside,tests/frames/rebuilt.py)
model_counts:
	$(call beside,tests/tcp/compare.py --counts 2 1000000)
model_faults:
	$(call beside,tests/tcp/compare.py --faults 1 100000)
model_answers:
	$(call beside,sh -c 'tests/tcp/compare.py --answers < crates/tcp_steps/stdin | cmp - crates/tcp_steps/stdout')
goals:
	$(call check,tests/install/make_checks)
native:
	$(call beside,tests/native/run --offline)

# What uses the programs
recorded failures: ip_frames ip_calls
	$(call check,tests/frames/$@ $(PROGRAM) $(CALLS))
written: ip_calls
	$(call check,tests/frames/written.py check $(CALLS))
bad_input: ip_frames ip_calls
	$(call check,tests/install/bad_input $(PROGRAM) $(CALLS))
compare: tcp_steps
	$(call beside,tests/tcp/compare.py $(STEPS) 1 300000)
network: tcp_steps
	$(call beside,tests/tcp/network.py $(STEPS) 1 3000)
linux: tcp_steps
	$(call check,tests/tcp/linux.py $(STEPS) 1 24)

# What uses the C library
judge kernel: library
	$(call check,tests/$@/run)
other_stack: library
	$(call check,tests/kernel/other_stack)
lwip: library
	$(call check,tests/tcp/lwip)
c_example examples peers: library
	$(call check,tests/docs/$@)
stack: library
	$(call check,tests/counts/stack.py)
two_borrows: library
	$(call check,tests/gate/two_borrows)
baseline: library
	$(call check,bench/bench.py --equal 200000)

# What uses both
counts: library ip_frames
	$(call check,tests/counts/run)
tools dump: library ip_frames
	$(call check,tests/install/$@.py)
install deb: library $(PROGRAMS)
	$(call check,tests/install/$(patsubst install,run,$@))
commands: gate library $(PROGRAMS)
	$(call check,tests/docs/commands)
dist: gate library $(PROGRAMS)
	$(call check,tests/install/dist)
