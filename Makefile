# Mezulobu. `make` prints what can be made; docs/COMMANDS.md says more of each.
PROGRAM := crates/sysmem_replay/out/sysmem_replay
# What `make install` and `make lib` take: what is proved, or with UNPROVED=1 what `make build` has.
UNPROVED ?=
# How many proofs the gate makes side by side: one a processor, where each has 4 GB of memory; of
# four processors or more one stays free, since proofs wait for memory, and each takes less processor
# time beside fewer. A proof is made by one process, which takes about a third less than several.
JOBS ?= $(shell awk -v n=$$(nproc) '/^MemAvailable/ { m = int($$2 / 4000000); n -= n > 3; print m < 1 ? 1 : m < n ? m : n }' /proc/meminfo)

.PHONY: help needs build prove quick-test test built-test program-test lib lib-test install uninstall wrong-bodies \
	shown-by-test threads-often live-often promises-often bench

help:
	@echo 'make build        the program and the library, not proved: 5 minutes or less, once'
	@echo 'make quick-test   the same, and the tests of these two: 7 minutes in all; run this first'
	@echo 'make prove        the program, proved with all that it stands on: over an hour, once'
	@echo 'make lib          the library for C, C++ and Python, proved: 3 minutes after make prove'
	@echo 'make install      the program and the library under PREFIX, as made by the two above;'
	@echo '                  with UNPROVED=1 as made by make build: seconds'
	@echo 'make packages     the same as packages for Debian, make wheel as one for Python: seconds'
	@echo 'make dist         a tarball of what is committed, and its SHA-256: a second'
	@echo 'make test         the whole gate: every proof, wrong edit, test and program: over an hour'
	@echo 'make built-test   the tests of the proved program and library: minutes'
	@echo 'docs/COMMANDS.md has the others, as wrong-bodies, threads-often, bench, packages-test.'

# What builds and tests need of Debian's packages: where it may not be installed it is named.
needs:
	@tools/needs build test || true

# The program and the library, without proofs.
build:
	@tools/unproved program
	@$(MAKE) --no-print-directory lib UNPROVED=1

# Proves the program and all that it stands on, and builds it. A source that changes meanwhile is
# newer than the program.
prove:
	@mkdir -p out && touch out/begun
	cd crates/sysmem_replay && rt run -- run "$$OLDPWD/examples/one_participant.json"
	@touch -r out/begun $(PROGRAM)
	cd crates/workbench && rt run -- handles data/attached.json

# The whole gate: every proof, the must-fail edits, the tests, the program. A kit that keeps what
# passed proves only what changed the next time.
test:
	RT_JOBS=$(JOBS) rt ci

# Tests of the proved program as a whole (they need a C compiler and Python): reports, in lines
# and as objects, refusals, records, worked values, small trees beside each of their selections,
# participants in each order of their calls, certificates and their checks, files that fail, each
# allocation refused in turn, scripts played through handles, scripts on threads, and
# explanations. Before these, the pages and the lists of names that stand beside definitions, and
# the launcher.
program-test: prove
	@$(MAKE) --no-print-directory built-test

# The same where `make test` or `make prove` has just built the program. With `-j` they run side by
# side: none reads what another writes.
OF_PAGES := docs/columns docs/definitions docs/schema
OF_TEXT := names shown pages claims crates
OF_PROGRAM := schema reports json_reports refusals records values every_selection orders launcher certificates \
	checks failing_files want_of_memory threads explanations json_explanations one_reading bounded
OF_WORKBENCH := handles handle_scripts written_records

OF_LIBRARY := live bindings installed
OF_DEVICES := devices real_drivers
ON_LIBRARY := $(OF_LIBRARY:%=tests/library/%)
ON_WORKBENCH := $(OF_WORKBENCH:%=tests/program/%)
ON_PROGRAM := $(OF_TEXT:%=tests/text/%) $(OF_PROGRAM:%=tests/program/%)
TESTS := $(ON_LIBRARY) $(ON_PROGRAM) $(ON_WORKBENCH) $(OF_DEVICES:%=tests/library/%)
# A test that calls make isn't this one's: it gets neither its options, which `-B` or `-t` would be,
# nor its jobs, of which it would warn, nor where this one is to install.
ALONE := env -u MAKEFLAGS -u MFLAGS -u MAKELEVEL -u DESTDIR -u PREFIX -u LIBDIR

.PHONY: $(OF_PAGES) $(TESTS)
# The longest first. Without proofs nobody builds the program that plays scripts through handles.
built-test: lib-test $(OF_PAGES) $(if $(UNPROVED),$(filter-out $(ON_WORKBENCH),$(TESTS)),$(TESTS))

$(OF_PAGES):
	@echo $@ && $(ALONE) $@ --check

# Of the library's tests none builds it beside another.
$(ON_LIBRARY): | lib
# The library's tests build the archive that it takes.
tests/library/real_drivers: lib-test

$(TESTS):
	@echo $@ && $(ALONE) $@

# The same of what `make build` makes, but for what plays scripts through handles, which is a
# program of its own, and for real drivers. It goes on where a test fails, to tell of all.
QUICK := lib-test $(OF_PAGES) $(ON_LIBRARY) $(ON_PROGRAM) tests/library/devices
quick-test:
	@tools/needs build test || true
	@$(MAKE) --no-print-directory build
	@SYSMEM_REPLAY="$$PWD/out/unproved/sysmem_replay" UNPROVED=1 $(MAKE) --no-print-directory \
		$(if $(filter -j%,$(MAKEFLAGS)),,-j $$(nproc)) --keep-going --output-sync=target $(QUICK)
	@echo 'make quick-test: all passed'

# The library for C, C++ and Python, as an archive and as a shared object, in out/; with UNPROVED=1
# in out/unproved/. It needs a C compiler and binutils.
lib:
	@$(if $(UNPROVED),tools/unproved library,c/archive)
	@$(MAKE) --no-print-directory -f c/lib.mk

# Installs it with its header and its pkg-config file under PREFIX, in LIBDIR, and the program.
install: lib
	@$(MAKE) --no-print-directory -f c/lib.mk install

uninstall: lib
	@$(MAKE) --no-print-directory -f c/lib.mk uninstall

# Tests of the library as installed (they need compilers of C and C++, Python and pkg-config).
lib-test: | lib
	@echo tests/library/functions && $(ALONE) tests/library/functions

# Wrong bodies beyond those of the gate, each of which the prover must refuse. Of a crate the
# functions that they change are checked, and the crates below it are built.
wrong-bodies:
	$(ALONE) tests/mutants/wrong_bodies

# Wrong bodies that no clause refuses, each of which the test that its file names must show. Each is
# built without proof, for a minute or more.
shown-by-test:
	$(ALONE) tests/mutants/shown_by_test

# Scripts on threads, each row a thousand times, and two thousand random ones. With `--oracle FILE`
# these are compared with another implementation, and `--valgrind` plays rows under its tools.
threads-often: prove
	$(ALONE) tests/program/threads_often

# Random scripts are explained, and each change that is promised is made in its script and run.
promises-often: prove
	$(ALONE) tests/program/promises_often

# Live collections through the library's handles again and again, with sanitizers, tools of valgrind
# and libFuzzer, for an hour or less.
live-often:
	$(ALONE) tests/library/live --often

# Times the proved program beside the reading of the same bytes as a JSON value, and calls on
# small and large trees; counts instructions of runs, certificates and checks.
bench: prove
	cd crates/workbench && rt run -- decisions data/groups_share_nv12.json read,search,together,add,settle,prove,check,write,serialise 3
	bench/run
	$(ALONE) bench/library
	bench/trees
	bench/certificates
	bench/costly

# ---- What is installed beside the program and the library: bindings for Rust, Python and C++, manual
# pages, completions; and what is packed. With UNPROVED=1 of what `make build` makes.

.PHONY: dist wheel packages packages-test

# A tarball of what is committed, and its SHA-256, in out/.
dist:
	@packaging/dist

# The Python package with the library inside, in out/.
wheel: lib
	@bindings/python/wheel $(if $(UNPROVED),out/unproved,out)/libmezulobu.so.1 out

# The packages for Debian, in out/packages/.
packages: lib
	@packaging/debs

# Lintian of the packages, and what they install, run in a system made by debootstrap: as root.
packages-test: packages
	$(ALONE) tests/library/packages

# What devices take, and real drivers: they need a C compiler, pkg-config and libdrm, and the second
# one QEMU and a kernel, which it gets from Debian's packages and keeps in out/.
.PHONY: install-devices real-drivers

install-devices:
	@$(MAKE) --no-print-directory -f c/devices/devices.mk install

real-drivers: lib
	$(ALONE) tests/library/real_drivers --valgrind
