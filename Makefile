# What this repository makes. It needs the Rattle kit (the command rt), bash, make, a C compiler and Python 3.11.
SHELL := /bin/bash
.SHELLFLAGS := -eu -o pipefail -c
SOURCES = crates.txt $(shell find crates -type f -not -path '*/out/*')
PROGRAM = crates/soxchain_cli
PREFIX = /usr/local
DESTDIR =
# The one place of the version is the program.
VERSION := $(shell sed -n 's/^pub const VERSION.*"soxchain \([0-9.]*\)\\n.*/\1/p' crates/soxchain_common/src/about.rt)

.PHONY: help quick test soxchain soxchain-plan soxchain-job lib demo conformance wrong-bodies bench instructions pictures install uninstall wheel deb dist check-docs check-library \
    check-packages same-bytes clean

help:
	@echo 'make demo      processes a sound of examples/ and says what it wrote'
	@echo 'make quick     in minutes and with no proof: the tests, the worked rows, formatting, the scripts'
	@echo 'make test      the whole gate: every proof, the tests, the programs, the checks of scripts/checks, some wrong bodies'
	@echo 'make soxchain  builds the proved program as build/soxchain'
	@echo 'make soxchain-plan  builds the program that says in advance what soxchain would do, as build/soxchain-plan'
	@echo 'make soxchain-job  builds the program whose conversions survive a kill or a power cut, as build/soxchain-job'
	@echo 'make lib       builds the proved library for C in build/: libsoxchain.a, libsoxchain.so, soxchain.h'
	@echo 'make conformance  runs the proved program on 3,000 cases with known bytes, messages and statuses, and on 2,000 random ones'
	@echo 'make wrong-bodies  has the prover refuse each wrong body of wrong-bodies/'
	@echo 'make bench     times the proved program beside sox, effect by effect'
	@echo 'make instructions  counts the instructions of the proved program for one more frame, effect by effect; needs valgrind'
	@echo 'make pictures  draws the pictures of docs/effects.md; needs gnuplot'
	@echo 'make install [PREFIX=/usr/local] [DESTDIR=]  programs, library, manual and completion; make uninstall takes them away'
	@echo 'make wheel     a wheel of the module for Python with the library inside, in build/'
	@echo 'make deb       Debian packages of what make install installs, in build/; needs build-essential, debhelper and dh-python'
	@echo 'make dist      the sources, the wheel and the Debian packages with checksums, in build/dist'
	@echo 'make check-docs  runs each command of the documents, and looks through the manual; installs what it needs'
	@echo 'make check-library  runs the examples of the library for C and Python beside the proved program'
	@echo 'make check-packages  installs the wheel, unpacks the Debian packages, and uses what they have'
	@echo 'make same-bytes  builds both programs in two folders, and compares their bytes'
	@echo 'make clean     removes build/ and what the checks kept'

# What a few minutes show, with nothing proved.
quick:
	@scripts/quick

# The whole gate, from nothing.
test:
	@scripts/gate

# The proved program. The command that builds it also runs it, on a sound of examples/.
soxchain: build/soxchain
build/soxchain: $(SOURCES)
	@mkdir -p build
	cd $(PROGRAM) && rt run -- - -t au - vol 0.5 <../../examples/tone.au >/dev/null
	@cp $(PROGRAM)/out/soxchain_cli $@.new && mv $@.new $@

# The program that says in advance what soxchain would do.
soxchain-plan: build/soxchain-plan
build/soxchain-plan: $(SOURCES)
	@mkdir -p build
	cd crates/soxchain_plan && rt run -- - -t au - vol 0.5 <../../examples/tone.au >/dev/null
	@cp crates/soxchain_plan/out/soxchain_plan $@.new && mv $@.new $@

# The program whose conversions survive a kill or a power cut; docs/job.md.
soxchain-job: build/soxchain-job
build/soxchain-job: $(SOURCES)
	@mkdir -p build
	cd crates/soxchain_job_cli && rt run -- ../../examples/tone.au ../../build/job.au vol 0.5
	@rm -f build/job.au build/job.au.job.json
	@cp crates/soxchain_job_cli/out/soxchain_job_cli $@.new && mv $@.new $@

# The proved library for C, with its header; docs/library.md. PROVED=--proved is for the gate, which has just run rt ci.
PROVED =
lib: build/libsoxchain.so
build/libsoxchain.so: $(SOURCES) packaging/soxchain.h packaging/strerror.c packaging/effects.c scripts/library
	@scripts/library $(PROVED) '$(VERSION)'

# The library beside the program. The gate does the same over what rt ci has proved.
check-library: build/soxchain build/soxchain-plan
	@scripts/check_library

# A sound at half its amplitude. The proved program takes minutes to prove, so this runs it unproved, with checks.
demo:
	@mkdir -p build
	@cd $(PROGRAM) && rt try -- - -t au - vol 0.5 <../../examples/tone.au >../../build/demo.au 2>../../build/demo.log || { cat ../../build/demo.log >&2; exit 1; }
	@echo "wrote build/demo.au, $$(wc -c <build/demo.au) bytes: examples/tone.au at half its amplitude (run unproved; make soxchain builds the proved program)"

# The proved program on all cases of conformance/, and a short soak of random runs.
conformance: build/soxchain
	@scripts/conformance
	@scripts/soak --count 2000

# All wrong bodies: the prover has to refuse each. Proves the crates first where that is still to be done.
wrong-bodies:
	@scripts/wrong_bodies --unchanged
	@scripts/wrong_bodies

# The proved program beside sox, which has to be installed.
bench: build/soxchain
	@scripts/bench build/soxchain

# What one more frame costs in instructions, by valgrind.
instructions: build/soxchain
	@scripts/instructions build/soxchain

# What each effect does to a sound, from the proved program's own output.
pictures: build/soxchain
	@scripts/pictures

# What is installed: the programs, the library with its header, soxchain.pc and the module for Python, the pages of the manual with
# the version, and completion for bash, zsh and fish.
install: build/soxchain build/soxchain-job build/soxchain-plan build/libsoxchain.so
	@scripts/install '$(DESTDIR)' '$(PREFIX)' '$(VERSION)'

uninstall:
	@scripts/install --remove '$(DESTDIR)' '$(PREFIX)' '$(VERSION)'

# The module for Python with the library inside. The build backend needs the standard library of Python alone.
wheel: build/libsoxchain.so
	@python3 packaging/wheel_backend.py

# The packages of packaging/debian, by debhelper.
deb: build/soxchain build/soxchain-job build/soxchain-plan build/libsoxchain.so
	@scripts/deb '$(VERSION)'

# What can be looked at without root; scripts/debian_trial installs the Debian packages in a system of their own.
check-packages: build/soxchain build/soxchain-job build/soxchain-plan build/libsoxchain.so
	@scripts/checks/wheel
	@scripts/checks/debian

# What is released. The sources are those of the last commit.
dist: wheel deb
	@scripts/dist '$(VERSION)'

# Each command of the documents as it stands there; the gate runs those that need no other tools.
check-docs: build/soxchain build/soxchain-job build/soxchain-plan
	@scripts/docs_tools
	@scripts/check_docs --all
	@cd man && mandoc -T lint *.1
	@scripts/checks/completion

# Two builds in two folders give the same bytes.
same-bytes:
	@scripts/same_bytes

clean:
	rm -rf build crates/*/out
