# Short targets; `make help` says what each does.
SCHEDULE =
SCHEDULES = $(SCHEDULE)
OUTPUT =
PROGRAM = crates/specplay/out/specplay
BENCH = crates/bench/out/bench
ROUNDS = 50
COUNT = 100000
SEED = 1
PREFIX = /usr/local
INTO =

JOBS =
PREBUILT = prebuilt/x86_64-linux

.PHONY: help kit no_goal check crates-line quick play test examples ctf-check api edits mutants rows soak fuzz build bench bench-instructions bench-peers bench-tracer bench-waits bench-memory bench-sustained build-bench picture lib c-check install uninstall dist deb

help:
	@echo "make play SCHEDULE=FILE         plays a schedule, as examples/tutorial/01-three-traces.schedule"
	@echo "make picture SCHEDULE=FILE OUTPUT=FILE.svg   draws its play"
	@echo "make install PREFIX=FOLDER [SHARED=1] [PROGRAMS=1]   the proved library of prebuilt/, headers, pkg-config file, manual pages"
	@echo "make uninstall PREFIX=FOLDER    takes them away again"
	@echo "make lib                        the C library into build/"
	@echo "make dist, make deb             a tarball that can be unpacked anywhere; Debian's packages; into build/"
	@echo "These need cc and make. With PROVE=1 the library is proved and built here, with TRY=1 built in a minute or two, unproved."
	@echo "make check CRATE=NAME           proves one crate"
	@echo "make quick                      tests everything, unproved, in some minutes"
	@echo "make test                       proves, tests and runs everything, in one to two hours"
	@echo "make crates-line CRATE=NAME CRATES=\"dspec ..\" INTO=FOLDER   begins a Rattle program"
	@echo "CONTRIBUTING.md has the others. They need rt, the Rattle toolchain's command, as PROVE=1 and TRY=1 do."

# What can't be done without the toolchain says so at once.
kit:
	@command -v rt > /dev/null || { echo "rt, the Rattle toolchain's command, isn't on the path: whoever gave you this repository can give you the kit" >&2; exit 1; }

# Plays one schedule, or several (SCHEDULES="a b"), at once: with the proved program where it is built, else with the trial build of the
# same sources.
play:
	@sh tools/play $(SCHEDULES)

# Draws the play of a schedule as an SVG, as in make picture SCHEDULE=examples/tutorial/08-stale-exchange.schedule OUTPUT=play.svg: with
# the proved program where it is built, else with the trial build of the same sources.
picture:
	@sh tests/pictures draw "$(SCHEDULE)" "$(OUTPUT)"

# A schedule is no goal, though it is a file.
%.schedule: no_goal
	@echo "$@ is no goal: make play SCHEDULE=$@" >&2; exit 2

# Proves one crate, and what it stands on where that has changed, as in make check CRATE=dspec_ring.
check: kit
	@[ -n "$(CRATE)" ] || { echo "make check CRATE=NAME: crates.txt has the names" >&2; exit 2; }
	@cd "crates/$(CRATE)" && rt check

# The line of crates.txt for a program that uses these crates, as in make crates-line CRATE=app CRATES="dspec anyhow". With
# INTO=FOLDER, a repository of its own, it copies the crates there too, and writes their lines and this one into its crates.txt.
crates-line:
	@INTO="$(INTO)" tools/crates_line "$(CRATE)" $(CRATES)

# All that runs, by trial builds: tests, programs, the corpus, sessions. Nothing is proved by it. Some minutes on four processors.
quick: kit
	@JOBS="$(JOBS)" sh tools/quick

# Everything: all proofs from nothing, the must-fail edits, the tests, the program, and the corpus.
test: kit
	@sh .ci/run

# The corpus alone, over the built program.
examples: build
	@examples/check $(PROGRAM)

# The traces of examples/ctf, over the built `specview`, as babeltrace2 reads them: it has to be installed (Debian's package).
ctf-check:
	@sh tests/traces reader

# The lists of public calls, made from the sources: docs/API.md, which the gate compares, and build/docs/API-BELOW.md.
api:
	@sh tools/api

# The list of wrong bodies, build/docs/EDITS.md, made from the folders; the gate looks whether each edit fits its file.
edits:
	@sh tools/edits

# The wrong bodies that the gate leaves out, each of which the prover must refuse; CRATES names some crates alone.
mutants: kit
	@sh tools/mutants $(CRATES)

# Rows of the definitions of a play's steps and of the words' steps, turned one at a time: the law that both agree is refused.
rows: kit
	@sh tools/rows

# What runs in threads, so many times each, as in make soak COUNT=5000; the gate runs it 50, 20, 20 and 20 times.
soak: COUNT = 1000
soak:
	@sh tests/running-threads "$(COUNT)" "$(COUNT)"
	@sh tests/random-threads "$(COUNT)" "$(SEED)"
	@sh tests/c/run race "$(COUNT)" "$(SEED)"

# Random schedules of whole calls, by the player and on a session; the gate plays 2,000.
fuzz:
	@sh tests/random-schedules "$(COUNT)" "$(SEED)"

# Proves what the program stands on, and builds it; where nothing has changed, it is kept. It gets the time at which the build
# began, so that what was edited meanwhile is newer, and play doesn't take the program for proved.
build: kit
	@mkdir -p crates/specplay/out && touch crates/specplay/out/begun
	@cd crates/specplay && rt run < ../../examples/cases/empty-session.schedule > /dev/null
	@touch -r crates/specplay/out/begun $(PROGRAM)

# What a record costs, in nanoseconds on this machine, and a load of activity, alone and beside another thread's exchanges; and
# where valgrind is installed, what a CPU's calls take in instructions, beside a push alone. No check asks for it.
bench: build-bench
	@$(BENCH) push times $(ROUNDS)
	@$(BENCH) loads times
	@if command -v valgrind > /dev/null; then crates/bench/instructions $(BENCH) cpu; fi

# All of it in instructions, where valgrind is installed.
bench-instructions: build-bench
	@crates/bench/instructions $(BENCH)

# A kept record beside the same record by others: C, and LTTng-UST where it is installed.
bench-peers: build-bench
	@sh tools/peers

# What a path costs in the tracer, beside a ring written by hand, one mutex and, where it is installed, LTTng-UST: nanoseconds and instructions.
bench-tracer:
	@sh tools/beside $(SLICES)

# How long a thread that records waits beside a tracer's consumer, of PATHS paths (100,000), beside a control.
bench-waits:
	@sh tools/waits $(PATHS)

# What a tracer takes of memory, beside a ring written by hand and, where it is installed, LTTng-UST.
bench-memory:
	@sh tools/memory

# How many records a second are kept without a loss, and what each takes of the consumer's processor, in plays of SECONDS (2).
bench-sustained:
	@sh tools/sustained $(SECONDS)

build-bench: kit
	@cd crates/bench && rt run > /dev/null

# The C library, of the proved archive in prebuilt/, whose sums are looked at first: build/lib has the archive, build/shared the shared object where one links,
# build/include the headers. With PROVE=1 that is proved and built here, with TRY=1 built in a minute or two, unproved: to look at and to write programs against.
# With BITCODE=1 the proved library's bitcode too, for -flto.
lib: $(if $(filter 1,$(PROVE) $(TRY) $(BITCODE)),kit)
	@if [ "$(TRY)" = 1 ]; then \
		tools/c_module trial build/trial/libdspec_c.a && TRY=1 DSPEC_ARCHIVE=build/trial/libdspec_c.a sh tools/c_lib build build; \
	elif [ "$(PROVE)" = 1 ]; then \
		sh tools/c_lib prove && sh tools/c_lib build build; \
	else \
		tools/prebuilt check dspec_c || { echo "With the Rattle kit, PROVE=1 proves and builds what is here, and TRY=1 builds it unproved." >&2; exit 1; }; \
		DSPEC_ARCHIVE=$(PREBUILT)/libdspec_c.a sh tools/c_lib build build; \
	fi
	@[ "$(BITCODE)" != 1 ] || tools/c_module bitcode build/lib/libdspec.bc

# The C library's tests, and those of the Rust package: over the archive that is proved here.
c-check: kit
	@sh tools/c_lib prove
	@sh tests/c/run

# The archive, the headers, a pkg-config file and manual pages to PREFIX, below DESTDIR; with SHARED=1 the shared object too, with PROGRAMS=1 specplay and
# specview; PROVE=1 and TRY=1 as for lib.
install: lib
	@[ "$(PROGRAMS)" != 1 ] || PROVE="$(PROVE)" TRY="$(TRY)" sh tools/c_lib programs
	@DESTDIR="$(DESTDIR)" SHARED="$(SHARED)" PROGRAMS="$(PROGRAMS)" PROVE="$(PROVE)" TRY="$(TRY)" sh tools/c_lib install build "$(PREFIX)"

uninstall:
	@DESTDIR="$(DESTDIR)" sh tools/c_lib uninstall "$(PREFIX)"

# build/dspec-VERSION.tar.gz, which can be unpacked anywhere: archive, shared object, headers, files for pkg-config and CMake, Rust packages, documents,
# what is compiled in (SPDX), and the sums of all files.
dist: lib
	@PROVE="$(PROVE)" TRY="$(TRY)" tools/packages dist build

# Debian's packages libdspec0, libdspec-dev and dspec-tools, into build.
deb: lib
	@PROVE="$(PROVE)" TRY="$(TRY)" tools/packages deb build
