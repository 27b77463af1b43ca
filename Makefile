# make demo   builds the proved library and runs the main job from a C host
# make test   passes the tests: the proofs, the must-fail edits, the trials, the hosts, the second implementation
CFLAGS = -std=c11 -O2 -Wall -Wextra -Werror
CXX ?= g++
CXXFLAGS = -std=c++11 -O2 -Wall -Wextra -Werror
LDLIBS = -lm -pthread
LIBRARY = target/staticlib/libplex.a
SECONDS ?= 60

.PHONY: all demo bench test toolchains hosts prove try sorts style format map host command examples papers second compare soak replay \
    install uninstall installed clean

all: $(LIBRARY) build/plex build/demo

# the library is built from the proved crates: rt proves what changed and nothing else
$(LIBRARY): $(shell find crates -name out -prune -o -name '*.rt' -print -o -name '*.antt' -print 2>/dev/null) crates.txt | build
	flock build/library.lock sh tools/library.sh

build:
	mkdir -p build

# ---- programs: build/NAME is made of SOURCES_NAME, build/NAME-safe and build/NAME-race with sanitizers
COMMON = $(wildcard host/common/*.c)
SOURCES_demo = $(wildcard host/demo/*.c) $(COMMON)
SOURCES_plex = $(wildcard host/command/*.c) $(COMMON)
ENGINES = $(wildcard host/bench/plain_*.c) $(addprefix host/bench/bench_,calls.c image.c jobs.c rows.c table.c) host/common/build.c
SOURCES_bench = $(addprefix host/bench/,bench.c bench_figures.c bench_plot.c) $(ENGINES)
SOURCES_times = $(addprefix host/bench/bench_,place.c times.c) $(ENGINES)
SOURCES_plex_other = $(SOURCES_plex) tests/other_version.c
SOURCES_words = tests/words.c $(COMMON)
SOURCES_explanations = tests/explanations.c tests/faults.c tests/damage.c $(wildcard host/command/explain*.c) \
    host/bench/bench_image.c $(COMMON)
SOURCES_plain = $(wildcard tests/plain*.c) tests/damage.c host/bench/bench_image.c host/common/build.c $(wildcard host/bench/plain_*.c)
SOURCES_lending = tests/lending.c tests/cases.c host/common/build.c
SOURCES_stack = tests/stack.c tests/cases.c host/common/build.c
SOURCES_instructions = tests/instructions.c $(ENGINES)
SOURCES_header = $(wildcard tests/header*.c)
SOURCES_terminal = tests/terminal.c
SOURCES_faulting = tests/faulting.c
SOURCES_pictures = tests/pictures.c tests/svg.c host/bench/bench_plot.c $(wildcard host/command/waits_*.c)
SOURCES_one_by_one = examples/one_by_one.c $(COMMON)
SOURCES_guests = examples/guests.c $(COMMON)
SOURCES_scheduler = $(wildcard examples/scheduler/*.c) host/common/build.c
FLAGS_bench = -O3
FLAGS_header = -Wpedantic -Wc++-compat -Wsign-conversion
FLAGS_stack = -Wl,-z,now
FLAGS_faulting = -g -O0
FLAGS_plex_other = -Dplex_version=other_version
HEADERS = $(wildcard include/*.h host/*/*.h tests/*.h examples/*/*.h)
COMPILE = $(CC) $(CFLAGS) $(FLAGS_$*) -Iinclude -Ihost/common -Ihost/command -Ihost/bench

.SECONDEXPANSION:
build/%-safe: $$(SOURCES_$$*) $(HEADERS) $(LIBRARY) | build
	$(COMPILE) -g -fsanitize=address,undefined -fno-sanitize-recover=all -o $@ $(SOURCES_$*) $(LIBRARY) $(LDLIBS)

build/%-race: $$(SOURCES_$$*) $(HEADERS) $(LIBRARY) | build
	$(COMPILE) -g -fsanitize=thread -o $@ $(SOURCES_$*) $(LIBRARY) $(LDLIBS)

build/header++: $(SOURCES_header) $(HEADERS) $(LIBRARY) | build
	$(CXX) $(CXXFLAGS) -Wpedantic -Wold-style-cast -Wsign-conversion -Iinclude -o $@ -x c++ $(SOURCES_header) -x none $(LIBRARY)

build/%: $$(SOURCES_$$*) $(HEADERS) $(LIBRARY) | build
	$(COMPILE) -o $@ $(SOURCES_$*) $(LIBRARY) $(LDLIBS)

# the program that times the rows, linked with so many bytes before the engines
TIMES = $(addprefix build/times-,0 16 32 48)
$(TIMES): build/times-%: $(SOURCES_times) $(HEADERS) $(LIBRARY) | build
	$(COMPILE) $(FLAGS_bench) -DBENCH_PLACE=$* -o $@ $(SOURCES_times) $(LIBRARY) $(LDLIBS)

demo: build/demo
	./build/demo

bench: build/bench $(TIMES)
	mkdir -p build/plots
	./build/bench build/plots $(TIMES)

# ---- the tests

# the gate of the proofs; what it says is kept for the closing line. It lets a bad edit pass, one that can no longer be applied and so
# tried nothing: here that fails. Over what it has proved the library is built at once
prove: | build
	@echo 2 >build/ci.status
	{ rt ci 2>&1; echo $$? >build/ci.status; } | tee build/ci.log
	@grep -q '^rt: ok;' build/ci.log; found=$$? status=`cat build/ci.status`; [ $$status != 0 ] || status=$$found; exit $$status
	@! grep -qE '^rt: ok;.*, [1-9][0-9]* bad(;|$$)' build/ci.log || { echo 'prove: bad edits fail here'; exit 1; }
	flock build/library.lock sh tools/library.sh proved

# the trials compiled a third way, with the compiler's assumptions checked; rt ci runs them as two compilers make them
try:
	sh tests/try.sh

sorts:
	sh tests/sorts.sh

# the layout of every text, and what the house asks of names and sizes
style:
	sh tests/style.sh

CRATES = $(shell sed -n 's/^\([a-z_0-9]*\)\( staticlib\)*:.*/\1/p' crates.txt)
format:
	for crate in $(CRATES); do (cd crates/$$crate && rt fmt) || exit 1; done
	for crate in second compare; do (cd $$crate && cargo fmt) || exit 1; done
	clang-format -i $$(git ls-files '*.c' '*.h')

# the picture of the crates
map:
	awk -f tools/map.awk crates.txt >docs/map.dot
	dot -Tsvg -o docs/map.svg docs/map.dot

# what the library asks of a host and of the system; the demo's output is held to a file
SETS = $(shell cut -d ' ' -f 1 crates/trials/data/sets.txt)
CASES = $(sort $(basename $(foreach set,$(SETS),$(wildcard crates/trials/data/$(set)/*.image))))
HOST_TESTS = header header++ words-safe explanations-safe plain-safe lending lending-safe pictures-safe instructions
host: $(addprefix build/,$(HOST_TESTS) stack demo-safe bench faulting)
	sh tests/progress.sh
	sh tests/bench.sh build/bench
	sh tests/library.sh $(LIBRARY)
	sh tests/compiled.sh $(LIBRARY)
	@for program in header header++ words-safe explanations-safe plain-safe "lending $(CASES)" "lending-safe $(CASES)" \
	    "pictures-safe build/pictures" instructions; do ./build/$$program || exit 1; done
	@sh tests/stack.sh $(CASES)
	sh tests/debugger.sh build/faulting
	./build/demo-safe | diff - host/demo/expected.txt

command: $(addprefix build/,plex demo plex-safe demo-safe terminal)
	sh tests/command.sh build/plex build/demo build/terminal
	sh tests/command.sh build/plex-safe build/demo-safe build/terminal

# the thread sanitizer wants addresses that are not random, where the system lets a program choose
FIXED = $(shell setarch -R true 2>/dev/null && echo setarch -R)
examples: $(addprefix build/,one_by_one-safe guests-safe scheduler scheduler-safe scheduler-race)
	for program in one_by_one guests; do ./build/$$program-safe >build/$$program.txt || exit 1; done
	for program in scheduler scheduler-safe; do timeout 120 ./build/$$program || exit 1; done
	$(FIXED) timeout 120 ./build/scheduler-race

# the commands that the papers show, with what they print
papers: build/plex build/demo build/one_by_one build/guests
	sh tests/papers.sh $(abspath $(LIBRARY)) README.md docs/MACHINE.md

second:
	cd second && CARGO_TARGET_DIR=$(CURDIR)/build/cargo cargo test --release --offline --quiet

# the proved library against the second implementation
COMPARE = cd compare && CARGO_TARGET_DIR=$(CURDIR)/build/cargo \
    PLEX_LIBRARY_DIR=$(abspath $(dir $(LIBRARY))) cargo run --release --offline --quiet --

compare: $(LIBRARY) | build
	$(COMPARE)

soak: $(LIBRARY) | build
	$(COMPARE) soak $(SECONDS)

replay: $(LIBRARY) | build
	$(COMPARE) replay $(SEED)

# after the proofs two rows of tests, side by side, which take about as long. Both make the library, one after the other; the trials, whose
# time is limited, run while the other row makes it
test: prove
	MAKEFLAGS= $(MAKE) --no-print-directory -j2 -O toolchains hosts
	@tail -n 1 build/ci.log

toolchains:
	MAKEFLAGS= $(MAKE) --no-print-directory style try sorts compare

hosts:
	MAKEFLAGS= $(MAKE) --no-print-directory build/bench build/times-0 host command examples papers installed second

# ---- installation: the places have GNU's names; DESTDIR goes before each of them
PREFIX ?= /usr/local
BINDIR ?= $(PREFIX)/bin
LIBDIR ?= $(PREFIX)/lib
INCLUDEDIR ?= $(PREFIX)/include
MANDIR ?= $(PREFIX)/share/man
DOCDIR ?= $(PREFIX)/share/doc/plex
DESTDIR ?=
INSTALL = install
VERSION = $(shell sed -n 's/^\#define PLEX_VERSION "\(.*\)"$$/\1/p' include/plex.h)
CALLS = check fresh link run version walk
PAPERS = docs/HOSTS.md docs/MACHINE.md CHANGELOG.md host/plex-gdb.py
# the examples, with what they need of the hosts' common files
EXAMPLES = $(wildcard examples/*.c)
SCHEDULER = $(wildcard examples/scheduler/*)
SHARED = $(wildcard $(foreach name,build fields groups names packed words,host/common/$(name).c host/common/$(name).h))
INSTALLED_PAPERS = $(notdir $(PAPERS)) $(EXAMPLES) $(SCHEDULER) $(SHARED:host/%=examples/%)
PAPER_FOLDERS = $(addprefix $(DESTDIR)$(DOCDIR),/examples/common /examples/scheduler /examples /)

install: all
	$(INSTALL) -d $(addprefix $(DESTDIR),$(BINDIR) $(LIBDIR)/pkgconfig $(INCLUDEDIR) $(MANDIR)/man1 $(MANDIR)/man3) $(PAPER_FOLDERS)
	$(INSTALL) -m 755 build/plex $(DESTDIR)$(BINDIR)
	$(INSTALL) -m 644 $(LIBRARY) $(DESTDIR)$(LIBDIR)/libplex.a
	sed -e 's|@PREFIX@|$(PREFIX)|' -e 's|@LIBDIR@|$(LIBDIR:$(PREFIX)/%=$${prefix}/%)|' \
	    -e 's|@INCLUDEDIR@|$(INCLUDEDIR:$(PREFIX)/%=$${prefix}/%)|' -e 's|@VERSION@|$(VERSION)|' \
	    host/plex.pc.in >$(DESTDIR)$(LIBDIR)/pkgconfig/plex.pc
	$(INSTALL) -m 644 include/plex.h $(DESTDIR)$(INCLUDEDIR)
	$(INSTALL) -m 644 man/plex.1 $(DESTDIR)$(MANDIR)/man1
	$(INSTALL) -m 644 man/plex.3 $(DESTDIR)$(MANDIR)/man3
	for call in $(CALLS); do ln -sf plex.3 $(DESTDIR)$(MANDIR)/man3/plex_$$call.3; done
	$(INSTALL) -m 644 $(PAPERS) $(DESTDIR)$(DOCDIR)
	$(INSTALL) -m 644 $(EXAMPLES) $(DESTDIR)$(DOCDIR)/examples
	$(INSTALL) -m 644 $(SCHEDULER) $(DESTDIR)$(DOCDIR)/examples/scheduler
	$(INSTALL) -m 644 $(SHARED) $(DESTDIR)$(DOCDIR)/examples/common

uninstall:
	rm -f $(addprefix $(DESTDIR),$(BINDIR)/plex $(LIBDIR)/libplex.a $(LIBDIR)/pkgconfig/plex.pc $(INCLUDEDIR)/plex.h \
	    $(MANDIR)/man1/plex.1 $(MANDIR)/man3/plex.3 $(CALLS:%=$(MANDIR)/man3/plex_%.3) $(INSTALLED_PAPERS:%=$(DOCDIR)/%))
	rmdir $(PAPER_FOLDERS) 2>/dev/null || true

installed: all build/plex_other
	CC='$(CC)' sh tests/installed.sh

clean:
	rm -rf build target crates/*/out
