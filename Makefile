# make          the library (build/lib, build/include) and the programs (build/bin)
# make demo     the main job: a recorder and a desk on real files, while a pull trial goes on
# make test     every proof, must-fail edit and test; the last line is 'N passed, 0 failed'
# make install  library, header, pkg-config file, programs and man pages: PREFIX (/usr/local), DESTDIR
# make bench    the measurements, as ratios
# make soak     the proved and the plain version compared without end, or for SECONDS=N
# make mutants  wrong definitions, each of which a proof must refuse
# make trial    the stored pages of the demo's trial anew (needs HDF5)

CC ?= cc
# On a machine that is not x86-64: what tools/x86-64 sets, since the library is x86-64 code, and all that links it.
EMULATED := $(shell tools/x86-64)
$(foreach setting,$(EMULATED),$(eval export $(setting)))

CFLAGS ?= -O2
WARN = -std=c11 -Wall -Wextra -Werror
INCLUDE = -Ic -Ic/programs -Ic/demo
LIBS = target/staticlib/libcabi.a
HEADERS = $(wildcard c/*.h c/*/*.h)
SOURCES = $(wildcard crates/*/src/*.rt)
TESTS = $(patsubst c/test/%.c,build/c/%,$(wildcard c/test/test_*.c))
# The header's own functions are tested as C++ too, where there is a compiler for it.
ifeq ($(origin CXX),default)
CXX = c++
endif
AS_CXX = $(if $(shell command -v $(CXX) 2>/dev/null),build/c/test_structs_cxx)
COMPILE = $(CC) $(CFLAGS) $(WARN) $(INCLUDE) $(filter %.c,$^)

PREFIX ?= /usr/local
DESTDIR ?=
VERSION = $(shell awk '/define UNGLETICE_VERSION_(MAJOR|MINOR)/ { printf "%s%s", dot, $$3; dot = "." }' c/ungletice.h)
TO = $(DESTDIR)$(PREFIX)

.PHONY: all lib programs demo trial trial-maker test install bench soak mutants c-tests x86-64 clean FORCE

all: lib programs

# Says what is missing on a machine that is not x86-64, before anything is built.
x86-64:
	@tools/x86-64 true

# The library, the header and the pkg-config file, laid out as they are installed.

lib: build/lib/libungletice.a build/include/ungletice.h build/lib/pkgconfig/ungletice.pc

build/lib/libungletice.a: $(LIBS)
	@mkdir -p $(@D)
	cp $< $@

build/include/ungletice.h: c/ungletice.h
	@mkdir -p $(@D)
	cp $< $@

# Made anew each time, since PREFIX may be another.
build/lib/pkgconfig/ungletice.pc: ungletice.pc.in c/ungletice.h FORCE
	@mkdir -p $(@D)
	@sed -e 's|@PREFIX@|$(PREFIX)|' -e 's|@VERSION@|$(VERSION)|' $< >$@

FORCE:

target/staticlib/lib%.a: $(SOURCES)
	tools/build $*

# The programs.

programs: x86-64 build/bin/sidelist build/bin/deskwatch

target/bin/sidelist: $(SOURCES)
	tools/build sidelist

build/bin/sidelist: target/bin/sidelist
	@mkdir -p $(@D)
	cp $< $@

build/bin/deskwatch: c/programs/deskwatch.c c/programs/lent.c $(HEADERS) $(LIBS)
	@mkdir -p $(@D)
	$(COMPILE) $(LIBS) $(LDLIBS) -o $@

install: all
	install -d $(TO)/lib/pkgconfig $(TO)/include $(TO)/bin $(TO)/share/man/man1 $(TO)/share/man/man3
	install -m 644 build/lib/libungletice.a $(TO)/lib
	install -m 644 build/include/ungletice.h $(TO)/include
	install -m 644 build/lib/pkgconfig/ungletice.pc $(TO)/lib/pkgconfig
	install -m 755 build/bin/sidelist build/bin/deskwatch $(TO)/bin
	install -m 644 man/sidelist.1 man/deskwatch.1 $(TO)/share/man/man1
	install -m 644 man/ungletice.3 $(TO)/share/man/man3

# The demo. The trial maker is built where the stock HDF5 library is; without it the stored pages are played.

DEMO = build/demo/recorder build/demo/desk build/demo/image
HDF5 = $$(pkg-config --cflags --libs hdf5 2>/dev/null || echo -lhdf5)
# The trial maker links HDF5 and not the library: it is of the machine.
trial-maker build/demo/trial_maker: CC := $(if $(EMULATED),cc,$(CC))

demo: x86-64 $(DEMO) build/bin/deskwatch trial-maker
	@c/demo/demo.sh build/demo build/demo/files

build/demo/desk: c/demo/picture.c c/demo/load_table.c

$(DEMO): build/demo/%: c/demo/%.c c/demo/sequence.c c/demo/recording.c c/demo/view.c c/programs/lent.c $(HEADERS) $(LIBS)
	@mkdir -p $(@D)
	$(COMPILE) $(LIBS) $(LDLIBS) -o $@

trial-maker:
	@mkdir -p build/demo
	@if echo '#include <hdf5.h>' | $(CC) -E -x c - $(HDF5) >/dev/null 2>&1; then \
	    $(MAKE) --no-print-directory build/demo/trial_maker >build/demo/trial_maker.log 2>&1 || \
	    echo "demo: the trial maker does not build with this HDF5: see build/demo/trial_maker.log"; \
	else rm -f build/demo/trial_maker; fi

build/demo/trial_maker: c/demo/trial_maker.c
	@mkdir -p $(@D)
	$(COMPILE) $(HDF5) -o $@

trial: build/demo/trial_maker
	@mkdir -p build/demo/made
	build/demo/trial_maker build/demo/made
	cp build/demo/made/trial.pages c/demo/trial.pages

# The tests and the measurements.

test:
	@.ci/test

# What c/test/*.sh call is built with them.
c-tests: x86-64 $(TESTS) $(AS_CXX) $(DEMO) build/bin/deskwatch

build/c/test_trial: c/demo/sequence.c c/demo/recording.c c/demo/view.c c/programs/lent.c

build/c/test_%: c/test/test_%.c $(HEADERS) $(LIBS)
	@mkdir -p $(@D)
	$(COMPILE) $(LIBS) $(LDLIBS) -o $@

build/c/test_structs_cxx: c/test/test_structs.c $(HEADERS) $(LIBS)
	@mkdir -p $(@D)
	$(CXX) $(CFLAGS) -std=c++17 -Wall -Wextra -Werror $(INCLUDE) -x c++ $< -x none $(LIBS) $(LDLIBS) -o $@

build/bench/stack: c/bench/stack.c $(HEADERS) $(LIBS)
	@mkdir -p $(@D)
	$(COMPILE) $(LIBS) $(LDLIBS) -o $@

# Prints the measurements, and puts them into docs/BENCH.md and docs/bench.svg. A stack that is too deep says so there.
# The times of an emulator say nothing: they go into copies in build/bench.
REPORT = $(if $(EMULATED),build/bench,docs)

bench: x86-64 build/bench/stack target/staticlib/libleaves.a
	@build/bench/stack >build/bench/stack.txt || [ $$? -eq 1 ]
	@[ $(REPORT) = docs ] || cp docs/BENCH.md $(REPORT)
	@cd rust && cargo run --offline --release --quiet --bin bench -- ../$(REPORT) ../build/bench/stack.txt
	@[ $(REPORT) = docs ] || echo "bench: under an emulator the stacks are as on x86-64, the times and ratios are the emulator's" \
	    "and say nothing of the code: docs/BENCH.md is as it was, this report is $(REPORT)/BENCH.md"

# Both versions without end, or for SECONDS; Ctrl-C ends it with a summary.
soak:
	@tools/soak $(SECONDS)

mutants:
	@tools/mutants

clean:
	rm -rf build target rust/target crates/*/out
