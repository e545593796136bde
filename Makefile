# make                      this page
# make test                 40 min*  proves and runs everything; the last line is 'N passed, 0 failed'
# make list FILE=...         3 min*  the program lists FILE, or samples/capture.bin
# make library               5 min*  target/staticlib/libradio_clock.a
# make collector             5 min*  target/c/collector
# make logger                5 min*  target/c/logger
# make install PREFIX=...    5 min*  puts program, library, header, pkg-config file and man pages below PREFIX, or into
#                                    BINDIR, LIBDIR, INCLUDEDIR and MANDIR, all below DESTDIR
# make uninstall PREFIX=...  1 s     removes what make install puts there
# make dist                  5 min*  target/dist/umrikhosh-VERSION-x86_64-linux.tar.gz
# make outside               6 min*  the tests that are not Rattle's: program, C side, commands, archive
# make c-test                6 min*  those of the C side alone
# make fuzz N=... SEED=...   5 min*  the comparison with plain C, on N random cases
# make bench                 6 min*  prints docs/BENCHMARKS.md
# make clean                 1 s     removes target/
#
# Durations are those of the kit before this one, on two cores. * is the first time: what it needs is proved, which shows
# a line for each crate and leaves all that the prover says in target/prove.log. The next time it takes a minute or so,
# make test a few.
FILE ?= samples/capture.bin
PREFIX ?= /usr/local
BINDIR ?= $(PREFIX)/bin
LIBDIR ?= $(PREFIX)/lib
INCLUDEDIR ?= $(PREFIX)/include
MANDIR ?= $(PREFIX)/share/man
N ?= 2000000
LIBRARY ?= target/staticlib/libradio_clock.a
LIST_TIMES ?= target/bin/list_times
C = target/c
CRATES = kit-version crates.txt $(shell find crates -name out -prune -o '(' -name '*.rt' -o -name '*.antt' ')' -print)
WARN = -Wall -Wextra -Wpedantic -Wconversion -Wsign-conversion -Wshadow -Werror
PLAIN = $(CC) -std=c99 -O2 $(WARN) -Iinclude -Itests/c
CHECKED = $(CC) -std=c99 -O1 -g $(WARN) -fsanitize=address,undefined -fno-sanitize-recover=all -Iinclude -Itests/c
COMPARE = $(addprefix tests/c/,by_name.c compare.c examples.c inputs.c lend.c reference.c)
BENCH = $(addprefix tests/c/,bench.c bench_plain.c inputs.c reference.c)
ENTRIES = kind read read_trimble write read_minute write_minute unix_time outcome_at outcome_unix_time fill_outcomes \
          correct_mark feed
HEADERS = include/radio_clock.h $(wildcard tests/c/*.h)

# The version stands in the header and nowhere else.
VERSION = $(or $(shell sed -n 's/^.define RADIO_CLOCK_VERSION "\(.*\)"$$/\1/p' include/radio_clock.h),\
               $(error include/radio_clock.h defines no RADIO_CLOCK_VERSION))
MANUALS = $(wildcard docs/man/*.[1-9])
INSTALLED = $(BINDIR)/list_times $(LIBDIR)/libradio_clock.a $(LIBDIR)/pkgconfig/radio_clock.pc \
            $(INCLUDEDIR)/radio_clock.h \
            $(foreach page,$(MANUALS),$(MANDIR)/man$(subst .,,$(suffix $(page)))/$(notdir $(page)))
# A folder as the pkg-config file names it.
below_prefix = $(patsubst $(PREFIX)/%,$${prefix}/%,$(1))
# The programs of the archive beside list_times.
EXAMPLES = $(patsubst examples/%.c,$(C)/%,$(wildcard examples/*.c))
DISTDIR ?= target/dist
ARCHIVE = umrikhosh-$(VERSION)-x86_64-linux

.DEFAULT_GOAL = help
.DELETE_ON_ERROR:
MAKEFLAGS += --no-print-directory
# What takes target/ away runs alone, whatever -j says. Proving runs one at a time, which tools/prove sees to.
ifneq ($(filter test clean,$(MAKECMDGOALS)),)
.NOTPARALLEL:
endif

.PHONY: help clean uninstall dist dist-test commands-test
.PHONY: test list outside c-test c-header fuzz c-selftest c-plain bench collector c-collector samples install \
        c-install library

help:
	@sed -n '/^#/!q; s/^# \{0,1\}//p' Makefile

test:
	@MAKEFLAGS='$(filter-out -j% --jobserver%,$(MAKEFLAGS))' tools/prove bash .ci/run

clean:
	rm -rf target

list: target/bin/list_times
	@target/bin/list_times "$(FILE)"

outside: c-test commands-test dist-test $(LIST_TIMES)
	python3 tests/list_times.py $(LIST_TIMES) samples/capture.bin

# rt proves the crates below, then builds the library or the program in its crate's folder. To build a program is to run
# it too. The C API is two crates; their archives are joined.
library: $(LIBRARY)
target/staticlib/libradio_clock.a: $(CRATES)
	@tools/prove -C crates/c_readings_c rt lib >&2
	@tools/prove -C crates/c_recordings_c rt lib >&2
	@mkdir -p $(@D)
	@printf 'create %s\naddlib crates/%s\naddlib crates/%s\nsave\n' $@ c_readings_c/out/libc_readings_c.a \
	    c_recordings_c/out/libc_recordings_c.a | $(AR) -M
	@echo "built: $@" >&2
target/bin/list_times: $(CRATES)
	@tools/prove -C crates/list_times rt run -- --version >&2
	@install -D -m 755 crates/list_times/out/list_times $@
	@echo "built: $@" >&2

c-test: c-header c-header-lines c-stack c-selftest c-plain fuzz c-collector c-logger c-install

c-header: $(LIBRARY)
	@mkdir -p $(C)
	tests/c/header.sh $(LIBRARY) $(C) $(WARN)

.PHONY: c-header-lines c-stack
c-header-lines: $(LIBRARY)
	CC="$(CC)" CXX="$(CXX)" tests/c/header_lines.py include/radio_clock.h tests/c/header.c $(LIBRARY)

STACK = $(addprefix tests/c/,stack.c inputs.c reference.c)
$(C)/stack: $(STACK) $(HEADERS) $(LIBRARY)
	@mkdir -p $(C)
	$(PLAIN) -Wl,-z,now $(STACK) $(LIBRARY) -o $@

c-stack: $(C)/stack
	$(C)/stack

$(C)/compare: $(COMPARE) $(HEADERS) $(LIBRARY)
	@mkdir -p $(C)
	$(CHECKED) $(COMPARE) $(LIBRARY) -o $@

fuzz: $(C)/compare
	$(C)/compare -n $(N) $(if $(SEED),-s $(SEED))

$(C)/selftest: $(COMPARE) tests/c/faulty.c $(HEADERS)
	@mkdir -p $(C)
	$(CHECKED) $(COMPARE) tests/c/faulty.c -o $@

c-selftest: $(C)/selftest
	tests/c/selftest.sh $(C)/selftest

# The benchmark's plain C under the library's names, so that what compares the library compares it.
$(C)/compare-plain: $(COMPARE) tests/c/bench_plain.c $(HEADERS)
	@mkdir -p $(C)
	$(CHECKED) $(foreach entry,$(ENTRIES),-Dplain_$(entry)=radio_clock_$(entry)) $(COMPARE) tests/c/bench_plain.c -o $@

c-plain: $(C)/compare-plain
	$(C)/compare-plain -n 400000 $(if $(SEED),-s $(SEED))

$(C)/bench: $(BENCH) $(HEADERS) $(LIBRARY)
	@mkdir -p $(C)
	@$(PLAIN) $(BENCH) $(LIBRARY) -o $@

bench: $(C)/bench $(LIST_TIMES)
	@CC="$(CC)" tests/c/bench.sh $(C)/bench $(LIST_TIMES)

$(C)/collector: examples/collector.c include/radio_clock.h $(LIBRARY)
	@mkdir -p $(C)
	$(PLAIN) examples/collector.c $(LIBRARY) -o $@

collector: $(C)/collector

.PHONY: logger c-logger
$(C)/logger: examples/logger.c include/radio_clock.h $(LIBRARY)
	@mkdir -p $(C)
	$(PLAIN) examples/logger.c $(LIBRARY) -o $@

logger: $(C)/logger

c-logger: $(C)/logger
	python3 tests/logger.py $(C)/logger

SAMPLES = $(addprefix tests/c/,samples.c inputs.c reference.c)
$(C)/samples: $(SAMPLES) $(HEADERS)
	@mkdir -p $(C)
	$(PLAIN) $(SAMPLES) -o $@

# Makes the collector's samples anew.
samples: $(C)/samples
	$(C)/samples samples

c-collector: $(C)/collector $(C)/samples
	tests/c/collector.sh $(C)/collector $(C)/samples

install: $(LIBRARY) $(LIST_TIMES)
	install -d $(sort $(dir $(addprefix $(DESTDIR),$(INSTALLED))))
	install -m 755 $(LIST_TIMES) $(DESTDIR)$(BINDIR)/list_times
	install -m 644 $(LIBRARY) $(DESTDIR)$(LIBDIR)/libradio_clock.a
	install -m 644 include/radio_clock.h $(DESTDIR)$(INCLUDEDIR)/radio_clock.h
	sed -e 's|@PREFIX@|$(PREFIX)|' -e 's|@LIBDIR@|$(call below_prefix,$(LIBDIR))|' -e 's|@VERSION@|$(VERSION)|' \
	    -e 's|@INCLUDEDIR@|$(call below_prefix,$(INCLUDEDIR))|' radio_clock.pc.in \
	    > $(DESTDIR)$(LIBDIR)/pkgconfig/radio_clock.pc
	chmod 644 $(DESTDIR)$(LIBDIR)/pkgconfig/radio_clock.pc
	for page in $(MANUALS); do install -m 644 $$page $(DESTDIR)$(MANDIR)/man$${page##*.}/; done

uninstall:
	rm -f $(addprefix $(DESTDIR),$(INSTALLED))

c-install: $(LIBRARY) $(LIST_TIMES)
	tests/c/install.sh "$(MAKE) LIBRARY=$(LIBRARY) LIST_TIMES=$(LIST_TIMES)"

commands-test:
	tests/commands.sh

# The archive holds what is installed, in a folder that can stand anywhere, and the programs of examples/.
dist: $(LIBRARY) $(LIST_TIMES) $(EXAMPLES)
	@tools/dist $(DISTDIR) $(ARCHIVE) "$(MAKE) LIBRARY=$(LIBRARY) LIST_TIMES=$(LIST_TIMES)" $(EXAMPLES)

dist-test: $(LIBRARY) $(LIST_TIMES) $(EXAMPLES)
	tests/c/dist.sh $(ARCHIVE) "$(MAKE) LIBRARY=$(LIBRARY) LIST_TIMES=$(LIST_TIMES)"
