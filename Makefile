# Ovenquill: `make` builds the archive, the program check_sheet and the C examples, `make demo` runs these, `make test` runs every
# test but the proofs' own gate (`rt ci`), `make bench` prints the tables of ratios, `make install PREFIX=..` installs for C and C++.

PREFIX ?= /usr/local
CC ?= cc
CXX ?= c++
CFLAGS ?= -O2 -Wall -Wextra -Wconversion -pedantic -Werror

LIB := build/lib/libovenquill.a
CHECK_SHEET := build/check_sheet
EXAMPLES := build/player build/check_claim build/write_sheet
RATTLE := crates.txt $(shell find crates -name out -prune -o \( -name '*.rt' -o -name '*.antt' \) -print)

# The version stands in the header, its three numbers a line each.
VERSION := $(subst $() ,.,$(strip $(shell sed -n 's/^.define OVENQUILL_VERSION_[A-Z]* //p' include/ovenquill.h)))

.PHONY: all demo test bench install clean
.PHONY: test-dates test-edits test-declarations test-c test-labels test-weeks test-sheets test-stack test-examples test-install
.PHONY: test-constants test-rust test-readme

all: $(LIB) $(CHECK_SHEET) $(EXAMPLES)

# The archive: proved first, and only then built. It and the program are for every x86-64; the kit's own choice is x86-64-v2.
$(LIB): $(RATTLE)
	cd crates/player && rt lib --cpu=x86-64
	mkdir -p build/lib
	cp crates/player/out/libplayer.a $@

# The program, proved and built after the archive: what both have is proved once, and never by two at a time.
$(CHECK_SHEET): $(RATTLE) | $(LIB)
	cd crates/check_sheet && rt run --cpu=x86-64 < /dev/null > /dev/null
	cp crates/check_sheet/out/check_sheet $@

build/%: examples/%.c examples/read_line.h include/ovenquill.h $(LIB)
	$(CC) $(CFLAGS) -std=c99 -Iinclude $< $(LIB) -o $@

demo: $(EXAMPLES) $(CHECK_SHEET)
	printf '%s\n' 1683729000000 -1 0 951782400000 -2208988800000 | build/player
	build/check_claim 1 0 10 26 0 8 0 69
	printf '%s\n' '1 0 10 26 0 8 0 69' '1 0 10 26 0 8 0 100' | build/write_sheet | $(CHECK_SHEET)

test: test-dates test-edits test-declarations test-c test-labels test-weeks test-sheets test-stack test-examples test-install
test: test-constants test-rust test-readme

# The programs that print what the archive answers, for a test to compare.
build/tests/%: tests/c/%.c include/ovenquill.h $(LIB)
	mkdir -p build/tests
	$(CC) $(CFLAGS) -std=c99 -Iinclude $< $(LIB) -o $@

# The expected output of the program `dates`, which has every 13th year and so each of the 400 of a cycle, is what an independent
# program prints today. What the archive answers for every year is what the same program prints for them.
test-dates: build/tests/all_dates
	python3 tools/dates.py 13 | cmp - crates/dates/stdout
	build/tests/all_dates > build/tests/dates
	python3 tools/dates.py | cmp - build/tests/dates

# Every must-fail edit still fits the files that it changes, and the tool that says so sees a fault. Whether the edits are refused is
# for `rt must-fail` to say, and whether each function that they change is, for `tools/check_edits --refused`. The benchmarks' own
# edit fits too. The two files of the table of days are what their script writes.
test-edits:
	tools/check_edits
	tests/test_check_edits.py
	tools/build_lengths --fits
	tools/make_day_table --check

# The exports, the header and the Rust package declare the same calls; and the tool that says so sees a fault.
test-declarations:
	tools/check_declarations
	tests/test_check_declarations.py

test-c: $(LIB)
	tests/c/run $(LIB)

# The reader and the writer of instant labels against those in Python.
test-labels: $(LIB)
	tests/test_labels.py $(LIB)

# Every week date against Python's.
test-weeks: build/tests/all_weeks
	tests/test_weeks.py build/tests/all_weeks

# The archive's calls on sheets, and the program, against a reader, a writer and a checker in Python.
test-sheets: build/tests/answer_sheets $(CHECK_SHEET)
	tests/test_sheets.py build/tests/answer_sheets $(CHECK_SHEET)

# Claims by trying every n, without the archive.
build/tests/scan_claims: tests/c/scan_claims.c tests/c/plain_constants.c tests/c/plain.h
	mkdir -p build/tests
	$(CC) $(CFLAGS) -std=c99 tests/c/scan_claims.c tests/c/plain_constants.c -o $@

# The sheet of the library's own constants against the claims that are proved, check_sheet, a scan and the code; and the test sees a
# fault in each.
test-constants: build/write_sheet $(CHECK_SHEET) build/tests/scan_claims
	tests/test_constants.py build/write_sheet $(CHECK_SHEET) build/tests/scan_claims

test-stack: $(LIB)
	tests/test_stack.py $(LIB)

test-examples: $(EXAMPLES) $(CHECK_SHEET)
	tests/examples/run build

test-install: $(LIB) $(CHECK_SHEET)
	tests/install/run

test-readme: $(LIB)
	tests/test_readme.py

# In the benchmarks every function of either side begins at a multiple of 64 bytes, so that none gains by where in 64 bytes it begins.
# `make bench ALIGN=32` and `ALIGN=16` print the same tables with other multiples, from folders of their own; only the two ways to a
# month's length stay as they are. Rust is told the power of two.
ALIGN := 64
POWER_64 := 6
POWER_32 := 5
POWER_16 := 4
ALIGN_POWER = $(or $(POWER_$(ALIGN)),$(error ALIGN is 64, 32 or 16))
ALIGN_FOLDER := $(if $(filter-out 64,$(ALIGN)),_$(ALIGN))

# libstdc++'s calendar is one of the benchmarks' rivals where the C++ compiler has it; the tests compile the benchmarks too.
build/chrono$(ALIGN_FOLDER)/libovenquill_chrono.a: rust/benches/chrono.cpp
	mkdir -p $(@D)
	$(CXX) -O3 -std=c++20 -falign-functions=$(ALIGN) -c $< -o $(@D)/chrono.o
	ar rcs $@ $(@D)/chrono.o

# Whether it has, asked only where the rival is wanted.
ifneq ($(filter test test-rust bench,$(MAKECMDGOALS)),)
HAS_CHRONO := $(shell $(CXX) -std=c++20 -fsyntax-only rust/benches/chrono.cpp 2> /dev/null && echo yes)
endif
ifeq ($(HAS_CHRONO),yes)
CHRONO := build/chrono$(ALIGN_FOLDER)/libovenquill_chrono.a
bench test-rust: export OVENQUILL_CHRONO := $(CURDIR)/build/chrono$(ALIGN_FOLDER)
endif

test-rust: $(LIB) $(CHRONO)
	tests/rust/run

# The benchmarks compare the two ways to a month's length, so they link a second archive that has both.
LENGTHS := build/lengths/libovenquill_lengths.a

$(LENGTHS): $(LIB) tools/build_lengths | $(CHECK_SHEET)
	tools/build_lengths $(LIB) $@

ALIGNED := build/aligned$(ALIGN_FOLDER)/libovenquill.a

$(ALIGNED): $(LIB)
	mkdir -p $(@D)
	objcopy --set-section-alignment '.text*=$(ALIGN)' $< $@

bench: $(ALIGNED) $(CHRONO) $(LENGTHS)
	cd rust && OVENQUILL_LIB=../build/aligned$(ALIGN_FOLDER) OVENQUILL_LENGTHS=../build/lengths \
	  RUSTFLAGS="$$RUSTFLAGS -C llvm-args=-align-all-functions=$(ALIGN_POWER)" \
	  cargo bench --quiet --target-dir ../build/bench$(ALIGN_FOLDER)

# A relative PREFIX is one in this folder. One with a blank in it is kept, which $(abspath ..) would not do.
INSTALLED := $(if $(PREFIX),$(if $(filter /%,$(firstword $(PREFIX))),,$(CURDIR)/))$(PREFIX)

install: $(LIB) $(CHECK_SHEET)
	install -d '$(DESTDIR)$(INSTALLED)/bin' '$(DESTDIR)$(INSTALLED)/lib/pkgconfig' '$(DESTDIR)$(INSTALLED)/include'
	install -m 755 $(CHECK_SHEET) '$(DESTDIR)$(INSTALLED)/bin/'
	install -m 644 $(LIB) '$(DESTDIR)$(INSTALLED)/lib/'
	install -m 644 include/ovenquill.h '$(DESTDIR)$(INSTALLED)/include/'
	printf '%s\n' 'prefix=$(INSTALLED)' '' 'Name: ovenquill' \
	  'Description: The Gregorian calendar, week dates, labels of instants, week dates and positions, cue lines, a checker of constants, sheets of claims, and a follower of the transport clock, proved right' \
	  'Version: $(VERSION)' 'Libs: -L$${prefix}/lib -lovenquill' 'Cflags: -I$${prefix}/include' \
	  > '$(DESTDIR)$(INSTALLED)/lib/pkgconfig/ovenquill.pc'

clean:
	rm -rf build crates/*/out rust/target
