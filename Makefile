# Enfysgar: building, testing and installing. The proofs and the compiled code come from `rt` (the Rattle kit).
#
#   make demo                a day of corrections, readable
#   make test                the whole gate
#   make examples            the example daemon, nutation rows from a file, a rescue from an image, and a comparison of two files of
#                            records, held to their stored output
#   make bench               times against plain C, and ERFA where it is installed; status 1 above a limit
#   make install PREFIX=..   header, archive, programs, the tool enfysgar-rows with an example, pkg-config file, manual pages, notice,
#                            licence, rules, differences, changes and the source of the routines; PREFIX has no spaces
#   make version             the version, which the header has too
#   make lint                the layout of the C files, where clang-format is installed
#   make clean               removes what was made

RT ?= rt
CC ?= cc
CFLAGS ?= -O2 -Wall -Wextra
PREFIX ?= /usr/local
VERSION = 2.5.2
DAY ?= 2007 12 31 96 900

ARCHIVE = target/staticlib/libenfysgar.a
PROGRAM = target/bin/run_day
RESCUE = target/bin/rescue_records
COMPARE = build/examples/compare_records
CRATES = crates.txt $(shell find crates -name out -prune -o \( -name '*.rt' -o -name '*.antt' \) -print)

# what is installed of the source: the code and its definitions
SOURCE = $(shell find crates -name out -prune -o \( -path '*/src/*.rt' -o -path '*/specs/*.antt' \) -print)
DOC = $(DESTDIR)$(PREFIX)/share/doc/enfysgar

C_FILES = $(wildcard include/*.h tests/*.c tests/*.h examples/*.c bench/*.c bench/*.h)

.PHONY: all archive program demo examples bench test install version lint clean

all: archive program

archive: $(ARCHIVE)
program: $(PROGRAM) $(RESCUE) $(COMPARE)

# `rt lib` and `rt run` leave what they make in the crate's folder out/
$(ARCHIVE): $(CRATES)
	cd crates/enfysgar && $(RT) lib
	@mkdir -p $(@D)
	cp crates/enfysgar/out/libenfysgar.a $@

$(PROGRAM) $(RESCUE): target/bin/%: $(CRATES)
	cd crates/$* && $(RT) run </dev/null >/dev/null
	@mkdir -p $(@D)
	cp crates/$*/out/$* $@

build/examples/%: examples/%.c include/enfysgar.h $(ARCHIVE)
	@mkdir -p build/examples
	$(CC) -std=c11 $(CFLAGS) -Iinclude -o $@ $< $(ARCHIVE)

demo: $(PROGRAM) build/examples/show_records
	echo "$(DAY)" | $(PROGRAM) | build/examples/show_records

build/examples/built_in_rows.bin: examples/built_in_rows.txt tools/rows
	@mkdir -p build/examples
	tools/rows pack examples/built_in_rows.txt -o $@

# An image for rescue_image, which is longer than a window: two records, a sector of zeros, one that is cut and one that is not, and one
# that begins ten bytes before the end of the first window. The record is that of day 54465 with the numbers 1, -1 and 0.
RECORD = \000\036\001\000\000\000\324\301\000\000\000\040\000\000\000\000\000\000\000\001\377\377\377\377\000\000\000\000\052\002

build/examples/image.bin: Makefile
	@mkdir -p build/examples
	{ printf '$(RECORD)$(RECORD)'; head -c 512 /dev/zero; printf '$(RECORD)' | head -c 20; printf '$(RECORD)'; \
	    head -c 64904 /dev/zero; printf '$(RECORD)'; head -c 5 /dev/zero; } >$@

# Two files for compare_records: the last microsecond of day 54464 with other numbers in each, that record, and one more in each. In a
# third the order is wrong.
EVE = \000\036\001\000\000\000\324\300\000\000\000\024\035\327\137\377\200\000\000\000\000\000\000\005\000\000\000\007\054\054
EVE_AGAIN = \000\036\001\000\000\000\324\300\000\000\000\024\035\327\137\377\177\377\377\377\000\000\000\005\000\000\000\004\054\061
QUARTER = \000\036\001\000\000\000\324\301\000\000\000\040\065\244\351\000\000\000\000\002\000\000\000\002\000\000\000\002\013\127
NEXT = \000\036\001\000\000\000\324\302\000\000\000\100\000\000\000\000\000\000\000\003\000\000\000\003\000\000\000\003\051\327

build/examples/first.bin: Makefile
	@mkdir -p build/examples
	printf '$(EVE)$(RECORD)$(QUARTER)' >$@

build/examples/second.bin: Makefile
	@mkdir -p build/examples
	printf '$(EVE_AGAIN)$(RECORD)$(NEXT)' >$@

build/examples/falling.bin: Makefile
	@mkdir -p build/examples
	printf '$(RECORD)$(EVE)' >$@

# nutation_rows: within the rows, after the last, and for a file that has no rows, where its status is 1
# rescue_image: an image, its records themselves, and an image that is missing, where its status is 1
# compare_records: two files, where its status is 1, a file and itself, and two that are refused, where it is 2
examples: build/examples/daemon build/examples/show_records build/examples/nutation_rows build/examples/built_in_rows.bin \
    build/examples/rescue_image build/examples/image.bin \
    $(COMPARE) build/examples/first.bin build/examples/second.bin build/examples/falling.bin
	build/examples/daemon >build/examples/daemon.out
	diff -u examples/daemon.expected build/examples/daemon.out
	build/examples/nutation_rows build/examples/built_in_rows.bin 54466 1 >build/examples/nutation_rows.out
	build/examples/nutation_rows build/examples/built_in_rows.bin 61360 43200000000 >>build/examples/nutation_rows.out
	! build/examples/nutation_rows examples/built_in_rows.txt 54466 1 >>build/examples/nutation_rows.out
	diff -u examples/nutation_rows.expected build/examples/nutation_rows.out
	build/examples/rescue_image build/examples/image.bin build/examples/rescued.bin >build/examples/rescue_image.out
	build/examples/rescue_image - build/examples/again.bin <build/examples/rescued.bin >>build/examples/rescue_image.out
	! build/examples/rescue_image build/examples/missing build/examples/none.bin 2>>build/examples/rescue_image.out
	diff -u examples/rescue_image.expected build/examples/rescue_image.out
	cmp build/examples/rescued.bin build/examples/again.bin
	build/examples/show_records <build/examples/rescued.bin >/dev/null
	$(COMPARE) build/examples/first.bin build/examples/second.bin >build/examples/compare_records.out; test $$? = 1
	$(COMPARE) build/examples/first.bin - <build/examples/first.bin >>build/examples/compare_records.out
	$(COMPARE) build/examples/image.bin build/examples/falling.bin 2>>build/examples/compare_records.out; test $$? = 2
	diff -u examples/compare_records.expected build/examples/compare_records.out
	@echo "examples: the daemon, nutation_rows, rescue_image and compare_records wrote what they should"

bench: $(ARCHIVE)
	bench/run

test:
	.ci/run

install: $(ARCHIVE) $(PROGRAM) $(RESCUE) $(COMPARE)
	install -d $(DESTDIR)$(PREFIX)/include $(DESTDIR)$(PREFIX)/lib/pkgconfig $(DESTDIR)$(PREFIX)/bin \
	    $(DESTDIR)$(PREFIX)/share/man/man1 $(DOC) $(DESTDIR)$(PREFIX)/share/enfysgar
	install -m 644 include/enfysgar.h $(DESTDIR)$(PREFIX)/include/
	install -m 644 $(ARCHIVE) $(DESTDIR)$(PREFIX)/lib/
	install -m 755 $(PROGRAM) $(RESCUE) $(COMPARE) $(DESTDIR)$(PREFIX)/bin/
	install -m 755 tools/rows $(DESTDIR)$(PREFIX)/bin/enfysgar-rows
	install -m 644 packaging/run_day.1 packaging/rescue_records.1 packaging/compare_records.1 packaging/enfysgar-rows.1 \
	    $(DESTDIR)$(PREFIX)/share/man/man1/
	install -m 644 NOTICE LICENSE CHANGELOG.md docs/DIFFERENCES.md docs/RULES.md $(DOC)/
	install -d $(DOC)/examples
	install -m 644 examples/built_in_rows.txt $(DOC)/examples/
	install -d $(DESTDIR)$(PREFIX)/share/enfysgar/docs
	install -m 644 NOTICE LICENSE $(DESTDIR)$(PREFIX)/share/enfysgar/
	install -m 644 docs/DIFFERENCES.md $(DESTDIR)$(PREFIX)/share/enfysgar/docs/
	for file in $(SOURCE); do install -D -m 644 $$file $(DESTDIR)$(PREFIX)/share/enfysgar/$$file || exit 1; done
	sed -e 's|@PREFIX@|$(PREFIX)|' -e 's|@VERSION@|$(VERSION)|' packaging/enfysgar.pc.in \
	    >$(DESTDIR)$(PREFIX)/lib/pkgconfig/enfysgar.pc

version:
	@echo $(VERSION)

lint:
	@if command -v clang-format >/dev/null; then \
	    clang-format --dry-run -Werror $(C_FILES) && echo "lint: the C files are in their layout"; \
	else \
	    echo "lint: clang-format is not installed, nothing was looked at"; \
	fi

clean:
	rm -rf build target crates/*/out
	find . -name __pycache__ -prune -exec rm -rf {} +
