# make          proves and builds the program and the library's archive, where a crate has changed
# make run      the same for the program alone, and runs it on examples/sample.txt
# make test     proves every crate, tries the edits that must be refused, and passes all tests; the last line is
#               'N passed, 0 failed'
# make bench    prints the benchmarks: some minutes on an idle machine
# make install  installs the program, the library, its header, a pkg-config file and manual pages, under DESTDIR and
#               PREFIX
PREFIX ?= /usr/local
INSTALLED = $(DESTDIR)$(PREFIX)
PROGRAM = target/bin/filter
ARCHIVE = target/staticlib/libshelfegret.a
SOURCES = crates.txt $(shell find crates -path '*/out' -prune -o \( -name '*.rt' -o -name '*.antt' \) -print)
# Any x86-64: the toolchain's own choice would want SSE4.1.
CPU = --cpu=x86-64
SHELL = /bin/bash
.SHELLFLAGS = -o pipefail -c
export LC_ALL = C

# Shows what is checked as it goes. All that rt says is in the log, and is shown if it fails.
SHOWN = 2>&1 | tee $(1) | grep --line-buffered '^rt: \|^logic=' || { cat $(1); exit 1; }

all: $(PROGRAM) $(ARCHIVE)

$(PROGRAM): $(SOURCES)
	@mkdir -p $(@D)
	@echo 'rt run $(CPU), in crates/filter'
	@cd crates/filter && rt run $(CPU) </dev/null $(call SHOWN,../../target/filter.log)
	@cp crates/filter/out/filter $@

$(ARCHIVE): $(SOURCES)
	@mkdir -p $(@D)
	@echo 'rt lib $(CPU), in crates/shelfegret'
	@cd crates/shelfegret && rt lib $(CPU) $(call SHOWN,../../target/shelfegret.log)
	@cp crates/shelfegret/out/libshelfegret.a $@

run: $(PROGRAM)
	$(PROGRAM) < examples/sample.txt

test:
	.ci/run

bench: all
	bench/run
	bench/program
	bench/capacity
	bench/footprint
	bench/worst

install: all
	install -d $(INSTALLED)/bin $(INSTALLED)/include $(INSTALLED)/lib/pkgconfig $(INSTALLED)/share/man/man1 \
		$(INSTALLED)/share/man/man3
	install -m 755 $(PROGRAM) $(INSTALLED)/bin/shelfegret
	install -m 644 include/shelfegret.h $(INSTALLED)/include
	install -m 644 $(ARCHIVE) $(INSTALLED)/lib
	install -m 644 man/shelfegret.1 $(INSTALLED)/share/man/man1
	install -m 644 man/shelfegret.3 $(INSTALLED)/share/man/man3
	sed 's|@PREFIX@|$(PREFIX)|' shelfegret.pc.in > $(INSTALLED)/lib/pkgconfig/shelfegret.pc
	chmod 644 $(INSTALLED)/lib/pkgconfig/shelfegret.pc

.PHONY: all run test bench install
