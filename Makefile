# Everything around the proved library: the demonstration, the gate, the
# comparison with the original Rust, the benchmark and the installation.
# What is built goes to target/ alone.
#
#   make demo               build library and host, run it, write its pictures
#   make demo-check         the same, and compare what it prints; also as C++17
#   make check              the gate
#   make mirror             flip pictures and vectors, and compare the answers
#   make versions           every version number, on good input and with faults
#   make quarters           merging by quarters beside split, and with faults
#   make report             samples fetched and clipped, counted another way
#   make frames             whole frames beside single calls, and with faults
#   make frame-bench        a frame's time beside that of single calls
#   make programs           the programs for people, in target/programs
#   make tools-check        build them, and try each on small files
#   make freestanding       link a host that has no C library, and run it
#   make ivf-evidence       mending at scale, on made and on real recordings
#   make ivf-bench          its time beside that of copying
#   make y4m-evidence       headers and frames at scale, and real files
#   make y4m-bench          a frame's time beside that of copying
#   make oracle RUST=SRC    compare with the original Rust in folder SRC
#   make rfc-version3 RFC=FILE
#                           run the decoder that RFC 6386 prints, given its text,
#                           on version 3 beside the two modes of it here
#   make libvpx-check       libvpx's VP8 decoder over this library, beside the stock
#                           one: every sample, and frames a second
#   make bindings-check     the Rust binding's own tests; with RUST=SRC also beside
#                           the original
#   make rfc-transforms RFC=FILE
#                           run the inverse transforms that it prints beside ours
#   make rfc-factors RFC=FILE
#                           compare the tables and factors that it prints with ours
#   make bench RUST=SRC     time both in one run on this processor; bench/count
#                           counts x86-64 instructions
#   make install PREFIX=DIR header, library, pkg-config file and programs
#   make install-check      install into target/ and build the host from there
#   make clean              remove target/, what is proved included
#
# ARCHIVE=FILE takes another static library than the one that rt builds; SHIMS=
# leaves the functions on one plane out of the comparison.
#
# The library is for x86-64. On another processor the host is cross-compiled and
# run by an emulator, which tools/x86-64-tools installs; the oracle also wants
# RUSTC=..., see tests/x86-64.sh; the benchmark times a library made for that
# processor, see bench/native-archive.

VERSION = 0.9.0
PREFIX = /usr/local
DESTDIR =
ARCHIVE = target/staticlib/libthreshowl.a
SHIMS = target/staticlib/libshims.a
PKG_CONFIG = pkg-config
INSTALL = install
BENCHED = $(ARCHIVE) $(SHIMS)

ifneq ($(shell uname -m),x86_64)
BENCHED =
ifeq ($(origin CC),default)
CC = x86_64-linux-gnu-gcc
endif
ifeq ($(origin CXX),default)
CXX = x86_64-linux-gnu-g++
endif
LIBC = $(shell $(CC) -print-file-name=libc.so.6)
EMULATOR = qemu-x86_64 -L $(LIBC:%/lib/libc.so.6=%)
endif

WARNINGS = -Wall -Wextra -Wpedantic -Werror -Wconversion -Wsign-conversion -Wshadow -Wcast-qual \
        -Wwrite-strings -Wundef -Wformat=2 -Wvla -Wdouble-promotion
AS_C = $(CC) -std=c11 $(WARNINGS) -Wstrict-prototypes -Wmissing-prototypes -O2
AS_CXX = $(CXX) -std=c++17 $(WARNINGS) -O2
HOST = examples/lamp_panel.c
DRAWING = examples/drawing.h
EXPECTED = examples/lamp_panel.expected
FREESTANDING = tests/freestanding/host.c

.PHONY: demo demo-check check mirror versions quarters report frames frame-bench oracle bench install install-check clean tools rust-named FORCE
.PHONY: bindings-check libvpx-check programs tools-check freestanding ivf-evidence ivf-bench y4m-evidence y4m-bench rfc-version3 rfc-transforms rfc-factors rfc-named

demo: target/demo/lamp_panel
	$(EMULATOR) target/demo/lamp_panel target/demo
	@echo "The pictures are in target/demo."

demo-check: target/demo/lamp_panel target/demo/lamp_panel_cxx
	$(EMULATOR) target/demo/lamp_panel target/demo >target/demo/printed
	diff -u $(EXPECTED) target/demo/printed
	$(EMULATOR) target/demo/lamp_panel_cxx target/demo >target/demo/printed
	diff -u $(EXPECTED) target/demo/printed

check:
	bash .ci/run

mirror: target/mirror/mirror
	$(EMULATOR) target/mirror/mirror $(SEED)

versions: target/versions/versions
	$(EMULATOR) target/versions/versions $(SEED)

report: target/report/report
	$(EMULATOR) target/report/report $(SEED)

quarters: target/quarters/quarters
	$(EMULATOR) target/quarters/quarters $(SEED)

frames: target/frame/frame
	$(EMULATOR) target/frame/frame $(SEED)

frame-bench: $(ARCHIVE) | tools
	mkdir -p target/bench
	$(AS_C) -Iinclude bench/frame.c "$(ARCHIVE)" $(LDLIBS) -o target/bench/frame
	$(EMULATOR) target/bench/frame

# A program NAME is programs/NAME.c, its page programs/NAME.1, its trial programs/NAME.test.
PROGRAMS = mend y4m
BUILT = $(PROGRAMS:%=target/programs/%)

programs: $(BUILT)

tools-check: $(PROGRAMS:%=try-%)

try-%: target/programs/% FORCE
	EMULATOR="$(EMULATOR)" sh programs/$*.test target/programs/$*

# The host calls each function of the header.
freestanding: target/freestanding/host
	@for f in $$(grep -o 'threshowl_[a-z0-9_]*(' include/threshowl.h); do \
	    grep -qF "$$f" $(FREESTANDING) || { echo "$(FREESTANDING) does not call $$f)" >&2; exit 1; }; done
	$(EMULATOR) target/freestanding/host

ivf-evidence: $(ARCHIVE) target/programs/mend
	CC="$(AS_C)" EMULATOR="$(EMULATOR)" tests/ivf/run "$(ARCHIVE)" target/programs/mend

ivf-bench: $(ARCHIVE) | tools
	mkdir -p target/bench
	$(AS_C) -Iinclude bench/ivf.c "$(ARCHIVE)" $(LDLIBS) -o target/bench/ivf
	$(EMULATOR) target/bench/ivf

y4m-evidence: $(ARCHIVE) target/programs/y4m
	CC="$(AS_C)" EMULATOR="$(EMULATOR)" tests/y4m/run "$(ARCHIVE)" target/programs/y4m

y4m-bench: $(ARCHIVE) | tools
	mkdir -p target/bench
	$(AS_C) -Iinclude bench/y4m.c "$(ARCHIVE)" $(LDLIBS) -o target/bench/y4m
	$(EMULATOR) target/bench/y4m

oracle: rust-named $(ARCHIVE) $(SHIMS)
	tests/oracle/run "$(RUST)" "$(ARCHIVE)" $(SHIMS)

rfc-version3: rfc-named $(ARCHIVE) | tools
	CC="$(CC)" AS_C="$(AS_C)" EMULATOR="$(EMULATOR)" SEED="$(SEED)" tests/rfc/run-version3 "$(RFC)" "$(ARCHIVE)"

libvpx-check: $(ARCHIVE)
	CC="$(AS_C)" examples/libvpx/run "$(ARCHIVE)"

bindings-check: $(ARCHIVE)
	RUST="$(RUST)" bindings/rust/check "$(ARCHIVE)"

rfc-transforms: rfc-named $(ARCHIVE) | tools
	CC="$(CC)" AS_C="$(AS_C)" EMULATOR="$(EMULATOR)" SEED="$(SEED)" tests/rfc/run-transforms "$(RFC)" "$(ARCHIVE)"

rfc-factors: rfc-named $(ARCHIVE) $(SHIMS) | tools
	CC="$(CC)" AS_C="$(AS_C)" EMULATOR="$(EMULATOR)" SEED="$(SEED)" tests/rfc/run-factors "$(RFC)" "$(ARCHIVE)" $(SHIMS)

bench: rust-named $(BENCHED)
	bench/run "$(RUST)" $(BENCHED)

install: $(ARCHIVE) $(BUILT)
	$(INSTALL) -d "$(DESTDIR)$(PREFIX)/include" "$(DESTDIR)$(PREFIX)/lib/pkgconfig"
	$(INSTALL) -m 644 include/threshowl.h "$(DESTDIR)$(PREFIX)/include/threshowl.h"
	$(INSTALL) -m 644 "$(ARCHIVE)" "$(DESTDIR)$(PREFIX)/lib/libthreshowl.a"
	sed -e 's|@PREFIX@|$(PREFIX)|' -e 's|@VERSION@|$(VERSION)|' threshowl.pc.in \
	    >"$(DESTDIR)$(PREFIX)/lib/pkgconfig/threshowl.pc"
	$(INSTALL) -d "$(DESTDIR)$(PREFIX)/bin" "$(DESTDIR)$(PREFIX)/share/man/man1"
	$(INSTALL) $(BUILT) "$(DESTDIR)$(PREFIX)/bin"
	$(INSTALL) -m 644 $(PROGRAMS:%=programs/%.1) "$(DESTDIR)$(PREFIX)/share/man/man1"

INSTALLED = $(CURDIR)/target/installed

install-check:
	$(MAKE) install PREFIX="$(INSTALLED)" DESTDIR= ARCHIVE="$(ARCHIVE)"
	PKG_CONFIG_PATH="$(INSTALLED)/lib/pkgconfig" $(PKG_CONFIG) --cflags --libs threshowl \
	    >target/installed/words
	$(AS_C) $(HOST) $$(cat target/installed/words) $(LDLIBS) -o target/installed/lamp_panel
	$(EMULATOR) target/installed/lamp_panel target/installed >target/installed/printed
	diff -u $(EXPECTED) target/installed/printed

clean:
	rm -rf target crates/*/out

target/demo/lamp_panel: $(HOST) $(DRAWING) include/threshowl.h $(ARCHIVE) | tools
	mkdir -p target/demo
	$(AS_C) -Iinclude $(HOST) "$(ARCHIVE)" $(LDLIBS) -o $@

target/demo/lamp_panel_cxx: $(HOST) $(DRAWING) include/threshowl.h $(ARCHIVE) | tools
	mkdir -p target/demo
	$(AS_CXX) -Iinclude -x c++ $(HOST) -x none "$(ARCHIVE)" $(LDLIBS) -o $@

target/freestanding/host: $(FREESTANDING) include/threshowl.h $(ARCHIVE) | tools
	mkdir -p target/freestanding
	$(AS_C) -ffreestanding -fno-stack-protector -nostdlib -static -Iinclude $(FREESTANDING) \
	    -Wl,--whole-archive "$(ARCHIVE)" -Wl,--no-whole-archive -o $@

# The driver NAME is tests/NAME/NAME.c.
target/mirror/mirror target/versions/versions target/quarters/quarters target/report/report target/frame/frame: target/%: tests/%.c tests/draw.h tests/vectors.h include/threshowl.h $(ARCHIVE) | tools
	mkdir -p $(@D)
	$(AS_C) -Iinclude $< "$(ARCHIVE)" $(LDLIBS) -o $@

target/programs/%: programs/%.c programs/files.c programs/files.h include/threshowl.h $(ARCHIVE) | tools
	mkdir -p target/programs
	$(AS_C) -Iinclude $< programs/files.c "$(ARCHIVE)" $(LDLIBS) -o $@

tools:
	tools/x86-64-tools

# rt knows itself what has changed. `shims` is a library of Rattle's, and shims_c exports its functions for C.
CRATE_threshowl = threshowl
CRATE_shims = shims_c

target/staticlib/lib%.a: FORCE
	@echo "Proving and building lib$*.a: some ten minutes the first time, seconds where nothing changed."
	mkdir -p $(@D)
	cd crates/$(CRATE_$*) && rt lib
	cp crates/$(CRATE_$*)/out/lib$(CRATE_$*).a $@

rust-named:
	@[ -n "$(RUST)" ] || { echo "say which Rust: make ... RUST=FOLDER-OF-motion_comp.rs" >&2; exit 2; }

rfc-named:
	@[ -n "$(RFC)" ] || { echo "say where the RFC is: make ... RFC=TEXT-OF-RFC-6386" >&2; exit 2; }
