# make run       the demonstration: the paper's first examples, a full list tidied, a bench's boot over the library, which reads a device
#                tree, up to the valves' test certificates, damaged boots, where a bad entry is named, a breaker that trips in the middle of
#                an edit, the loop that steps and flushes, a list of edition 0.9 converted
# make show      the entries of a list in a file, up to a bad one, which it points at: FILE=.. BASE=..; without a file, two samples
# make test      everything that is checked; ends with rt ci, whose last line is 'N passed, 0 failed'
# make lib       target/staticlib/libtransfer_list.a, for C on x86-64-v2
# make install   the archive, the header and a pkg-config file under PREFIX (default /usr/local)
# make ctest     a C program over the header: every answer and byte as stored; the structures' layout
# make cuts      the compiled calls with a journal, cut after each instruction that stores; it fails where ptrace is not permitted
# make compare   the library beside the independent second program: LISTS=N SEED=S
# make compare-large  the same on large lists, up to 16 MiB: SEED=S; it is no part of make test, which fills no buffer over 64 KiB
# make bench     the library beside plain Rust, and its device trees beside libfdt too where that is installed; SHIFT=16, 32 or 48 puts
#                the library's functions so many bytes behind a line of 64 bytes
# make fdt-compare  device trees from dtc, damaged, beside libfdt: TREES=N SEED=S; it installs Debian's device-tree-compiler and libfdt-dev
#                where they are missing, and is no part of make test
# make size      the archive's sections
#
# It needs the Rattle kit (rt), make, gcc and g++ with binutils, and for compare, test and bench cargo. But for fdt-compare, nothing is fetched
# from a network.

LISTS = 200000
TREES = 1000000
SEED = 1
SHIFT = 0
PREFIX = /usr/local
CFLAGS = -O2 -Wall -Wextra -pedantic -Werror

LIB = target/staticlib/libtransfer_list.a
SOURCES = crates.txt $(shell find crates -name out -prune -o \( -name '*.rt' -o -name '*.antt' \) -print)
TIMED = target/staticlib/libtimed.a
C_FLAGS = -std=c99 $(CFLAGS) -Iinclude
CARGO = cargo build --quiet --release --offline

.PHONY: run show test lib install ctest cuts compare compare-large fdt-compare bench header-check symbols-check oracle-test size

run: target/demo/paper target/demo/boot target/demo/power target/demo/flush target/demo/edition09
	target/demo/paper
	target/demo/boot
	target/demo/power
	target/demo/flush
	target/demo/edition09

show: target/demo/show
	target/demo/show $(FILE) $(BASE)

test: header-check symbols-check ctest oracle-test compare run
	tools/gate

lib: $(LIB)

# the crate of the exports is transfer_list_c; the archive keeps its name
$(LIB): $(SOURCES)
	cd crates/transfer_list_c && rt lib
	mkdir -p target/staticlib
	cp crates/transfer_list_c/out/libtransfer_list_c.a $@

$(TIMED): $(SOURCES)
	cd crates/timed && rt lib
	mkdir -p target/staticlib
	cp crates/timed/out/libtimed.a $@

target/demo/%: demo/%.c demo/table.c demo/table.h include/transfer_list.h $(LIB)
	mkdir -p target/demo
	$(CC) $(C_FLAGS) -o $@ $< demo/table.c $(LIB)

# it includes the tree's bytes
target/demo/boot: demo/bench_dtb.h

install: $(LIB)
	install -d $(DESTDIR)$(PREFIX)/lib/pkgconfig $(DESTDIR)$(PREFIX)/include
	install -m 644 $(LIB) $(DESTDIR)$(PREFIX)/lib/
	install -m 644 include/transfer_list.h $(DESTDIR)$(PREFIX)/include/
	@printf 'prefix=%s\nName: transfer_list\nDescription: transfer lists of the Firmware Handoff specification, proved\nVersion: %s\nCflags: -I$${prefix}/include\nLibs: -L$${prefix}/lib -ltransfer_list\n' $(PREFIX) $$(sed -n 's/^#define TL_INTERFACE //p' include/transfer_list.h) > $(DESTDIR)$(PREFIX)/lib/pkgconfig/transfer_list.pc

# ctest/answers.expected was worked out from the paper, not with the library
ctest: target/ctest/answers
	$(CC) $(C_FLAGS) -fsyntax-only ctest/layout.c
	$(CC) -std=c11 $(CFLAGS) -Iinclude -fsyntax-only ctest/layout.c
	$(CXX) -std=c++11 $(CFLAGS) -Iinclude -fsyntax-only -x c++ ctest/layout.c
	target/ctest/answers > target/ctest/answers.out
	diff -u ctest/answers.expected target/ctest/answers.out

target/ctest/answers: ctest/answers.c include/transfer_list.h $(LIB)
	mkdir -p target/ctest
	$(CC) $(C_FLAGS) -o $@ $< $(LIB)

cuts: target/cuts/cuts
	target/cuts/cuts

target/cuts/cuts: cuts/cuts.c include/transfer_list.h $(LIB)
	mkdir -p target/cuts
	$(CC) $(C_FLAGS) -o $@ $< $(LIB)

compare: $(LIB)
	$(CARGO) --manifest-path oracle/Cargo.toml --target-dir target/oracle
	target/oracle/release/oracle $(LISTS) $(SEED)

compare-large: $(LIB)
	$(CARGO) --manifest-path oracle/Cargo.toml --target-dir target/oracle
	target/oracle/release/oracle large $(SEED)

# what dtc makes of fdt/sources: the trees that are kept, the remedy for old bytes in padding, and the library beside libfdt
fdt-compare: target/fdt/look
	fdt/install
	fdt/build target/fdt
	fdt/remedy target/fdt
	$(CC) $(C_FLAGS) -o target/fdt/compare fdt/compare.c fdt/damage.c fdt/words.c $(LIB) -lfdt
	target/fdt/compare $(SEED) $(TREES) target/fdt/*.dtb

target/fdt/look: fdt/look.c include/transfer_list.h $(LIB)
	mkdir -p target/fdt
	$(CC) $(C_FLAGS) -o $@ $< $(LIB)

# the second program's own examples, which need no library
oracle-test:
	cargo test --quiet --offline --manifest-path oracle/Cargo.toml --target-dir target/oracle

# plain Rust's functions start at a line of 64 bytes, the library's SHIFT bytes behind one, so that no row depends on the order of linking
bench: $(LIB) $(TIMED)
	bench/place $(SHIFT) $(LIB) target/bench/lib/libtransfer_list.a
	bench/place $(SHIFT) $(TIMED) target/bench/lib/libtimed.a
	TL_LIB_DIR=$(CURDIR)/target/bench/lib RUSTFLAGS='-C llvm-args=-align-all-functions=6' $(CARGO) --manifest-path bench/Cargo.toml --target-dir target/bench
	target/bench/release/bench

# the header is C99 and C++
header-check:
	$(CC) -std=c99 $(CFLAGS) -fsyntax-only -x c include/transfer_list.h
	$(CXX) -std=c++11 $(CFLAGS) -fsyntax-only -x c++ include/transfer_list.h

# the archive asks for no more than what a freestanding compiler asks for
symbols-check: $(LIB)
	@others=$$(nm -u $(LIB) | awk 'NF == 2 { print $$2 }' | grep -vxE 'memcpy|memmove|memset|memcmp'); \
	if [ -n "$$others" ]; then echo "undefined symbols: $$others"; exit 1; fi
	@echo "undefined symbols: $$(nm -u $(LIB) | awk 'NF == 2 { print $$2 }' | tr '\n' ' ')"

size: $(LIB)
	size $(LIB)
