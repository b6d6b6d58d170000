# Builds, tests and installs the program `langtag`, by the command `rt` of a Rattle kit.

PREFIX ?= /usr/local
LIBDIR ?= $(PREFIX)/lib
PARTS ?= program library
export DESTDIR PREFIX LIBDIR

.PHONY: all try check lib lib-aarch64 lib-wasm windows modules sqlite test edits side-by-side scripts growths statement bench hostile growth install uninstall deb dist fresh-debian clean gate

# Proves each crate that changed, and builds the program: `rt run` proves, builds and runs it.
all:
	@tools/build.py langtag -- run -- --help
	@mkdir -p build
	@cp crates/langtag/out/langtag crates/langtag/out/langtag.o build
	@echo "Built build/langtag, which is proved. Next: make check, which runs it, or make install as root."

# The program before any proof, run once with IANA's registry.
try:
	@command -v rt > /dev/null || { echo "There is no command rt on the path: docs/INSTALL.md says where a Rattle kit comes from."; exit 1; }
	@cd crates/langtag && rt try --data registry.txt=../../examples/iana-2025-05-15.txt -- show registry.txt zh-yue
	@echo "This was the program before any proof, so nothing is proved of it. Next: make, which proves and builds it."

# Runs what `make` built: the program's own runs, its messages beside the manual, and each command of README.
check:
	@test -x build/langtag || { echo "build/langtag is not built: run make first."; exit 1; }
	tests/program.sh
	tests/messages.sh
	tests/pages.py README.md
	@echo "The program in build/langtag does what these runs tell. Next: make install as root, or build/langtag --help."

# Proves and builds the library for C, for each processor of x86-64: build/libbcp47.a and build/libbcp47.so.1.
lib:
	@tools/build.py bcp47_c -- lib --cpu x86-64
	@bindings/c/build.sh
	@echo "Built build/libbcp47.a and build/libbcp47.so.1, whose exports are proved. Next: make install PARTS=library as root; docs/C.md."

# The same for aarch64, with gcc and binutils for it: build/aarch64/libbcp47.a and build/aarch64/libbcp47.so.1.
lib-aarch64:
	@tools/build.py bcp47_c -- lib --target aarch64-unknown-linux-gnu
	@bindings/c/build.sh build/aarch64 aarch64-linux-gnu-
	@echo "Built build/aarch64/libbcp47.a and build/aarch64/libbcp47.so.1. Next: make dist, which packs them."

# The same as WebAssembly, in build/wasm: bcp47.wasm, which every browser runs, and load.mjs. It needs clang, lld and binaryen of Debian 12.
lib-wasm: build/bcp47_c.bc
	bindings/wasm/build.sh
	@echo "Built build/wasm/bcp47.wasm. Next: docs/WASM.md shows a page that loads it."

# The program and the library for Windows, in build/windows: langtag.exe, bcp47.dll. It needs clang and mingw-w64.
windows: build/langtag.bc build/bcp47_c.bc
	packaging/windows/build.sh
	@echo "Built build/windows/langtag.exe and build/windows/bcp47.dll. Next: make dist, which packs them."

# A proved crate as the kit's clang is given it: the program for all that is not Linux.
build/%.bc: modules
	tools/build.py $*
	tools/module.sh $* $@ > /dev/null
modules:

# Builds the extension of SQLite over build/libbcp47.a, which `make lib` builds where it is not there: build/bcp47_sqlite.so. It
# shows nothing but its entry.
sqlite:
	@test -f build/libbcp47.a || $(MAKE) --no-print-directory lib
	gcc -O2 -fPIC -shared -fvisibility=hidden -Wl,--exclude-libs,ALL -Wall -Ibindings/c -o build/bcp47_sqlite.so \
	    bindings/sqlite/bcp47_sqlite.c build/libbcp47.a
	@echo "Built build/bcp47_sqlite.so. Next, in sqlite3: .load build/bcp47_sqlite; docs/SQL.md has its functions."

# The crate of tests in which each growth of memory is refused for this commit: each has its turn.
GROWN = $(shell bench/growth.py --turn)

# The tests that must pass for each change: proves from nothing what no earlier run on this machine proved, runs each test and
# program, judges the wrong bodies that tests/edits.judged has no verdict of, refuses growths of memory in the program and in $(GROWN), and runs
# the program as tests/rows tells and on real files and streams, README's commands, what is linked to the library for C, and what is packaged.
test: statement
	tests/repository.sh
	tests/gate.py --after "$(GROWN)" make --no-print-directory side-by-side
	@echo "All proofs and tests passed. What was built is in build/. Next: make install as root, or make dist."

# Judges all wrong bodies anew, for a release, and writes tests/edits.judged.
edits:
	tests/edits.py --anew
	@echo "Wrote tests/edits.judged. Next: git diff tests/edits.judged, and commit it."

# The scripts of `make test`, side by side, over what the gate proved and built. What is packaged is what the bindings' script
# built.
side-by-side:
	mkdir -p build
	cp crates/langtag/out/langtag crates/langtag/out/langtag.o build
	bindings/c/build.sh
	+$(MAKE) --jobs=4 --output-sync=target --no-print-directory scripts
scripts: packaging.sh trusted.py edits_test.py csv_readers.py iso_codes.py runs.py program.sh messages.sh pages.py growths
packaging.sh: bindings.sh
bindings.sh: packages.sh
iso_codes.py pages.py: packages.sh
%.sh:
	tests/$@
%.py:
	tests/$@
growths:
	bench/growth.py $(GROWN) langtag

# The gate of the kit, for a release: as the first part of `make test`, but it tries each wrong body alone, which takes hours.
gate:
	rt ci

# Checks which lemmas the crates lend, and counts what has to be believed: the definitions that the headline reaches, which it
# writes as one page to build/statement.md. It needs no toolchain.
statement:
	bench/layers.py
	tests/statement.py
	mkdir -p build
	bench/statement.py --text > build/statement.md
	bench/statement.py --docs
	@echo "Wrote the statement that is proved to build/statement.md. Next: read it beside docs/READING.md."

# Measures the program that `make` built, with the example's registry and with those that REGISTRIES names; it takes some
# minutes, where valgrind counts.
bench:
	bench/run.sh build/langtag examples/iana-2025-05-15.txt $(REGISTRIES)
	bench/rows.py build/langtag examples/iana-2025-05-15.txt

# Measures the program on registries and lines that are made against it; it takes a quarter of an hour.
hostile:
	bench/hostile.py build/langtag

# Refuses each growth of memory in turn, in the tests that are meant for it and in the program. `rt test` proves the tests
# of a crate, where they changed, and leaves them in out/.
growth: all
	set -e; for crate in lt_registry_tests lt_canon_tests lt_answers_tests; do (cd crates/$$crate && rt test); done
	bench/growth.py

# What `make` and `make lib` built, with the manual, pages, completions and a registry; PARTS=program leaves the library out.
# DESTDIR, PREFIX and LIBDIR say where. Nothing is built.
install:
	packaging/install.sh install $(PARTS)
	@echo "Installed below $(DESTDIR)$(PREFIX). Next: langtag --help, man langtag, or make uninstall."

# Takes away what `make install` put there.
uninstall:
	packaging/install.sh uninstall $(PARTS)
	@echo "Removed what make install put below $(DESTDIR)$(PREFIX)."

# Makes packages of Debian of what `make` and `make lib` built, in build/; it needs debhelper.
deb:
	packaging/deb.sh build
	@echo "Built the packages build/*.deb. Next, as root: apt-get install ./build/langtag_*.deb"

# A release, in dist/: archives, wheels, packages of Debian, a list of the parts and checksums, of what is built.
dist:
	packaging/dist.sh dist
	@echo "The release is in dist/. Next: docs/INSTALL.md says how each file is used."

# The packages in a Debian of their own, as a new user meets them: as root, with debootstrap and the network. The Debian is kept
# in build/debian; to make it takes some minutes, and a run with it half a minute.
fresh-debian:
	tests/fresh_debian.sh
	@echo "The packages work in a Debian of their own."

clean:
	rm -rf build dist crates/*/out
	@echo "Removed what was built and the proofs that were kept. Next: make, which proves everything again."
