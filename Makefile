# Builds, installs, tests and packs aeadkit.
#
#   make library FROM=rust    compiles the library for C by cargo: for any x86-64-v2 processor, for AVX2 and for AVX-512
#   make library              proves and builds it by the Rattle kit: for any x86-64-v2 processor, and for AVX2
#   make library BUILDS=aarch64   the library for AArch64 Linux, by the kit or cargo on x86-64 too, into a PREFIX of its own
#   make wasm                 proves and builds the WebAssembly module for JavaScript
#   make install PREFIX=DIR   the library and the program, with the header, pages, completions and documents
#   make check                every test below but those that need another processor, two compilers or minutes
#   make check-NAME           one of documents, c, rust, python, javascript, program
#   make check-definitions    the definitions as they are printed, against the vector files: two minutes
#   make check-compilers      what rustc, and without FROM=rust LLVM in the kit and Rattle's own compiler build, compared
#   make check-aarch64        the library for AArch64, under QEMU
#   make check-targets        the tests of the crate for AArch64, under QEMU
#   make check-again          whether the default library is the same, byte for byte, if it is built in another folder
#   make release-check        all that the kit builds, tested, compared and searched: before a release, an hour or two
#   make dist                 tarballs for C, a crate, wheels, an npm package and SHA256SUMS, in BUILD/dist
#   make bench                the speed of the library beside other libraries on this machine; WORDS="--kept 5", or WORDS=edges
#   make constant-time        branches and addresses that depend on secrets; WORDS=--short
#
# FROM     who compiles the proved source: kit, which proves it before, or rust, which is cargo and needs no kit. Each target takes it
# PREFIX   what is built and tested; without it BUILD/prefix, with -rust and -aarch64 behind where that is so. A test builds what is
#          not in PREFIX yet
# BUILD    the work: the copies that are proved, of 3 GB each. It stands beside the repository, since the gate, rt ci, lets
#          no link and no other .rt file stand below the repository
# BUILDS   the builds of the library: default, avx2 and, by cargo, avx512, or aarch64 alone
# PROGRAM  the build of the program, default or avx2; without it the one that this machine runs
FROM ?= kit
BUILD ?= $(CURDIR)-build
BUILDS ?= $(if $(filter rust,$(FROM)),$(if $(filter aarch64,$(shell uname -m)),aarch64,default avx2 avx512),default avx2)
PREFIX ?= $(BUILD)/prefix$(if $(filter rust,$(FROM)),-rust)$(if $(filter check-aarch64,$(MAKECMDGOALS))$(filter aarch64,$(BUILDS)),-aarch64)
WORDS ?=

override BUILD := $(abspath $(BUILD))
override PREFIX := $(abspath $(PREFIX))
export FROM BUILD BUILDS PROGRAM

packages := check-c check-rust check-python $(if $(filter rust,$(FROM)),,check-javascript)
.PHONY: help library wasm program install ready native check check-documents check-definitions check-program check-aarch64 check-again \
    check-compilers check-targets check-javascript release-check dist bench constant-time $(packages)
help:
	@sed -n '3,26s/^# \{0,1\}//p' Makefile

library:
	tools/build/lib.sh library "$(PREFIX)"
wasm:
	tools/build/lib.sh wasm "$(PREFIX)"
program:
	tools/build/lib.sh program "$(PREFIX)"
install: library program
	program/pages.sh "$(PREFIX)/bin/aeadkit" "$(PREFIX)/share"
dist:
	tools/build/lib.sh dist

# What a test needs and PREFIX lacks. What cargo compiles is compiled again, in a minute, if its source is newer.
$(PREFIX)/lib/libaeadkit.a: $(if $(filter rust,$(FROM)),$(shell find packages/rust/src packages/c/rust packages/c/src packages/c/include -type f))
	tools/build/lib.sh library "$(PREFIX)"
$(PREFIX)/share/aeadkit/javascript/aeadkit.wasm:
	tools/build/lib.sh wasm "$(PREFIX)"
$(PREFIX)/bin/aeadkit:
	tools/build/lib.sh program "$(PREFIX)"

ready native:
	@tools/build/lib.sh $@ "$(PREFIX)"
$(packages) check-javascript bench check-again check-compilers: native
check: ready check-documents $(packages) check-program
	$(if $(filter rust,$(FROM)),@echo "left out: JavaScript: the kit alone builds its module (make wasm check-javascript)")
check-documents:
	python3 tools/documents.py
	python3 tools/edges.py
	python3 tools/documents/sheets.py
	python3 bench/speed.py
	python3 tools/constant-time/summary.py
check-definitions:
	python3 tools/documents/evaluate.py
	python3 tools/documents/evaluate.py --changed
check-c: $(PREFIX)/lib/libaeadkit.a
	$(MAKE) -C packages/c check PREFIX="$(PREFIX)" OUT="$(BUILD)/c"
check-rust:
	python3 tools/erase/erase.py --check
	cd packages/rust && CARGO_TARGET_DIR="$(BUILD)/cargo/crate" $(or $(CARGO),cargo) test --offline
	cd packages/rust && CARGO_TARGET_DIR="$(BUILD)/cargo/crate" $(or $(CARGO),cargo) build --offline --no-default-features
check-python: $(PREFIX)/lib/libaeadkit.a
	cd packages/python && $(if $(filter rust,$(FROM)),AEADKIT_BUILD="$(BUILD)",AEADKIT_PREFIX="$(PREFIX)") $(or $(PYTHON),python3) setup.py -q build -b "$(BUILD)/python" --build-lib "$(BUILD)/python/lib"
	cd packages/python/tests && AEADKIT_PREFIX="$(PREFIX)" PYTHONPATH="$(BUILD)/python/lib" PYTHONDONTWRITEBYTECODE=1 $(or $(PYTHON),python3) -m unittest
check-javascript: $(PREFIX)/share/aeadkit/javascript/aeadkit.wasm
	cd packages/javascript && AEADKIT_PREFIX="$(PREFIX)" npm test
	tools/build/lanes.py "$(PREFIX)/share/aeadkit/javascript/aeadkit.wasm"
check-program: $(PREFIX)/bin/aeadkit
	program/tests/check.sh "$(PREFIX)/bin/aeadkit"
	$(if $(filter rust,$(FROM)),cd packages/rust/program && CARGO_TARGET_DIR="$(BUILD)/cargo/program" $(or $(CARGO),cargo) test --quiet)
check-targets:
	tools/build/targets.sh $(or $(WORDS),aarch64)
check-aarch64: BUILDS := aarch64
check-aarch64: $(PREFIX)/lib/libaeadkit.a
	packages/c/tests/aarch64.sh "$(PREFIX)" "$(BUILD)/c-aarch64"
check-again: $(PREFIX)/lib/libaeadkit.a
	tools/build/lib.sh again "$(PREFIX)"
check-compilers: $(PREFIX)/lib/libaeadkit.a
	tools/build/lib.sh compilers "$(PREFIX)"

release-check: library wasm
	$(MAKE) check check-again check-compilers
	$(MAKE) constant-time
	$(MAKE) library check-aarch64 BUILDS=aarch64 PREFIX="$(PREFIX)-aarch64"
	$(MAKE) constant-time PREFIX="$(PREFIX)-aarch64"

bench: $(PREFIX)/lib/libaeadkit.a
	bench/bench.sh "$(PREFIX)" $(WORDS)
constant-time: $(PREFIX)/lib/libaeadkit.a
	tools/constant-time/constant-time.sh $(WORDS) "$(PREFIX)"
