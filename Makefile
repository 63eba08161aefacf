# `make` prints the targets: the texts behind ## are said here alone.
SHELL := /bin/bash
PREFIX ?= /usr/local
# The version of the library stands in the manifest of its Rust crate, since cargo reads it nowhere else.
VERSION := $(shell sed -n 's/^version = "\(.*\)"/\1/p' rust/s3frame/Cargo.toml)
there := $(DESTDIR)$(PREFIX)
.PHONY: help demo test lib command install uninstall soak bench packages clean

help: ## prints these lines
	@awk -F ':[^#]*## ' '/^[a-z]+:.*## / { printf "make %-10s %s\n", $$1, $$2 }' Makefile
	@awk '/^[^#]/ { $$1 = ""; needs = needs $$0 } END { print "They need the Rattle kit (rt), and of Debian" needs "." }' .ci/packages

demo: command ## proves and builds the command s3frame, frames a sample of packets and reads the frames back
	tools/demo

test: ## the gate: every proof, edits that the prover must refuse, the programs, the tests of tests/
	.ci/run

lib: ## proves the calls for C and Rust, and leaves them in target/staticlib/libs3frame.a, for include/s3frame.h
	tools/archive

command: packages lib ## builds the command s3frame over them, and leaves it at target/command/release/s3frame
	tools/command

install: command ## puts command, header, library and pkg-config's file below PREFIX (/usr/local), itself below DESTDIR where that is set
	install -d "$(there)/bin" "$(there)/include" "$(there)/lib/pkgconfig"
	install -m 755 target/command/release/s3frame "$(there)/bin/s3frame"
	install -m 644 include/s3frame.h "$(there)/include/s3frame.h"
	install -m 644 target/staticlib/libs3frame.a "$(there)/lib/libs3frame.a"
	sed -e 's|@PREFIX@|$(PREFIX)|' -e 's|@VERSION@|$(VERSION)|' include/s3frame.pc.in >"$(there)/lib/pkgconfig/s3frame.pc"
	chmod 644 "$(there)/lib/pkgconfig/s3frame.pc"

uninstall: ## removes the four files again, under the same PREFIX and DESTDIR
	rm -f "$(there)/bin/s3frame" "$(there)/include/s3frame.h" "$(there)/lib/libs3frame.a" "$(there)/lib/pkgconfig/s3frame.pc"

soak: packages lib ## the tests of the Rust crate on twenty times as many inputs; S3_SEED sets their seed
	S3_SOAK=20 tests/rust/run

bench: packages lib ## times coding and reading slots and frames, filling and reading TLV packets, making signal points, the proved code beside Rust and, where it is installed, GNU Radio
	tools/prove run test_bench
	cargo build --quiet --release --offline --locked --manifest-path tests/reference/Cargo.toml --target-dir target/reference
	tools/bench
	S3FRAME_LIB_DIR=$(CURDIR)/target/staticlib cargo bench --quiet --offline --locked --manifest-path rust/s3frame/Cargo.toml --target-dir target/rust --bench tlv --bench points

packages: ## installs what is missing of .ci/packages
	tools/packages

clean: ## removes target/ and the folders out/ of the crates, where all that is built and proved lies
	rm -rf target crates/*/out
