# What is done with this repository, by name: each target calls the script or the tool that does it.

.PHONY: help try test library programs install uninstall archive bench clean

help: ## list the targets
	@awk -F ':.*## ' '/^[a-z]+:.*## / { printf "make %-10s %s\n", $$1, $$2 }' Makefile

try: ## show the console at work, and two responders that want one name on a link
	./try

test: ## run the gate: all tests and all proofs
	.ci/run

library: ## prove and build target/staticlib/libkurgashel.a and libkurgashel_reader.a
	tools/library

programs: library ## build the programs on sockets, and the player
	cargo build --release --quiet --manifest-path rust/Cargo.toml --package udp
	tools/prove --quiet player

install: library programs ## copy library, header, programs, units and man pages under DESTDIR and PREFIX, by default /usr/local
	packaging/install

uninstall: ## remove what install copied
	packaging/install --remove

archive: ## write target/kurgashel-VERSION.tar.gz, the sources that builds and installs are made from
	packaging/archive

bench: library ## time the proved library beside ordinary Rust and the peers that are installed, and draw docs/benchmark.svg
	rust/peers/build.sh
	cargo run --release --quiet --manifest-path rust/bench/Cargo.toml -- --svg docs/benchmark.svg
	tests/cache.sh bench

clean: ## remove all that was built and proved
	rm -rf target rust/target crates/*/out
