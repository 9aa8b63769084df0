# Everything that is made of this repository.
#
#   make            prove all crates and build the program and the libraries into out/ (needs the Rattle kit)
#   make test       run the tests, over what belongs to the sources: dist/ or out/ (as ./test)
#   make prove      the gate: proofs, mutants, dist/, tests (needs the Rattle kit)
#   make dist       make what is shipped, dist/, of what `make` has built
#   make install    install dist/ below PREFIX (/usr/local), inside DESTDIR if that is given
#   make uninstall  remove what `make install` has installed there
#   make wheel      make a Python wheel with the library inside, in out/
#   make deb        make a Debian package, in out/
#   make release    make wheel, Debian package, source archive, SBOM and SHA256SUMS, in out/release/
#   make rust       build and test the Rust crate, in rust/ (needs cargo)
#   make jar        build the Java package, for Apache Jena, in out/java/ (needs a JDK and Debian's jars)
PREFIX = /usr/local
DESTDIR =
PYTHON = /usr/bin/python3

export PREFIX DESTDIR

.PHONY: build test prove dist install uninstall wheel deb release rust jar clean

build:
	@$(PYTHON) -B -m tools.build

test:
	@./test

prove:
	@$(PYTHON) -B -m tools.gate

dist: build
	@$(PYTHON) -B -m tools.build --dist

install:
	@tools/install

uninstall:
	@tools/install --remove

wheel:
	@tools/package wheel

deb:
	@tools/package deb

release:
	@$(PYTHON) -B -m tools.release

rust:
	@folder=$$(tools/current) && HDT_LIB_DIR="$(CURDIR)/$$folder" cargo test -q --offline --manifest-path rust/Cargo.toml

jar:
	@java/build

clean:
	rm -rf out crates/*/out rust/target
