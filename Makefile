# `make help` lists what there is. What is built stands in target/, and is proved again only where something that it is made of changed.
PREFIX ?= /usr/local
DESTDIR ?=
SHEET ?= examples/farm.sheet
TIMES ?= 10
SEED ?=
OUT =

archive = target/staticlib/libnitswolan.a
program = target/bin/bottlerun
shared = target/shared/libnitswolan.so
profile = target/c/profile

# What is proved: the files of these crates, their folders, so that a file that goes is seen too, and the toolchain.
kit := $(shell tools/kit)
crates := $(shell .ci/contracts crates)
proved = $(shell find $(addprefix crates/,$(1)) -mindepth 1 \( -name must-fail -o -name out \) -prune -o -print) crates.txt tools/build $(kit)

reference = cargo run --offline --quiet --manifest-path reference/Cargo.toml

.DEFAULT_GOAL := all
.DELETE_ON_ERROR:
.NOTPARALLEL:
.PHONY: all lib run shared install install-shared uninstall clean help figure samples test differential vectors bench
export PREFIX DESTDIR SHEET OUT

all: $(archive) $(program) ## proves and builds the library and bottlerun

lib: $(archive) ## proves the library and builds the archive that C links
	@echo $(archive)

run: $(program) ## runs bottlerun on a route sheet; SHEET=FILE names another
	@$(program) < "$$SHEET"

shared: $(shared) ## builds a shared object of the library, for Python and the like
	@echo $(shared)

install: $(archive) $(program) ## installs header, archive, nitswolan.pc, bottlerun and its page below PREFIX (/usr/local), in DESTDIR
	@tools/install library

install-shared: $(shared) ## installs the shared object beside them
	@tools/install shared

uninstall: ## removes what both install
	@tools/install remove

clean: ## removes what make and cargo have built; what rt keeps in crates/*/out stays
	rm -rf target reference/target

# The README's move, where no other is named. Not from the environment, where one letter may mean anything.
figure samples: export X = 800
figure samples: export V = 16492674416640
figure samples: export A = 738734374912
figure samples: export J = 75161927680
figure samples: export S = 19327352832
figure samples: export START = 0

figure: $(profile) ## draws a move as SVG: X, START in counts, V, A, J, S in units; OUT=FILE names the file
	@tools/write "$${OUT:-target/figure.svg}" $(profile) figure "$$X" "$$V" "$$A" "$$J" "$$S" "$$START"

samples: $(profile) ## writes its samples as CSV, likewise
	@tools/write "$${OUT:-target/samples.csv}" $(profile) samples "$$X" "$$V" "$$A" "$$J" "$$S" "$$START"

test: ## the gate: formats, tests, vectors, the archive against the reference, all proofs
	@./.ci/run

differential: $(archive) ## holds the archive to the reference, TIMES=10 times as long as the gate does; SEED=N draws other inputs
	@$(reference) --release -p linked --bin differential -- $(TIMES) $(SEED)

vectors: ## makes the stored vectors anew, requests and the reference's answers
	@$(reference) --release --bin vectors -- write crates/vectors

bench: $(archive) ## times the archive against the reference
	@$(reference) --profile speed -p linked --bin bench

help: ## lists what there is
	@awk -F ':.*## ' '/^[a-z-]+:.*## / { printf "make %-16s %s\n", $$1, $$2 }' Makefile

$(archive): $(call proved,$(crates))
	@tools/build archive

$(program): $(call proved,$(crates) bottlerun)
	@tools/build program

$(shared): $(archive) include/nitswolan.h
	@tools/build shared

$(profile): $(wildcard tools/profile tools/profile/*) include/nitswolan.h $(archive)
	@tools/build profile
