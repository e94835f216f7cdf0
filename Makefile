# A line for a target ends in its help: `make help` prints these lines, and `make` alone does the same.
.PHONY: help demo test lib install uninstall check-c check-mutants picture bench bench-count
PREFIX = /usr/local
DESTDIR =

help: ## this list
	@awk -F ':.*## ' '/^[a-z-]+:.*## / { printf "make %-14s %s\n", $$1, $$2 }' Makefile

# `rt run` proves, builds and runs the program; what the prover says goes into the log.
demo: ## builds a heap of three objects by calls, collects it and prints the two that are left
	@mkdir -p target
	@(cd crates/demo && rt run 2>../../target/demo.log) >target/demo.said || { cat target/demo.log target/demo.said >&2; exit 1; }
	@cat target/demo.said

test: ## the gate: proves all from nothing, tries each wrong edit, runs each program and the tests from C
	.ci/run

lib: ## dist/: the archive, proved; the headers; a pkg-config file
	tools/lib.sh

install: lib ## copies dist/ to PREFIX (/usr/local), below DESTDIR if that is set
	tools/install.sh install "$(DESTDIR)$(PREFIX)"

uninstall: ## removes from there what install put
	tools/install.sh uninstall "$(DESTDIR)$(PREFIX)"

check-c: lib ## the archive against a model in C, the headers, the examples; SEED=n repeats a run
	tests/c/run.sh dist/lib/libphachunoi.a $(SEED)

check-mutants: ## the tests themselves, tested: each deliberate mistake must be caught
	tests/c/mutants/run.sh

picture: lib ## draws the heap P5 before and after its collection into docs/
	tools/picture.sh

bench: ## the archive beside C, by the clock: a table, and a picture in target/bench; ORDERS=n ROUNDS=n BEFORE=module.ll
	bench/run.sh

bench-count: ## the same in instructions of the x86-64 code, held against bench/counts.txt; STORE=store stores them
	bench/count.sh $(STORE)
