# The door for people. `make` proves what both programs stand on and builds them into bin/, from nothing too; `make bin/pbcheck`
# does so for the checker alone; `make test` runs the gate: every proof that it has not passed before, the edits that must fail, and the tests;
# `make demo` finds an optimum and has its proof checked, and runs the checker on three pigeons in two holes, an optimum, a
# symmetry, a new name and a subproof; `make install` puts both programs and their manual pages under PREFIX.
.PHONY: FORCE all test demo check install dist dist-check library demo-embed layout refused-growths statuses bench differential fuzz optima pigeons families wrong-edits wrong-definitions wrong-bodies gate-minutes links picture sizes shared-names

PREFIX ?= /usr/local

all:
	@echo "make: proving what both programs stand on, each crate named as it is proved; from nothing this takes half an hour on four processors"
	@scripts/prove pbcheck pbopt
	@mkdir -p bin
	cp crates/pbcheck/out/pbcheck crates/pbopt/out/pbopt bin/

# One of them alone, over what it stands on.
bin/pbcheck bin/pbopt: bin/%: FORCE
	@scripts/prove $*
	@mkdir -p bin
	cp crates/$*/out/$* $@

FORCE:

install: all
	install -d $(DESTDIR)$(PREFIX)/bin $(DESTDIR)$(PREFIX)/share/man/man1
	install bin/pbopt bin/pbcheck $(DESTDIR)$(PREFIX)/bin
	install -m 644 docs/pbopt.1 docs/pbcheck.1 $(DESTDIR)$(PREFIX)/share/man/man1

# The archive from which a machine without the kit links both programs and the library; and a trial of it in an empty folder.
dist: all library
	scripts/dist

dist-check:
	scripts/dist --check

# The checker as a library: `bin/libpbcheck.a`, `bin/libpbcheck.so` and `bin/pbcheck.h`.
library:
	@scripts/prove c_library
	library/build crates/c_library/out/libc_library.a $$(dirname $$(rt doc))/c/liblibc_c.a bin

# Calls the library from C and from Python.
demo-embed: library
	scripts/demo-embed

# As many crates side by side as there are processors, where the environment does not say: each takes up to 4 GB.
test:
	RT_JOBS=$${RT_JOBS:-$$(nproc)} rt ci

# `pbopt` ends with 30 where it found an optimum.
demo: all
	bin/pbopt examples/cover.opb --proof bin/cover.pbp || test $$? = 30
	bin/pbcheck examples/cover.opb bin/cover.pbp
	bin/pbcheck examples/pigeons.opb examples/pigeons.pbp
	bin/pbcheck examples/cover.opb examples/cover.pbp
	bin/pbcheck examples/machines.opb examples/machines.pbp
	bin/pbcheck examples/majority.opb examples/majority.pbp
	bin/pbcheck examples/tickets.opb examples/tickets.pbp

# What is quick while one works: every crate, over what earlier runs kept.
check: layout
	rt all check

# Lays out every file, since the gate refuses any other layout.
layout:
	for crate in crates/*/; do (cd $$crate && rt fmt) || exit 1; done

# Makes each allocation of a run fail in turn: the answer stays the usual one, or is `no memory`. Beside the gate: it wants a C compiler.
refused-growths: all
	scripts/refused-growths "accepted UNSAT" bin/pbcheck examples/pigeons.opb examples/pigeons.pbp
	scripts/refused-growths "refused line 5 code 24 LowerNotShown" bin/pbcheck examples/pigeons.opb examples/pigeons-too-short.pbp
	scripts/refused-growths "$$(printf 'accepted BOUNDS 5 5\nv x1 x2 -x3')" bin/pbcheck examples/cover.opb examples/cover.pbp
	scripts/refused-growths "accepted UNSAT" bin/pbcheck examples/majority.opb examples/majority.pbp
	scripts/refused-growths "$$(printf 'accepted BOUNDS 5 5\nv -t1 -t2 -t3 -t4 pass')" bin/pbcheck examples/tickets.opb examples/tickets.pbp
	scripts/refused-growths "s UNSATISFIABLE" bin/pbopt examples/pigeons.opb
	scripts/refused-growths "$$(bin/pbopt examples/cover.opb)" bin/pbopt examples/cover.opb

# Exit statuses and texts, failing reads and writes among them. Beside the gate: it wants a C compiler.
statuses: all
	scripts/statuses

# Compares the checker with a second, plain reader and judge on random problems and proofs, damaged ones among them, and what is accepted with
# all assignments.
differential: bin/pbcheck
	scripts/differential

# The same for an hour or more: many cases, texts that are cut after each byte, hostile lines, and many small problems solved.
fuzz: all
	scripts/differential 200000
	scripts/cuts
	scripts/optima 20000

# Solves small problems of all kinds, and compares each answer with the best of all assignments, and its proof with the checker.
optima: all
	scripts/optima

# Pigeons in too few holes, up to twenty: a hundred conflicts at most.
pigeons: all
	scripts/pigeons

# Solves problems of thirty-one kinds, each with its proof checked.
families: all
	scripts/families

# Times the checker on large problems and proofs.
bench: bin/pbcheck
	scripts/bench

# Tries the edits beside the gate, of crates/NAME/wrong-bodies and crates/NAME/wrong-definitions: a body that is turned must break
# the contract of its crate, a definition that is turned a law or a worked case. `scripts/wrong-edits CRATE` tries those of one crate.
wrong-edits:
	scripts/wrong-edits

# The same for the definitions alone.
wrong-definitions:
	scripts/wrong-edits definitions

# Prints all edits that the prover must refuse, those of the gate and those beside it.
wrong-bodies:
	@scripts/wrong-bodies

# Runs the gate in a fresh clone, and prints its processor minutes crate by crate.
gate-minutes:
	scripts/gate-minutes

# Asks whether the pages are still so: paths, links, commands, definitions, quoted contracts, the list of crates, the version.
links:
	scripts/links

# Draws the crates by levels from crates.txt, and what is solved in which time from docs/figures.md.
picture:
	scripts/layers-picture > docs/figures/layers.svg
	scripts/cactus > docs/figures/solved.svg

# How large the crates are, and which names several of them define.
sizes:
	@scripts/sizes
shared-names:
	@scripts/shared-names
