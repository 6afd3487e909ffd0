# On a machine that has the Rattle kit:
#   make run      the story of the README, on a sample bulletin
#   make test     everything that is checked: the programs, the library against an independent one, and the layout and the proof of every crate
#   make bench    how fast it is, and where its instructions go: three pages and two plots in docs/bench/
.PHONY: run test checks bench

run:
	@scripts/build compile names
	@scripts/story

# The proof comes last, so that the last line says how it went. It refuses a file that is not in rt fmt's layout, too.
test: checks
	scripts/ci

# All but the proof.
checks:
	scripts/build compile inspect recognise names
	scripts/test-programs
	scripts/archive
	scripts/harness test
	scripts/harness compare
	scripts/harness texts
	scripts/harness stack
	scripts/harness-c

bench:
	scripts/bench
	scripts/bench-compile
	scripts/profile
