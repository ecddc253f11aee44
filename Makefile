# make           proves every crate, builds the programs and runs linkplan on the sample
# make test      the whole gate: proofs, must-fail edits, programs, comparison with the independent reference
# make compare   the comparison alone: N=files, CALLS=calls, SEED=seed
# make bench     time per branching, walk, closing, number written and printed, and byte of rules read, beside a hand-written yardstick
# make fmt       lays the sources out

N ?= 5000
CALLS ?= 28000
SEED ?= 1

.PHONY: all test compare bench fmt

all:
	rt all check
	tests/programs
	$$(tests/runner) target/bin/linkplan < samples/sample.plan

test:
	tests/gate

compare:
	tests/programs
	tests/compare --programs target/bin --run "$$(tests/runner)" --seed $(SEED) --files $(N) --calls $(CALLS)
	tests/outputs --programs target/bin --run "$$(tests/runner)"

bench:
	tests/programs linkbench linkdimacs
	bench/run

fmt:
	for crate in crates/*/; do (cd "$$crate" && rt fmt) || exit 1; done
