# Two commands: `make run` runs the main job, `make test` proves, tests and compares everything. `make help` names the rest.
.PHONY: run test readings leaf rings vectors compare compare-if-at-hand larger beyond slips coverage help

SEED ?= $(shell date +%s%N)
CALLS ?= 200000

run: ## carry pull-test records through the proved connection, and compare
	@scripts/alone scripts/run

# The last line is rt ci's own: 'N passed, 0 failed'.
test: ## prove, test and compare everything; the last line is 'N passed, 0 failed'
	@scripts/alone scripts/test-all $(SEED) $(CALLS)

readings: ## print the readings of docs/RULES.md, run through the proved code
	@scripts/prove run_readings
	@scripts/program run_readings

leaf: ## take apart what the copying function compiles to
	@scripts/alone scripts/leaf-check

rings: ## lend rings of up to 1,048,576 bytes to the proved push, by a host in C
	@scripts/alone scripts/lend-rings

vectors: ## lay the outside vectors of the header out anew, by the C compiler
	@scripts/alone scripts/header-vectors

compare: ## the port beside the Rust, call by call; SEED=.. CALLS=.., by default a new seed and 200000
	@scripts/alone oracle/compare.sh $(SEED) $(CALLS)

compare-if-at-hand: ## the same where cargo and the Rust are at hand, else a line that says why not
	@scripts/alone oracle/compare-if-at-hand.sh $(SEED) $(CALLS)

larger: ## compare with rings of up to 1,048,576 bytes lent; it proves the port's side once more, as a library
	@scripts/alone oracle/larger.sh $(SEED) $(CALLS)

beyond: ## what the original Rust does with the calls of docs/DIFFERENCES.md
	@scripts/alone oracle/beyond.sh

slips: ## put slips into a copy of the Rust, each of which the comparison must find
	@scripts/alone oracle/slips.sh

coverage: ## which lines of the Rust the calls reach
	@scripts/alone oracle/coverage.sh

help: ## these lines
	@sed -n 's/^\([a-z-]*\): ## \(.*\)/make \1\t\2/p' Makefile | expand -t 24
