# Proves what the program needs, builds it and runs it.
run:
	cd crates/lines && rt run

# Proves every crate, tries the must-fail edits, compares what the programs write, and runs the tests.
test:
	rt ci

.PHONY: run test
