# Needs the Rattle kit (`rt` on the path), and cargo, a C and a C++ compiler and Python 3 beside the proofs. Nothing is fetched.
.PHONY: run test

include make/harness.mk
.DEFAULT_GOAL := run

# The main job: the program replays the worked script.
run: $(HOP_PROGRAM)
	@$(HOP_PROGRAM) < crates/hop_program/stdin

# The gate: every check that is quick; tests/gate names its parts. The last line is 'N passed, M failed'.
test:
	@tests/gate
