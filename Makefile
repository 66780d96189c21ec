.PHONY: test replay trial example

# The gate: every proof, must-fail edit, program and other check.
test:
	bash .ci/run

# Proves what the program stands on and builds target/bin/replay, or target/bin/trial.
replay trial:
	tools/program $@

# Document 01's example: input and answer side by side.
example: replay
	@paste -d'|' examples/document-01.txt <(target/bin/replay < examples/document-01.txt) | sed 's/|/\t-> /'

SHELL := /bin/bash
