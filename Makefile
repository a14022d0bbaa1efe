# The planner's commands. See README.md.
.PHONY: run hand-on install test bench definitions

JOB = examples/works.job
PREFIX = /usr/local

# A path is taken from where the caller stands, also with make -C.
export CALLER = $(PWD)
export JOB PREFIX

run:
	@tools/run "$$JOB"

hand-on:
	@tools/hand-on "$$JOB"

install:
	@tools/install "$$PREFIX"

test:
	@tools/gate

bench:
	@bench/run

definitions:
	@tools/list-definitions
