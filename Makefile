# The front door. Each target prints what it does; `make` alone lists them.
#
#   make check CRATE=stix_json     proves one crate, beginning with what earlier checks kept
#   make test WORD=check/          plays the rows with WORD in their name, over the program that was built last
#   make gate                      proves and tests everything: what a merge runs
#   make bench CASE=match          measures one case of bench/cases.py, or a family of them
#   make fmt                       lays out the crates that changed since the last commit
#   make build PROGRAM=stix_hunt   proves what the program stands on and builds it
#   make which FILE=..             the crates that an edit of FILE proves anew
SHELL := /bin/bash
PROGRAM ?= stix_command
WORD ?=
CASE ?= match
.DEFAULT_GOAL := help
.PHONY: help build check test gate bench fmt which

help:
	@sed -n 's/^#   //p' Makefile

build:
	@echo "build: $(PROGRAM) is at"
	@./build $(PROGRAM)

check:
	@echo "check: proves crates/$(CRATE)"
	@cd crates/$(CRATE) && rt check

test:
	@echo "test: plays the rows of $(PROGRAM) with '$(WORD)' in their name"
	@tests/run "$$(./build $(PROGRAM))" $(WORD)

gate:
	@echo "gate: rt ci, then the suites of tests/suites"
	@.ci/run

bench:
	@echo "bench: bench/run $(CASE)"
	@bench/run $(CASE)

fmt:
	@echo "fmt: rt fmt in the crates that changed"
	@packaging/pre-commit --fmt

which:
	@tests/which-proves $(FILE)
