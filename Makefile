# What there is to do here, each as one command. `make` alone prints the table of it.

# the program and the library without proofs, made anew where a source is newer
TRIED := out/try/gx
TRIED_LIBRARY := out/try/libginlarch.so
SOURCES := crates.txt $(shell find crates -name out -prune -o -path '*/src/*' -name '*.rt' -print)
PYTHON := /usr/bin/python3
WHAT ?= all
.DEFAULT_GOAL := help
.PHONY: help try test prove gate bench docs dist install library library-try to-build to-test

# stops with one line where a command isn't there: $(call needs,NAME..)
needs = $(foreach name,$(1),$(if $(shell command -v $(name) 2> /dev/null),,$(error $(name) is missing$(why_$(name)))))
why_rt := : it is of the toolchain's kit, see Install in README.md

help: ## prints this table
	@awk -F ':.*## ' '/^[a-z-]+:.*## / { printf "  make %-11s %s\n", $$1, $$2 }' $(MAKEFILE_LIST)

try: to-build $(TRIED) ## builds gx without proofs, and tries it on REPO=FOLDER or this repository
	@scripts/try.sh $(TRIED) $(REPO)

test: to-test $(if $(GX),,$(TRIED) $(TRIED_LIBRARY)) ## runs sessions, examples and comparisons over that gx, or GX=PROGRAM
	@GX=$(or $(GX),$(TRIED)) $(PYTHON) -m pytest -q -n auto tests

prove: ## proves a crate, and those below it first: CRATE=gx_store
	$(call needs,rt)
	$(if $(wildcard crates/$(or $(CRATE),none)/src),,$(error name a crate of crates/, as CRATE=gx_store))
	cd crates/$(CRATE) && rt check

gate: ## proves, tries and tests everything, as a merge has to pass it
	$(call needs,git rt)
	.ci/run

bench: ## measures the proved gx beside git, all of it or WHAT=archive, or another of bench/
	$(if $(wildcard bench/$(WHAT).sh),,$(error there is no bench/$(WHAT).sh))
	bench/$(WHAT).sh

docs: ## makes tables and pictures of docs/ anew, and checks all pages
	scripts/documents.sh

install: ## installs the proved gx with its manuals and completions below PREFIX
	scripts/install.sh

library: ## makes libginlarch.a and libginlarch.so of the proved library
	scripts/library.sh

dist: ## makes a release of the proved gx and library, as a tar in out/dist
	$(call needs,git rt xz)
	scripts/dist.sh

library-try: $(TRIED_LIBRARY) ## builds libginlarch.so without proofs, for Python

$(TRIED): $(SOURCES) | to-build
	@echo 'gx is built without its proofs, to be tried:'
	@scripts/unproved.sh $(dir $@)

$(TRIED_LIBRARY): $(SOURCES) | to-build
	@echo 'libginlarch.so is built without its proofs, to be tried:'
	@scripts/unproved.sh --library $(dir $@)

to-build:
	$(call needs,git rt)

to-test:
	$(call needs,git $(PYTHON))
	@scripts/needs.sh
