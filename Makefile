# What there is to make, which `make` alone tells too; the parts stand in mk/, their scripts in mk/bin.
SHELL := /bin/bash
.SHELLFLAGS := -euo pipefail -c
.DEFAULT_GOAL := help
# where cargo leaves its programs (.cargo/config.toml)
CARGO_BIN := build/cargo/release
.PHONY: help test need-tools documents reading plain-reading model prove sheet-check

help:
	@sed -n 's/^#: //p' $(MAKEFILE_LIST)
	@echo "all for Linux on $(PROCESSOR), which is $(if $(OWN),this machine's,another than this machine's $(HERE))"

#: make run        the device at work on the sample sheet, for a person to read
#: make look       the same in seconds, with nothing proved
#: make test       every test, every proof, every edit that must be refused, every program
# what mk/bin/beside runs side by side builds in folders of its own, and what both need is there before; where one make has all of
# it, it goes by what needs what, two at a time
test: need-tools
	$(MAKE) --no-print-directory -s lint
	$(MAKE) --no-print-directory -s documents
	$(MAKE) --no-print-directory -s model
	$(MAKE) --no-print-directory -s prove
	$(MAKE) --no-print-directory -s sheet-check
	$(MAKE) --no-print-directory -s -j2 -O test-unit test-text test-c test-wear points test-frames $(BUILD)/bridge
	mk/bin/beside $(MAKE) --no-print-directory -s test-firmware -- $(MAKE) --no-print-directory -s test-tools compare test-cuts
	$(MAKE) --no-print-directory -s figures test-deb test-python test-dist
	$(MAKE) --no-print-directory -s test-device
	$(MAKE) --no-print-directory -s test-tool
	mk/bin/beside $(MAKE) --no-print-directory -s test-page test-shims -- $(MAKE) --no-print-directory -s test-others
	tail -n 1 build/ci.log

# layout, every proof, every edit, every program, once: what the tests after it link and run is what was proved here. An edit that says
# nothing, which rt ci passes as bad, fails here. The last line of rt ci is the last of all, so it is held back where there is
# something after it
prove: need-tools
	tests/edits/list.sh tests/edits/refused.tsv
	mkdir -p build
	rt ci 2>&1 | tee build/ci.log | sed -u '$$d' || { tail -n 1 build/ci.log; exit 1; }
	! grep '^rt: ok.*, [0-9]* bad' build/ci.log || { echo "an edit is bad, and says nothing of a contract"; exit 1; }
	grep -q '^rt: ok' build/ci.log
	mk/bin/proved --ci
	tests/edits/try.sh build/edits
	tests/edits/gate.sh tests/edits/refused.tsv build/ci.log build/edits

# every name that a document quotes stands where the document says; what is to be read is complete, and as long as READING says; what
# CHANGING names and quotes is in the source
documents: need-tools build/documents/names build/documents/reading build/documents/changing build/documents/figures build/documents/plain
	build/documents/names docs/PROMISES.md docs/READING.md docs/CONFORMANCE.md docs/RULES.md
	build/documents/reading --check docs/READING.md
	build/documents/plain --check docs/READING.md
	build/documents/changing docs/CHANGING.md
	tests/docs/figures.sh build/documents/figures

#: make reading    build/reading.md, the definitions that must be read for each demand, in order, with what is promised
reading: build/documents/reading
	build/documents/reading build/reading.md docs/READING.md

#: make plain-reading   build/plain-reading.md, the plain engine in reading order, without what is for the prover, and the hours it takes
plain-reading: build/documents/plain
	build/documents/plain build/plain-reading.md docs/READING.md

build/documents/%: tests/docs/%.rs
	mkdir -p build/documents
	rustc --edition 2021 -O -o $@ $<

# a missing tool fails the tests
need-tools:
	for t in rt cargo rustc gcc; do command -v $$t > /dev/null || { echo "$$t is missing" >&2; exit 1; }; done

# the plain Rust model of the rules, against the vectors; and that the benchmark still compiles
model: need-tools
	cargo test --release --quiet -p model
	cargo check --release --quiet -p bench

# the checking and the playing program on files and pipes
sheet-check: need-tools
	mk/bin/program sheet_check trace_play
	tests/sheet_check.sh build/bin/sheet_check
	tests/trace_play.sh build/bin/trace_play

include mk/native.mk
include mk/hosts.mk
include mk/tools.mk
include mk/device.mk
include mk/tool.mk
include mk/install.mk
include mk/python.mk
include mk/frames.mk
include mk/compare.mk
include mk/cuts.mk
include mk/bench.mk
include mk/firmware.mk
include mk/page.mk
include mk/figures.mk
include mk/dist.mk
