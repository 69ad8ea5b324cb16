# The host programs in C over the static libraries: the desk unit, its demonstration, and the tests from outside.
# Comes after native.mk.
STRICT := -std=c11 -O2 -Wall -Wextra -Wpedantic -Werror -Iinclude
# The sanitizers are the machine's own. In programs for another processor undefined behaviour traps, and guard bytes and walls remain.
SANITIZERS := -fsanitize=address,undefined -fno-sanitize-recover=all
ifdef OWN
SANITIZE ?= $(SANITIZERS)
else
SANITIZE ?= -fsanitize=undefined -fsanitize-undefined-trap-on-error
endif
# the headers of each library
DEVICE_H := include/kelindap.h include/kelindap_store.h include/kelindap_trace.h include/kelindap_link.h include/kelindap_slots.h
TOOL_H := include/kelindap_pdu.h include/kelindap_frame.h
# leaks are no matter here: the libraries have no heap, and looking for them takes long
WATCHED := ASAN_OPTIONS=detect_leaks=0
# what every program here rests on
LINKED := $(wildcard include/*.h) $(wildcard hosts/*.inc) mk/bin/cc mk/hosts.mk $(LIBRARIES)
.PHONY: unit run look test-unit test-text test-c test-wear need-gcc

#: make unit       the desk unit, build/unit, and the libraries
unit: $(BUILD)/unit

# a short script against the sample sheet, in a form that a person reads at a glance; what it needs is proved, and no more
run: $(BUILD)/unit_first build/sheet $(if $(OWN),$(BUILD)/kelindap-device build/kelindap-tool)
	@scripts/demo.sh $(BUILD)/unit_first build/sheet scripts/demo.txt
	@$(if $(OWN),echo && scripts/bus.sh $(BUILD)/kelindap-device build/kelindap-tool)

# the same in seconds, and proved by nobody
look: build/unit_help.inc build/sheet | need-gcc
	@mk/bin/look build/look
	@echo "NOTHING OF THIS IS PROVED: the crates as they stand, compiled by rt try (build/look/try.log); make run proves them first."
	@echo
	@scripts/demo.sh build/look/unit build/sheet scripts/demo.txt
	@echo
	@echo "NOTHING OF THIS IS PROVED."

# the scripts, once more with a unit that watches itself where the sanitizers can; in words, where every reason is held against
# the library over REASONS random requests, a fifth of a second for 200,000
REASONS ?= 200000
test-unit: $(BUILD)/unit $(BUILD)/unit_first $(BUILD)/unit_watched $(BUILD)/reasons build/sheet
	tests/unit/run.sh $(BUILD)/unit build/sheet
	tests/unit/first.sh $(BUILD)/unit_first build/sheet
	$(if $(OWN),mk/bin/look build/look && tests/unit/first.sh build/look/unit build/sheet)
	$(if $(OWN),$(WATCHED) tests/unit/run.sh $(BUILD)/unit_watched build/sheet)
	$(WATCHED) $(BUILD)/reasons $(REASONS)
	$(WATCHED) tests/unit/words.sh $(BUILD)/unit_watched build/sheet

# what README and the headers say, and what stands in two places: the same on every processor
test-text: $(HOST_A) $(TOOL_A)
	CC_FOR="$(CC_FOR)" SANITIZE="$(SANITIZE)" tests/c/readme.sh $(HOST_A) $(TOOL_A)
	tests/c/exchanged.sh
	tests/same.sh

# the tests in C, each over lent buffers
IN_C := $(addprefix $(BUILD)/,tool_test point_test host_test store_test trace_test link_test slots_test unit_test)
test-c: $(BUILD)/layout $(BUILD)/stack $(IN_C)
	$(WATCHED) $(BUILD)/layout
	$(BUILD)/stack
	tests/c/symbols.sh $(DEVICE_H) $(HOST_A)
	tests/c/symbols.sh $(TOOL_H) $(TOOL_A)
	tests/c/symbols.sh include/kelindap_plain.h $(PLAIN_A)
	CC_FOR="$(CC_FOR)" tests/c/freestanding.sh $(HOST_A) $(TOOL_A)
	for t in $(IN_C); do $(WATCHED) $$t; done

# what may be saved late, byte by byte, on sheets of the plain model; WAITS and SEED may be given
WAITS ?= 40
test-wear: $(BUILD)/wear_test
	cargo build --release --quiet -p model
	$(CARGO_BIN)/waits $(WAITS) $(SEED) | $(WATCHED) $(BUILD)/wear_test

# gcc judges every program, also where another compiler makes it
$(BUILD)/unit: hosts/unit.c $(wildcard hosts/unit_*.h) build/unit_help.inc $(LINKED) | need-gcc
	mkdir -p $(BUILD)
	gcc $(STRICT) -Ibuild -c $< -o /dev/null
	$(CC_FOR) -o $@ $(STRICT) -Ibuild $< $(LIBRARIES)

# with the first engine alone, which is what the demonstration uses
$(BUILD)/unit_first: hosts/unit.c $(wildcard hosts/unit_*.h) build/unit_help.inc $(filter-out $(PLAIN_A),$(LINKED)) | need-gcc
	mkdir -p $(BUILD)
	$(CC_FOR) -o $@ $(STRICT) -Ibuild -DFIRST_ALONE $< $(HOST_A) $(TOOL_A)

$(BUILD)/unit_watched: hosts/unit.c $(wildcard hosts/unit_*.h) build/unit_help.inc $(LINKED) | need-gcc
	mkdir -p $(BUILD)
	$(CC_FOR) -o $@ $(STRICT) -Ibuild -g $(SANITIZE) $< $(LIBRARIES)

$(BUILD)/layout $(BUILD)/wear_test $(IN_C): $(BUILD)/%: tests/c/%.c tests/c/lent.h build/marked.inc $(LINKED) | need-gcc
	mkdir -p $(BUILD)
	gcc $(STRICT) -Ibuild -c $< -o /dev/null
	$(CC_FOR) -o $@ $(STRICT) -Ibuild -g $(SANITIZE) $< $(HOST_A) $(TOOL_A)

$(BUILD)/reasons: tests/c/reasons.c hosts/unit_reasons.h hosts/unit_sheet.h $(LINKED) | need-gcc
	mkdir -p $(BUILD)
	$(CC_FOR) -o $@ $(STRICT) -g $(SANITIZE) $< $(HOST_A) $(TOOL_A)

# not watched: the sanitizers' own frames would be measured
$(BUILD)/stack: tests/c/stack.c $(LINKED) | need-gcc
	mkdir -p $(BUILD)
	$(CC_FOR) -o $@ $(STRICT) -D_GNU_SOURCE -Wl,-z,now $< $(LIBRARIES)

# what the unit says for --help, a line of C to a line
build/unit_help.inc: hosts/kelindap-unit.txt mk/hosts.mk
	@mkdir -p build
	@sed -e 's/[\\"]/\\&/g' -e 's/.*/"&",/' $< > $@

# the marked cases as C: mode, level, APDU, answer, outcome, level afterwards, the last run of bytes that is stored
build/marked.inc: tests/vectors/device.tsv mk/hosts.mk
	@mkdir -p build
	@awk -F '\t' '/^01 marked case/ { \
	    mode = $$2; sub(/.*mode=/, "", mode); level = $$2; sub(/.*level=/, "", level); after = level; at = -1; to = ""; \
	    n = split($$6, change, " "); \
	    for (i = 1; i <= n; i++) { \
	        split(change[i], pair, "="); \
	        if (pair[1] == "level") after = pair[2]; \
	        if (pair[1] ~ /^sheet/) { at = substr(pair[1], 7) + 0; to = pair[2] } \
	    } \
	    printf "{ %d, %d, \"%s\", \"%s\", %d, %d, %d, \"%s\" },\n", mode, level, $$3, $$4 == "-" ? "" : $$4, $$5, after, at, to \
	}' $< > $@

need-gcc:
	@command -v gcc > /dev/null || { echo "gcc is missing" >&2; exit 1; }
