# The libraries against the plain Rust model, event by event; EVENTS and SEED may be given. Comes after hosts.mk.
.PHONY: compare points

EVENTS ?= 2000000
SEED ?=
COMPARE := $(CARGO_BIN)/compare

# the whole comparison, through one bridge
define COMPARISON
	cargo build --release --quiet -p compare
	$(COMPARE) $(1) $(EVENTS) $(SEED)
	$(COMPARE) $(1) --faults $(SEED)
	$(COMPARE) $(1) --apart $$(($(EVENTS) / 10)) $(SEED)
	$(COMPARE) $(1) --learn $$(($(EVENTS) / 10)) $(SEED)
	$(COMPARE) $(1) --before $$(($(EVENTS) / 10)) $(SEED)
endef

#: make compare    the libraries against a plain Rust model; EVENTS and SEED may be given
compare: $(BUILD)/bridge
	$(call COMPARISON,$<)

$(BUILD)/bridge: tests/compare/bridge.c mk/compare.mk $(LINKED) | need-gcc
	mkdir -p $(BUILD)
	gcc $(STRICT) -c $< -o /dev/null
	$(CC_FOR) -o $@ $(STRICT) $< $(LIBRARIES)

# group values against the model, through the desk unit; so many of them at random
POINTS ?= 1000000
points: $(BUILD)/unit
	cargo build --release --quiet -p compare
	$(CARGO_BIN)/points $(BUILD)/unit $(POINTS)
