# Frames: the reader and writer against the plain Rust model, through the desk unit; a host in shell and one in C. Comes after hosts.mk.
.PHONY: test-frames

FRAMES ?= 20000

test-frames: $(BUILD)/unit $(BUILD)/unit_watched $(BUILD)/frame_test
	$(WATCHED) $(BUILD)/frame_test
	grep -v '^#' tests/vectors/frame.tsv | cut -f 2 | $(WATCHED) $(BUILD)/unit_watched | cmp - <(grep -v '^#' tests/vectors/frame.tsv | cut -f 3)
	cargo build --release --quiet -p model
	$(CARGO_BIN)/frames $(BUILD)/frames.in $(BUILD)/frames.out $(FRAMES) $(SEED)
	$(BUILD)/unit < $(BUILD)/frames.in | cmp - $(BUILD)/frames.out
	head -n 2000 $(BUILD)/frames.in | $(WATCHED) $(BUILD)/unit_watched | cmp - <(head -n 2000 $(BUILD)/frames.out)
	tests/unit/frames.sh $(BUILD)/unit < tests/unit/frames.bus | cmp - tests/unit/frames.expected
	@echo "frames: $$(grep -vc '^#' tests/vectors/frame.tsv) vectors, $$(wc -l < $(BUILD)/frames.in) random commands, $$(grep -c '^<' tests/unit/frames.expected) frames from the bus, 0 different"

$(BUILD)/frame_test: tests/c/frame_test.c tests/c/lent.h $(LINKED) | need-gcc
	mkdir -p $(BUILD)
	gcc $(STRICT) -c $< -o /dev/null
	$(CC_FOR) -o $@ $(STRICT) -g $(SANITIZE) $< $(TOOL_A)
