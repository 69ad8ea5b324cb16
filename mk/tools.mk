# Programs for people: the sheet as text and traces, in Rust, and the examples in C; their tests. Comes after hosts.mk.
.PHONY: tools test-tools lint

#: make tools      build/sheet (checks, shows, makes, compares and surveys sheets), build/kelindap-tool, build/trace (shows, makes, plays and explains
#:                 traces) and the examples, build/host and build/height
tools: build/sheet build/trace build/kelindap-tool $(BUILD)/host $(BUILD)/height

# the example host shares transport, files and socket with the one on a real bus
SHARED := hosts/device/transport.c hosts/device/files.c hosts/device/local.c
$(BUILD)/host: examples/host.c examples/bus.h $(SHARED) $(wildcard hosts/device/*.h) $(LINKED) | need-gcc
	mkdir -p $(BUILD)
	gcc $(STRICT) -Ihosts/device -c $< -o /dev/null
	$(CC_FOR) -o $@ $(STRICT) -Ihosts/device $< $(SHARED) $(HOST_A) $(TOOL_A)

# a client of the example host, for its tests
$(BUILD)/bus_height: tests/c/bus_height.c examples/bus.h $(wildcard hosts/device/*.h) $(LINKED) | need-gcc
	mkdir -p $(BUILD)
	$(CC_FOR) -o $@ $(STRICT) -Iexamples -Ihosts/device $< $(HOST_A) $(TOOL_A)

# a tool in C on a real bus: the PDU layer alone
$(BUILD)/height: examples/height.c $(LINKED) | need-gcc
	mkdir -p $(BUILD)
	gcc $(STRICT) -c $< -o /dev/null
	$(CC_FOR) -o $@ $(STRICT) $< $(TOOL_A)

build/sheet: $(shell find tools/sheet/src -name '*.rs') tools/sheet/kelindap-sheet.txt tools/sheet/Cargo.toml Cargo.toml mk/tools.mk
	cargo build --release --quiet -p sheet
	cp $(CARGO_BIN)/sheet build/sheet

# linked with the libraries of this machine's own processor
OWN_A := build/libkelindap_device.a build/libkelindap_pdu.a
TRACE_TEXT := include/kelindap_names.h include/kelindap_common.h tools/trace/kelindap-trace.txt
build/trace: $(shell find tools/sheet/src tools/trace/src -name '*.rs') $(TRACE_TEXT) tools/trace/Cargo.toml tools/trace/build.rs build/sheet $(OWN_A)
	cargo build --release --quiet -p trace
	cp $(CARGO_BIN)/trace build/trace

test-tools: tools $(BUILD)/unit $(BUILD)/bus_height
	UNIT=$(CURDIR)/$(BUILD)/unit cargo test --release --quiet -p sheet
	UNIT=$(CURDIR)/$(BUILD)/unit cargo test --release --quiet -p trace
	tests/examples.sh $(BUILD)/host $(BUILD)/bus_height build/sheet
	tests/install.sh
	tests/shell/run.sh

# what the languages' own tools find, where they are installed
lint:
	tests/lint.sh
