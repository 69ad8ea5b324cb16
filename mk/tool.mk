# The tool on the bus, tools/tool, and its tests. Comes after device.mk, which has the device that it is tried on.
.PHONY: tool test-tool
TOOL := build/kelindap-tool

#: make tool       the tool on the bus: units read, written, scanned and surveyed by KNXnet/IP, build/kelindap-tool (docs/TOOL.md)
tool: $(TOOL)

$(TOOL): $(shell find tools/sheet/src tools/tool/src -name '*.rs') tools/tool/kelindap-tool.txt tools/tool/Cargo.toml tools/tool/build.rs Cargo.toml build/sheet \
    build/libkelindap_pdu.a include/kelindap_names.h mk/tool.mk
	cargo build --release --quiet -p tool
	cp $(CARGO_BIN)/kelindap-tool $@

# a minute; LONG=1 is the long form
test-tool: $(TOOL) $(DEVICE) build/sheet build/trace $(BUILD)/height
	tests/tool/run.sh $(BUILD)
