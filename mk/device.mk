# The host on a real bus, hosts/device, and its tests. Comes after tools.mk.
.PHONY: device test-device
DEVICE := $(BUILD)/kelindap-device
DEVICE_PARTS := transport files local log meaning device datagram tunnel control ctl
DEVICE_C := $(patsubst %,hosts/device/%.c,main $(DEVICE_PARTS))
# the plain engine is not in it
DEVICE_FROM := $(DEVICE_C) $(wildcard hosts/device/*.h) build/device_help.inc $(filter-out $(PLAIN_A),$(LINKED)) mk/device.mk
DEVICE_FLAGS := $(STRICT) -Ibuild -Ihosts/device

#: make device     the device on a real bus by KNXnet/IP, build/kelindap-device (docs/BUS.md)
device: $(DEVICE)

# gcc judges it, also where another compiler makes it
$(DEVICE): $(DEVICE_FROM) | need-gcc
	mkdir -p $(BUILD)
	for f in $(DEVICE_C); do gcc $(DEVICE_FLAGS) -c $$f -o /dev/null; done
	$(CC_FOR) -o $@ $(DEVICE_FLAGS) $(DEVICE_C) $(HOST_A) $(TOOL_A)

$(BUILD)/kelindap-device_watched: $(DEVICE_FROM) | need-gcc
	mkdir -p $(BUILD)
	$(CC_FOR) -o $@ $(DEVICE_FLAGS) -g $(SANITIZE) $(DEVICE_C) $(HOST_A) $(TOOL_A)

# what it says for --help, a line of C to a line
build/device_help.inc: hosts/device/kelindap-device.txt mk/device.mk
	@mkdir -p build
	@sed -e 's/[\\"]/\\&/g' -e 's/.*/"&",/' $< > $@

# its parts, each under the sanitizers, with what it needs beside the test
IN_PARTS := $(addprefix $(BUILD)/,transport_test tunnel_test device_test fuzz_parts)
$(BUILD)/transport_test: DEVICE_TESTED := transport
$(BUILD)/tunnel_test: DEVICE_TESTED := tunnel datagram meaning
$(BUILD)/device_test: DEVICE_TESTED := device meaning transport
$(BUILD)/fuzz_parts: DEVICE_TESTED := tunnel datagram device meaning transport
$(IN_PARTS): $(BUILD)/%: tests/device/%.c $(DEVICE_FROM) | need-gcc
	mkdir -p $(BUILD)
	$(CC_FOR) -o $@ $(DEVICE_FLAGS) -Ihosts -g $(SANITIZE) $< $(patsubst %,hosts/device/%.c,$(DEVICE_TESTED)) $(HOST_A) $(TOOL_A)

# under a minute; LONG=1 is the long form
test-device: $(DEVICE) $(BUILD)/kelindap-device_watched $(IN_PARTS) build/sheet
	tests/device/run.sh $(BUILD)
