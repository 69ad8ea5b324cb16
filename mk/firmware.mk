# The device for the controllers' own processors. Comes after hosts.mk and compare.mk.
CONTROLLERS := cortex-m0 cortex-m3 cortex-m4 rv32imac
FIRMWARE := $(CONTROLLERS:%=build/firmware/%/libkelindap_device.a)
.PHONY: firmware test-firmware times

#: make firmware   the device for the controllers' own processors, with its bytes and the deepest stack of each call
firmware: $(FIRMWARE)
	for p in $(CONTROLLERS); do mk/bin/sizes $$p; done

build/firmware/%/libkelindap_device.a: build/module/host.bc $(SHIMS) shims/aeabi.c $(wildcard include/*.h) mk/bin/firmware mk/bin/ir | need-gcc
	mk/bin/firmware $*

#: make test-firmware   the same on models of their boards; FIRMWARE_EVENTS and SEED may be given
FIRMWARE_EVENTS ?= 100000
test-firmware: firmware $(BUILD)/bridge
	cargo build --release --quiet -p compare
	for p in $(CONTROLLERS); do tests/c/symbols.sh $(DEVICE_H) build/firmware/$$p/libkelindap_device.a; done
	tests/firmware/attributes.sh $(filter build/firmware/cortex-%,$(FIRMWARE))
	EVENTS=$(FIRMWARE_EVENTS) SEED=$(SEED) tests/firmware/run.sh $(COMPARE) $(BUILD)/bridge

#: make times      instructions of each request on them, counted by the emulators
# figures and no verdict, so not among the tests
times: firmware
	cargo build --release --quiet -p compare
	for p in $(CONTROLLERS); do mk/bin/firmware $$p bridge tests/compare/bridge.c tests/firmware/board.c tests/firmware/memory.c; done
	printf '%-31s' "sheet  request"; printf ' %9s' $(CONTROLLERS); echo
	COUNT=1 $(COMPARE) --times $(CONTROLLERS:%=build/firmware/%/bridge) 2> /dev/null
