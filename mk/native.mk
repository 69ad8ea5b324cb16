# The libraries for PROCESSOR, one of mk/processors; this machine's own where none is named. Comes first of all parts.
HERE := $(shell mk/bin/processor)
PROCESSOR ?= $(HERE)
LINUX := $(shell awk '/^[a-z]/ { print $$1 }' mk/processors)
OTHERS := $(filter-out $(HERE),$(LINUX))
# not empty where it is this machine's own
OWN := $(filter $(HERE),$(PROCESSOR))
# what is for this machine stands in build, what is for another in a folder of its own there
BUILD := build$(if $(OWN),,/$(PROCESSOR))
HOST_A := $(BUILD)/libkelindap_device.a
TOOL_A := $(BUILD)/libkelindap_pdu.a
PLAIN_A := $(BUILD)/libkelindap_plain.a
LIBRARIES := $(HOST_A) $(TOOL_A) $(PLAIN_A)
# the compiler that makes programs for the processor, which run here
CC_FOR := mk/bin/cc $(PROCESSOR)
SHIMS := shims/passing.h shims/device.c shims/pdu.c shims/plain.c
.PHONY: native no-libraries test-shims test-others

#: make native     the libraries for this machine's processor, or for PROCESSOR=x86_64, aarch64, armhf, riscv64
native: $(LIBRARIES)
	@echo "native: for $(PROCESSOR): $^"

ifeq ($(PROCESSOR),x86_64)
# those of the crates that export to C, under names that no other project has
$(HOST_A): build/module/host.a
$(TOOL_A): build/module/tool.a
$(PLAIN_A): build/module/plain_host.a
$(LIBRARIES):
	@mkdir -p $(@D)
	@cp $< $@
else ifneq ($(filter $(PROCESSOR),$(LINUX)),)
# of the modules of which those are made
$(HOST_A): build/module/host.bc
	@mk/bin/native $(PROCESSOR) host $@
$(TOOL_A): build/module/tool.bc
	@mk/bin/native $(PROCESSOR) tool $@
$(PLAIN_A): build/module/plain_host.bc
	@mk/bin/native $(PROCESSOR) plain_host $@
$(LIBRARIES): $(SHIMS) $(wildcard include/*.h) mk/processors mk/bin/native mk/bin/ir | need-gcc
else
$(LIBRARIES): no-libraries
endif
no-libraries:
	@echo "there are no libraries for $(PROCESSOR); PROCESSOR may be: $(LINUX)" >&2
	@exit 1

# the archives are made anew when a source or a proof has changed, and with them the modules for other processors
build/module/%.a build/module/%.bc: mk/bin/module mk/bin/twin crates.txt \
    $(shell find crates -regex 'crates/[^/]*/out' -prune -o \( -name '*.rt' -o -name '*.antt' \) -print)
	@echo "$*_c is proved and its archive built, which takes some minutes at first"
	@mk/bin/module $*
.PRECIOUS: build/module/%.a build/module/%.bc

# faults planted in the shims, on the first processor that has them and whose programs can be made and run here
SHIMMED := $(filter-out x86_64,$(HERE) $(OTHERS))
test-shims: build/module/host.bc build/module/tool.bc build/module/plain_host.bc build/unit_help.inc
	for p in $(SHIMMED); do if mk/bin/can $$p > /dev/null; then exec tests/shims.sh $$p; fi; done; \
	echo "shims: no faults are planted: programs can be made and run here for none of $(SHIMMED)"

# the tests from outside once more, with fewer events, on every other processor for which programs can be made and run here
OTHER_EVENTS ?= 50000
FEWER := EVENTS=$(OTHER_EVENTS) POINTS=$(OTHER_EVENTS) FRAMES=5000 WAITS=20 CUT_SAVES=1 CUT_EVENTS=2000 FEW=1
test-others:
	for p in $(OTHERS); do \
	    if ! how=$$(mk/bin/can $$p); then echo "others: $$p is left out: $$how"; continue; fi; \
	    echo "others: $$p, $$how, with fewer events"; \
	    $(MAKE) --no-print-directory -s PROCESSOR=$$p $(FEWER) test-unit test-c test-wear points test-frames compare test-cuts; \
	done
