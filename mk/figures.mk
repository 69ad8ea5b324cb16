# Figures of sizes, stack and instructions, held to what the documents quote. Comes after hosts.mk, compare.mk and firmware.mk.
.PHONY: figures write-figures measured

QUOTING := docs/PROCESSORS.md docs/SPEED.md
# x86-64's are quoted, also where the machine is another
X86 := build$(if $(filter x86_64,$(HERE)),,/x86_64)
MEASURE = tests/docs/measure.sh build/figures $(X86)/libkelindap_device.a $(X86)/libkelindap_pdu.a $(X86)/stack $(CARGO_BIN)/bench $(COMPARE)

#: make figures    sizes, stack and instructions, held to what PROCESSORS and SPEED quote; make write-figures puts them there
figures: measured
	$(MEASURE)
	build/documents/figures check build/figures $(QUOTING)

write-figures: measured
	$(MEASURE) times
	build/documents/figures write build/figures $(QUOTING)

measured: build/documents/figures build/growth build/libkelindap_device.a build/libkelindap_pdu.a build/libkelindap_plain.a $(FIRMWARE) | need-tools
	$(MAKE) --no-print-directory -s PROCESSOR=x86_64 $(X86)/libkelindap_device.a $(X86)/libkelindap_pdu.a $(X86)/stack
	cargo build --release --quiet -p bench -p compare
