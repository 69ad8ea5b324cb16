# A release. Comes after install.mk, firmware.mk and page.mk.
.PHONY: dist test-dist
DISTRIBUTED ?= $(LINUX) $(CONTROLLERS)

#: make dist       what a release is, in build/dist: the source, and for each processor headers, libraries, page, documents, the verdict
dist: build/kelindap.html $(SHEETS) build/libkelindap_device.a build/libkelindap_pdu.a build/libkelindap_plain.a $(FIRMWARE)
	for p in $(filter-out $(HERE),$(filter $(LINUX),$(DISTRIBUTED))); do $(MAKE) --no-print-directory -s native PROCESSOR=$$p; done
	mk/bin/dist $(DISTRIBUTED)

# what it has, that it checks itself, and the same bytes twice
test-dist: build/kelindap.html $(SHEETS) build/libkelindap_device.a build/libkelindap_pdu.a build/libkelindap_plain.a $(FIRMWARE)
	tests/dist.sh $(HERE) cortex-m3
