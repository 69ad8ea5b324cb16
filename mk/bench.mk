# The library beside the plain Rust model, both compiled for this machine's own processor. Comes after native.mk.
.PHONY: bench growth

#: make bench      the speed of each request, beside plain Rust
# nanoseconds and instructions for each request: figures and no verdict, so not among the tests
bench: build/libkelindap_device.a build/libkelindap_pdu.a build/libkelindap_plain.a
	cargo build --release --quiet -p bench
	$(CARGO_BIN)/bench
	$(CARGO_BIN)/point_times
	$(CARGO_BIN)/trace_times
	$(CARGO_BIN)/link_times
	$(CARGO_BIN)/engine_times
	$(CARGO_BIN)/survey_times

#: make growth     the instructions of each call by the size of its work
growth: build/growth
	tests/bench/growth.sh build/growth

build/growth: tests/bench/growth.c build/libkelindap_device.a $(wildcard include/*.h) hosts/sample_sheet.inc | need-gcc
	gcc $(STRICT) -Ihosts -o $@ $< build/libkelindap_device.a
