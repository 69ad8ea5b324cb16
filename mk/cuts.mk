# Power cuts: the host of examples/flash.c on a medium whose power goes at any byte. Comes after compare.mk.
.PHONY: test-cuts

#: make test-cuts  power cuts at every byte of a save, and against the plain model; LONG=1 is the long form, CUT_SAVES, CUT_EVENTS and
#:                 SEED may be given
test-cuts: $(HOST_A) $(wildcard include/*.h) | need-gcc
	cargo build --release --quiet -p compare
	CC_FOR="$(CC_FOR)" SANITIZE="$(SANITIZE)" SEED=$(SEED) tests/cuts/run.sh $(BUILD) $(COMPARE)
