# The page: the proved modules for a browser, and what shows them, in one file. Comes after hosts.mk and compare.mk.
.PHONY: page test-page
# one idea each; a file rests on those before it
PAGE_SCRIPTS = $(addprefix hosts/page/,$(addsuffix .js,$(1)))
# what needs no document: the module, what bytes mean, and what files say, as the tools say it
LIBRARY := $(call PAGE_SCRIPTS,bytes module pdu frame points values sheet where differ store device trace demo \
    decode words order text times gaps xml recordings transport answers evidence hearing events sentences make \
    doubts history place check explain account_text facts kinds sheet_text asked what api)
SCRIPTS := $(LIBRARY) $(call PAGE_SCRIPTS,view grid show means files take plot happened report accident \
    part_start part_sheet part_two part_device part_trace part_demo main)
WASM := build/module/host.bc build/module/tool.bc $(SHIMS) $(wildcard include/*.h) mk/bin/wasm mk/bin/ir

#: make page       build/kelindap.html, the proved device in a browser: one file that needs no network
page: build/kelindap.html

build/wasm/kelindap.wasm: hosts/page/fields.c $(WASM) | need-gcc
	@mk/bin/wasm $@

build/kelindap.html: build/wasm/kelindap.wasm $(SCRIPTS) $(wildcard hosts/page/*.html hosts/page/*.css) mk/bin/page mk/bin/bare mk/page.mk \
    include/kelindap_names.h $(wildcard hosts/*.inc) scripts/demo.txt $(wildcard examples/accident/*)
	@mk/bin/page $< $@ $(SCRIPTS)
	@echo "page: $@, $$(wc -c < $@) bytes"

#: make test-page  the page in a browser, as a person uses it, and the comparison with the model through its module in node
test-page: build/kelindap.html build/sheet build/trace
	tests/page/run.sh build/kelindap.html build/sheet build/trace build/page
	if command -v node > /dev/null; then $(MAKE) --no-print-directory -s said-page; fi
	if command -v node > /dev/null; then $(MAKE) --no-print-directory -s compare-page; else echo "page: no events are played through its module: there is no node here (Debian: nodejs)"; fi

# what the page says of files, held to what the trace tool says of them: its own recordings, and random ones
.PHONY: said-page
said-page: build/kelindap.html build/trace
	mkdir -p build/page
	WRITE_RECORDINGS=$(CURDIR)/build/page/random RECORDINGS=$${RECORDINGS:-300} cargo test --release --quiet -p trace --test true_or_marked -- written_down > build/page/random.log || { cat build/page/random.log; exit 1; }
	node tests/page/said.js $< build/page/random $(LIBRARY)

.PHONY: compare-page
compare-page: build/wasm/bridge
	$(call COMPARISON,$<)

build/wasm/bridge: tests/compare/bridge.c tests/page/program.js $(wildcard tests/page/libc/*.h) $(WASM) build/module/plain_host.bc mk/page.mk | need-gcc
	mk/bin/wasm $@.wasm $<
	printf '#!/bin/sh\nexec node %s "$$0.wasm"\n' "$(CURDIR)/tests/page/program.js" > $@
	chmod +x $@

# the picture in README and docs/PAGE.md: the accident on the page
.PHONY: page-picture
page-picture: build/kelindap.html
	node tests/page/picture.js $< docs/page.png
