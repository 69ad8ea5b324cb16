# Installing, and Debian's packages. Comes after tools.mk.
.PHONY: install install-files install-libraries install-docs install-programs uninstall deb test-deb
PREFIX ?= /usr/local
LIBDIR ?= $(PREFIX)/lib
DESTDIR ?=
PYTHON3 := $(shell command -v python3)
# where bash-completion looks for them, by the program's name
COMPLETIONS ?= $(PREFIX)/share/bash-completion/completions
VERSION := $(shell sed -n 's/.*KELINDAP_VERSION_TEXT "\(.*\)"/\1/p' include/kelindap_common.h)
SHEETS := $(foreach s,sample pump,$(addprefix build/sheets/$(s).,sheet txt inc))
MAN := $(patsubst %,build/man/kelindap-%.1,sheet trace unit device tool)

# what the headers speak of, and the list of what was installed
DOC := $(PREFIX)/share/doc/kelindap
LIST := $(PREFIX)/share/doc/kelindap/installed

#: make install    headers, libraries, documents, programs, man pages, completions, a unit for systemd, the Python package and pkg-config files
#:                 to PREFIX, /usr/local if not given; for another PROCESSOR than this machine's the programs, what is theirs and the
#:                 package are left out
#: make uninstall  takes away what was installed to PREFIX, and nothing else
install: install-files
	$(if $(OWN),,@echo "install: for $(PROCESSOR) the libraries and documents alone; the programs are built on such a machine")
	$(if $(OWN),$(if $(PYTHON3),,@echo "install: without the Python package: there is no python3 here"))
	@mk/bin/installed $(MAKE) --no-print-directory -s install-files PROCESSOR=$(PROCESSOR) PREFIX=$(PREFIX) LIBDIR=$(LIBDIR) \
	    > $(DESTDIR)$(LIST)

install-files: install-libraries install-docs $(if $(OWN),install-programs $(if $(PYTHON3),install-python))

uninstall: $(if $(OWN),$(if $(PYTHON3),uninstall-python))
	@[ -f $(DESTDIR)$(LIST) ] || { echo "uninstall: nothing was installed to $(DESTDIR)$(PREFIX)" >&2; exit 1; }
	@mk/bin/installed --remove '$(DESTDIR)' $(DESTDIR)$(LIST)

install-libraries: $(LIBRARIES)
	mkdir -p $(DESTDIR)$(PREFIX)/include $(DESTDIR)$(LIBDIR)/pkgconfig
	install -m 644 include/*.h $(DESTDIR)$(PREFIX)/include
	install -m 644 $(LIBRARIES) $(DESTDIR)$(LIBDIR)
	sed -e 's#@PREFIX@#$(PREFIX)#' -e 's#@LIBDIR@#$(LIBDIR)#' -e 's#@VERSION@#$(VERSION)#' -e 's#@PROCESSOR@#$(PROCESSOR)#' \
	    mk/kelindap.pc.in > $(DESTDIR)$(LIBDIR)/pkgconfig/kelindap.pc
	sed -e 's#@PREFIX@#$(PREFIX)#' -e 's#@LIBDIR@#$(LIBDIR)#' -e 's#@VERSION@#$(VERSION)#' -e 's#@PROCESSOR@#$(PROCESSOR)#' \
	    mk/kelindap-plain.pc.in > $(DESTDIR)$(LIBDIR)/pkgconfig/kelindap-plain.pc

# README, the documents, the examples, the page, and two sheets in three forms: what a header names stands there by that name
install-docs: build/kelindap.html $(SHEETS)
	mkdir -p $(DESTDIR)$(DOC)/docs $(DESTDIR)$(DOC)/examples $(DESTDIR)$(DOC)/sheets
	install -m 644 README.md CHANGELOG.md build/kelindap.html $(DESTDIR)$(DOC)
	install -m 644 docs/*.md docs/page.png $(DESTDIR)$(DOC)/docs
	install -m 644 examples/*.c examples/*.h $(SHARED) $(SHARED:.c=.h) $(DESTDIR)$(DOC)/examples
	install -m 644 $(SHEETS) $(DESTDIR)$(DOC)/sheets

install-programs: build/sheet build/trace build/unit build/kelindap-device build/kelindap-tool $(MAN)
	mkdir -p $(DESTDIR)$(PREFIX)/bin $(DESTDIR)$(PREFIX)/share/man/man1
	install -m 755 build/sheet $(DESTDIR)$(PREFIX)/bin/kelindap-sheet
	install -m 755 build/trace $(DESTDIR)$(PREFIX)/bin/kelindap-trace
	install -m 755 build/unit $(DESTDIR)$(PREFIX)/bin/kelindap-unit
	install -m 755 build/kelindap-device $(DESTDIR)$(PREFIX)/bin/kelindap-device
	install -m 755 build/kelindap-tool $(DESTDIR)$(PREFIX)/bin/kelindap-tool
	mkdir -p $(DESTDIR)$(PREFIX)/lib/systemd/system
	sed -e 's#@PREFIX@#$(PREFIX)#' hosts/device/kelindap-device@.service.in \
	    > $(DESTDIR)$(PREFIX)/lib/systemd/system/kelindap-device@.service
	chmod 644 $(DESTDIR)$(PREFIX)/lib/systemd/system/kelindap-device@.service
	install -m 644 $(MAN) $(DESTDIR)$(PREFIX)/share/man/man1
	mkdir -p $(DESTDIR)$(COMPLETIONS)
	for p in sheet trace unit device tool; do install -m 644 tools/kelindap.bash $(DESTDIR)$(COMPLETIONS)/kelindap-$$p; done

# a sheet of hosts/ as a file, as text, and as the bytes of a C array
build/sheets/%.sheet: hosts/%_sheet.inc mk/install.mk
	@mkdir -p build/sheets
	@printf "$$(grep -o '0x..' $< | sed 's/0x/\\x/' | tr -d '\n')" > $@

build/sheets/%.txt: build/sheets/%.sheet build/sheet
	@build/sheet show --keys $< > $@

build/sheets/%.inc: build/sheets/%.txt build/sheet
	@build/sheet make --c $< > $@

# a man page is made of the text that the program shows for --help
build/man/kelindap-sheet.1: tools/sheet/kelindap-sheet.txt
build/man/kelindap-trace.1: tools/trace/kelindap-trace.txt
build/man/kelindap-unit.1: hosts/kelindap-unit.txt
build/man/kelindap-device.1: hosts/device/kelindap-device.txt
build/man/kelindap-tool.1: tools/tool/kelindap-tool.txt
$(MAN): mk/bin/man include/kelindap_common.h
	@mkdir -p build/man
	@mk/bin/man $(filter %.txt,$^) $(VERSION) > $@

#: make deb        Debian's packages in build/deb: libkelindap-dev and kelindap-doc, and for this machine's own processor
#:                 kelindap-tools and python3-kelindap
deb: $(LIBRARIES) build/kelindap.html $(SHEETS) $(if $(OWN),build/sheet build/trace build/unit build/kelindap-device build/kelindap-tool $(MAN) $(if $(PYTHON3),python))
	mk/bin/deb $(PROCESSOR) libkelindap-dev kelindap-doc $(if $(OWN),kelindap-tools $(if $(PYTHON3),python3-kelindap))
	$(if $(OWN),,@echo "deb: for $(PROCESSOR) libkelindap-dev alone; kelindap-tools and python3-kelindap are built on such a machine")

# all, in an empty root; and those of the other processors, for what they hold
test-deb:
	tests/deb.sh
