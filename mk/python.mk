# The Python package, with the two libraries as one shared object in it, and its wheel: for this machine's own processor alone. Comes
# after tools.mk and install.mk.
.PHONY: python install-python uninstall-python test-python need-python
PYTHON_FROM := $(wildcard hosts/python/kelindap/*.py hosts/python/making/*.py include/*.h)
PYTHON_FROM += hosts/python/kelindap/py.typed hosts/python/pyproject.toml
# where `make install` leaves the package
PYTHONDIR ?= $(shell python3 hosts/python/making/place.py $(PREFIX))

TELL := import sys; sys.argv[1] in sys.path or print("install: python3 finds the package with PYTHONPATH=" + sys.argv[1])

#: make python     the Python package, build/python/kelindap, and its wheel beside it; `pip install ./hosts/python` makes both too
python: build/python/wheel.txt

# anew, so that no module is left from before
build/python/wheel.txt: $(PYTHON_FROM) build/libkelindap.so.0 mk/python.mk | need-python
	@rm -rf build/python
	@mkdir -p build/python/kelindap
	@cp hosts/python/kelindap/*.py hosts/python/kelindap/py.typed build/libkelindap.so.0 build/python/kelindap
	@python3 hosts/python/making/headers.py include > build/python/kelindap/names.py
	@python3 hosts/python/making/backend.py build/python/kelindap build/python > build/python/name
	@mv build/python/name $@

build/libkelindap.so.0: $(OWN_A) mk/python.mk | need-gcc
	@gcc -shared -o $@ -Wl,--whole-archive $(OWN_A) -Wl,--no-whole-archive

# as pip does it, so that pip can take it away again
install-python: python uninstall-python
	mkdir -p $(DESTDIR)$(PYTHONDIR)
	python3 -m zipfile -e build/python/$$(cat build/python/wheel.txt) $(DESTDIR)$(PYTHONDIR)
	@$(if $(DESTDIR),,python3 -c '$(TELL)' $(PYTHONDIR))

uninstall-python: need-python
	test -n "$(PYTHONDIR)"
	rm -rf $(DESTDIR)$(PYTHONDIR)/kelindap $(DESTDIR)$(PYTHONDIR)/kelindap-*.dist-info

need-python:
	@command -v python3 > /dev/null || { echo "python3 is missing" >&2; exit 1; }

test-python: $(if $(PYTHON3),python)
	tests/python/run.sh
