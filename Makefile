# Installs the built program, the tools and the manual page:
#
#     make install PREFIX=$HOME/.local
#
# The program is built and proved by `rt run` in crates/mathlay. What is proved and tested, `rt ci` and tools/quick.py say.

# The packages of the tools, beside their commands.
PARTS = companion editing second
PREFIX = /usr/local
BIN = $(DESTDIR)$(PREFIX)/bin
SHARE = $(DESTDIR)$(PREFIX)/share/mathlay
MAN = $(DESTDIR)$(PREFIX)/share/man/man1
LIB = $(DESTDIR)$(PREFIX)/lib
INCLUDE = $(DESTDIR)$(PREFIX)/include
PROGRAM = crates/mathlay/out/mathlay
TOOLS = page formula picture font_metrics mathml_tree explain editor

KIT = $(dir $(shell rt doc))
ARCHIVE = crates/embed_c/out/libembed_c.a

help:
	@echo 'make install PREFIX=FOLDER    the program, the tools and the manual page (PREFIX is $(PREFIX))'
	@echo 'make uninstall PREFIX=FOLDER  removes them'
	@echo 'make library                  libmathlay.a and libmathlay.so, proved by `rt lib` first'
	@echo 'make install-library          both, with the header and the Python module'
	@echo 'make test                     the tests of the tools'

$(PROGRAM):
	@echo '$(PROGRAM) is not there: README.md says how `rt run` builds it' >&2
	@exit 1

install: $(PROGRAM)
	mkdir -p $(BIN) $(MAN) $(PARTS:%=$(SHARE)/tools/%) $(SHARE)/tools/editor $(SHARE)/docs $(SHARE)/samples
	install -m 755 $(PROGRAM) $(BIN)/mathlay
	install -m 644 docs/mathlay.1 $(MAN)/mathlay.1
	install -m 644 VERSION LICENSE-MIT LICENSE-APACHE $(SHARE)
	install -m 644 docs/FORMATS.md docs/TOOLS.md docs/EDITOR.md docs/MATHML.md docs/DIFFERENCES.md \
	    docs/editor.png docs/kerns.png docs/right_to_left.png docs/spanning.png $(SHARE)/docs
	install -m 644 samples/latin-modern-math.metrics samples/README.md samples/*.mml samples/*.html \
	    samples/*.json samples/*.script samples/quadratic.svg samples/arabic.svg $(SHARE)/samples
	install -m 644 tools/operators.txt tools/stand_ins.txt $(TOOLS:%=tools/%.py) $(SHARE)/tools
	for part in $(PARTS); do install -m 644 tools/$$part/*.py $(SHARE)/tools/$$part || exit 1; done
	install -m 644 tools/editor/editor.html tools/editor/editor.css tools/editor/editor.js $(SHARE)/tools/editor
	for tool in $(TOOLS); do \
	    sed "s|@TOOL@|$$tool.py|" tools/installed.sh > $(BIN)/mathlay-$$tool && chmod 755 $(BIN)/mathlay-$$tool || exit 1; \
	done

uninstall:
	rm -f $(BIN)/mathlay $(TOOLS:%=$(BIN)/mathlay-%) $(MAN)/mathlay.1
	rm -f $(LIB)/libmathlay.a $(LIB)/libmathlay.so $(INCLUDE)/mathlay.h
	rm -rf $(SHARE)

library:
	cd crates/embed_c && rt lib
	$(MAKE) -s archive

# It stands alone: the kit's heap, over malloc, is put in.
archive: $(ARCHIVE)
	cp $(ARCHIVE) libmathlay.a
	mkdir -p build && cd build && ar x $(KIT)c/liblibc_c.a heap.pic.o
	ar rs libmathlay.a build/heap.pic.o
	$(CC) -shared -o libmathlay.so -Wl,--whole-archive libmathlay.a -Wl,--no-whole-archive \
	    -Wl,--no-undefined -Wl,--version-script=include/mathlay.map

install-library: libmathlay.a libmathlay.so
	mkdir -p $(LIB) $(INCLUDE) $(SHARE)/python
	install -m 644 include/mathlay.h $(INCLUDE)/mathlay.h
	install -m 644 libmathlay.a $(LIB)/libmathlay.a
	install -m 755 libmathlay.so $(LIB)/libmathlay.so
	install -m 644 bindings/python/mathlay.py $(SHARE)/python/mathlay.py

$(ARCHIVE) libmathlay.a libmathlay.so:
	@echo '$@ is not there: `make library` makes it' >&2
	@exit 1

test:
	cd tools && python3 -B -m tests

.PHONY: help install library archive install-library uninstall test
