# make            proves the crates below mdhtml and builds bin/mdhtml; make install-mdhtml installs it.
# make mdevents   proves the crates below mdevents and builds bin/mdevents.
# make quick      builds both programs, the library and the page's modules in bin/quick/, in minutes: without proofs, with run-time checks.
# make kept       proves and builds both programs and the library for C. It keeps the work of each check for the next one: use it if you
#                 change the code afterwards.
# make lib        puts the files that C programs link into bin/: an archive, a shared library, their header and a file for pkg-config.
# make install    installs all of these below PREFIX, with the manual pages, the list of entities, examples in C and completions for
#                 shells. The library goes into LIBDIR. It builds what is missing. With QUICK=yes it installs the files of make quick,
#                 which it otherwise refuses.
# make dist       packs the proved programs and the library for users without the toolchain, in bin/dist/. make check-dist packs them
#                 again in another folder and compares each byte.
# make modules    makes the modules of the page and of the package for JavaScript in web/, if they are not there or older than the code.
# make web        makes the modules and tests the page in a browser. It is not part of make test.
# make safe       checks the safe HTML of hostile documents with an HTML5 parser (Debian's python3-html5lib). It is not part of make test.
# make fuzz       tests the library for C on texts that libFuzzer makes, for ten minutes. It is not part of make test.
# make test       runs all proofs and tests; its last line is the gate's count. docs/GATE.md describes each part and its time.
.PHONY: all mdhtml mdevents quick kept lib install install-mdhtml dist check-dist modules web safe fuzz test edits gate programs wrong outside installed beside
.NOTPARALLEL:

PREFIX = /usr/local
# The folder of the library, which some systems have elsewhere, such as /usr/lib/x86_64-linux-gnu.
LIBDIR = $(PREFIX)/lib
# The files that are installed, and the choice among them.
BUILT = $(if $(filter yes,$(QUICK)),bin/quick,bin)
INTO = $(DESTDIR)$(PREFIX)
INTO_LIB = $(DESTDIR)$(LIBDIR)
# The lines of the file for pkg-config that have the paths.
PATHS = -e 's|^prefix=.*|prefix=$(abspath $(PREFIX))|' -e 's|^libdir=.*|libdir=$(abspath $(LIBDIR))|'

all: mdhtml

mdhtml mdevents:
	tools/build $@

kept:
	tools/build --keep mdhtml mdevents pulldown_cmark_c

bin/mdhtml bin/mdevents:
	tools/build $(@F)

lib:
	tools/build pulldown_cmark_c
	tools/lib

bin/lib/libpulldown_cmark.a:
	$(MAKE) lib

quick:
	tools/quick

bin/quick/mdhtml bin/quick/mdevents bin/quick/lib/libpulldown_cmark.a:
	tools/quick

install-mdhtml: $(BUILT)/mdhtml
	@test "$(QUICK)" = yes || tools/quick --refuse $(BUILT)/mdhtml
	install -d $(INTO)/bin $(INTO)/share/mdhtml $(INTO)/share/man/man1
	install -m 755 $(BUILT)/mdhtml $(INTO)/bin
	install -m 644 share/entities.json $(INTO)/share/mdhtml
	install -m 644 share/man/man1/mdhtml.1 $(INTO)/share/man/man1
	tools/completions $(INTO)/share $(BUILT)/mdhtml

install: $(BUILT)/mdhtml $(BUILT)/mdevents $(BUILT)/lib/libpulldown_cmark.a
	@test "$(QUICK)" = yes || tools/quick --refuse $(BUILT)/mdhtml $(BUILT)/mdevents $(BUILT)/lib/libpulldown_cmark.a $(BUILT)/lib/libpulldown_cmark.so.0.13.6
	$(MAKE) install-mdhtml
	install -m 755 $(BUILT)/mdevents $(INTO)/bin
	install -m 644 share/man/man1/mdevents.1 $(INTO)/share/man/man1
	tools/completions $(INTO)/share $(BUILT)/mdevents
	install -d $(INTO)/include $(INTO_LIB)/pkgconfig $(INTO)/share/man/man3
	install -m 644 include/pulldown_cmark.h $(INTO)/include
	install -m 644 share/man/man3/pulldown_cmark.3 $(INTO)/share/man/man3
	tools/examples $(INTO)/share/doc/pulldown_cmark/examples
	install -m 644 $(BUILT)/lib/libpulldown_cmark.a $(INTO_LIB)
	install -m 755 $(BUILT)/lib/libpulldown_cmark.so.0.13.6 $(INTO_LIB)
	ln -sf libpulldown_cmark.so.0.13.6 $(INTO_LIB)/libpulldown_cmark.so.0
	ln -sf libpulldown_cmark.so.0 $(INTO_LIB)/libpulldown_cmark.so
	sed $(PATHS) $(BUILT)/lib/pkgconfig/pulldown_cmark.pc > $(INTO_LIB)/pkgconfig/pulldown_cmark.pc

dist:
	tools/dist

check-dist:
	tools/dist --twice

modules: lib
	tools/web

web: bin/mdhtml bin/mdevents modules
	tests/bindings/web
	tests/bindings/safe --browser

safe: bin/lib/libpulldown_cmark.a
	tests/bindings/safe

fuzz: bin/lib/libpulldown_cmark.a
	tests/bindings/fuzz 600

test: edits gate programs beside
	@tail -n 1 bin/gate.log

# Faults that are found without a proof come first.
edits:
	tests/edits/syntax
	tests/documents/check
	tests/documents/clauses

# The tests that need no proof run beside the gate, on the processors that it leaves idle.
gate:
	mkdir -p bin
	nice -n 19 tests/library/run > bin/unit.log 2>&1 & unit=$$!; \
	(rt ci; echo $$? > bin/gate.status) 2>&1 | tee bin/gate.log; \
	wait $$unit; unit=$$?; cat bin/unit.log; \
	test "$$(cat bin/gate.status) $$unit" = "0 0"

# Links the object code that the gate built. Nothing is proved a second time. If the gate kept
# the programs from an earlier run on this machine, it leaves no object code, and they are built once more.
programs:
	@test -e crates/mdhtml/out/mdhtml.o -a -e crates/mdevents/out/mdevents.o || tools/build mdhtml mdevents
	tools/link mdhtml mdevents

# Edits that the prover has to refuse, over the libraries that are built.
wrong:
	tests/edits/try

# The tests over the gate's libraries and programs, as two jobs in parallel: one uses one processor, the other all of them. Faults of edits
# are printed once more at the end, after the long output of the other job.
beside:
	$(MAKE) modules installed > bin/lib.log 2>&1 & lib=$$!; \
	($(MAKE) outside wrong; echo $$? > bin/outside.status) 2>&1 | tee bin/outside.log; \
	wait $$lib; lib=$$?; cat bin/lib.log; \
	sed -n '/^wrong: fault/p' bin/outside.log; \
	test "$$lib $$(cat bin/outside.status)" = "0 0"

# Tests of the built programs, for properties that the proofs do not cover.
outside:
	tests/programs/entities
	tests/programs/out_of_memory
	tests/library/refused_calls
	tests/texts/rows
	tests/texts/hostile
	tests/texts/walks 2000 1
	tests/grammar/check_inlines 2000 1
	tests/grammar/check_blocks 1000 1
	tests/grammar/check_blocks 500 2 gfm tables footnotes tasklists definition-list heading-attributes yaml-metadata plus-metadata
	tests/texts/vectors

# Tests of the installed files: the programs and their manual pages, and the library called from C and from Python.
installed:
	tests/programs/run
	tests/bindings/run
	tests/bindings/streams
	tests/programs/examples
	tests/programs/dist
