# `make` proves and builds the program shamir. It proves as many libraries side by side as the machine can, so it needs no -j. It leaves
# ./shamir-papers too, which needs the library of `make lib` or of `make try`.
# `make test` runs all checks, and `make quick` those that a change concerns. The other targets are:
#
#   make try         needs no kit: it compiles dist/c, and drills a backup with it. It leaves ./shamir, and ./shamir-papers, which runs
#                    over the library
#   make lib         proves and builds the library: libshamir.a and libshamir.so. It leaves ./shamir-papers, which runs over it
#   make prove-NAME  proves a library of crates/, after those that it uses
#   make test-NAME   proves and runs the tests of a library, after the libraries that it uses
#   make edits       tries the wrong bodies of crates/*/wrong-bodies.edits in rounds, as `make test` does
#   make twins       tries the twins of all wrong bodies
#   make wasm        proves and builds the library for WebAssembly: shamir.wasm, with 64-bit memory, and shamir32.wasm, with
#                    32-bit memory
#   make portable    makes dist/c, the library and the program each as one file of C, from shamir32.wasm and program.wasm
#   make page        builds shamir.html, the page with the library in it
#   make checks      runs each check-NAME below except check-portable and check-alone, side by side: as many as there are processors,
#                    and as many as get 3 GB of memory each, or as -j says. Each tool runs in a target of its own, such as
#                    check-recipes, which runs alone too
#   make check       runs the fast checks. They cover the documents, examples of doc comments, manual pages, completions,
#                    terminals, values from files, refused allocations, the library and the packages
#   make check-library   checks the library alone: its headers, examples, the Python binding, generated cases, and the
#                    vectors; and the JavaScript package and the Rust crate
#   make check-page  checks shamir.html in Chromium and in Firefox: each task by keyboard, each refusal, what the browser keeps; and
#                    its tasks in WebKit
#   make check-papers  checks shamir-papers in terminals: each task, each wrong answer, what the terminal and the memory keep
#   make check-without-kit  needs no kit: it compiles dist/c, and checks the program and the library by the vectors, worked examples,
#                    generated cases beside a plain reading of the standard in Python, and the commands of the documents
#   make check-portable  checks dist/c, the library and the program each as one file of C: on x86-64 with each compiler, for other
#                    processors with emulators, and for Windows with wine
#   make check-js    checks the JavaScript package alone: its types, and its tests with both forms of the library
#   make check-secrets   looks with valgrind for branches and addresses of the library that depend on secrets, and for secrets that
#                    its calls leave on the stack, and that the program leaves in its memory; and for both where keys are derived
#   make check-keys  compares keys, texts and addresses of generated secrets with a plain reading of the standards in Python, and with
#                    Electrum
#   make faults      makes each allocation, open, read and write of the program fail in turn
#   make compare     compares the program, and the repair of the library, with a plain reading of the standard in Python, on
#                    generated cases; and the page and shamir-papers with the program
#   make bench       measures speed
#   make install     installs the program, the library, the page and shamir-papers into the folders below, under DESTDIR. It proves
#                    nothing. If one of them isn't up to date, it says so and installs nothing. Without DESTDIR, it lets the loader
#                    know of the library if it can, and otherwise says what is left to do (packaging/loader)
#   make install-bin, make install-lib, make install-page, make install-papers   install the program, the library, the page or
#                    shamir-papers as it is here, up to date or not
#   make uninstall   uninstalls all four
#   make wheel       builds a wheel of the Python package, with libshamir.so and the commands shamir and shamir-papers in it
#   make deb         builds the Debian packages shamir (with the page in it), libshamir1, libshamir-dev, python3-shamir and
#                    shamir-papers. `tools/deb --target` builds those for another processor, from dist/
#   make check-packages  installs, runs and uninstalls what `make install`, `make wheel` and `make deb` make, and unpacks an
#                    archive of the sources, such as `make dist` makes
#   make release     writes dist/, which holds what needs no build: the page, the program and the library as plain C, and as modules for
#                    JavaScript
#   make check-dist  makes the files of dist/ anew, and compares them byte for byte
#   make check-alone  runs the commands of README.md, and uses the page and the packages, where the kit, the repository and the
#                    network are hidden. It needs root's rights
#   make dist        builds and packs all that a release gives into the folder shamir-VERSION: the committed sources, the page, dist/,
#                    the packages, their sha256, and notes. The same commit and tools give the same bytes
#   make clean       removes what these targets build, and what checks kept in crates/*/out
RT ?= rt
PYTHON ?= python3
INSTALL ?= install
LDCONFIG ?= ldconfig
PREFIX ?= /usr/local
BINDIR ?= $(PREFIX)/bin
# With 711 and root as its owner, a user can run the program and can't read it. Then, if fs.suid_dumpable is 0, it leaves no core
# file (SECURITY.md).
BINMODE ?= 755
LIBDIR ?= $(PREFIX)/lib
INCLUDEDIR ?= $(PREFIX)/include
MANDIR ?= $(PREFIX)/share/man
DOCDIR ?= $(PREFIX)/share/doc/shamir
PAGEDIR ?= $(PREFIX)/share/shamir
PYTHONDIR ?= $(PREFIX)/share/shamir/python
BASHDIR ?= $(PREFIX)/share/bash-completion/completions
ZSHDIR ?= $(PREFIX)/share/zsh/site-functions
FISHDIR ?= $(PREFIX)/share/fish/vendor_completions.d
# tools/deb takes the program, the library and the page from another folder.
BUILT = .
VERSION = 1.0.0
# The number in this name increases whenever a program linked against an earlier version would break. It is also the first
# number of VERSION.
SONAME = libshamir.so.1
# shamir.pc names these paths, so they must not depend on the folder in which make runs. To `abspath`, a space ends a path.
override PREFIX := $(abspath $(PREFIX))
override LIBDIR := $(abspath $(LIBDIR))
override INCLUDEDIR := $(abspath $(INCLUDEDIR))
$(foreach it,PREFIX LIBDIR INCLUDEDIR,$(if $(word 2,$($(it))),$(error $(it) must have no space)))
# Plain x86-64 lets the program and the library run on every such processor. Old machines without a network suit secrets well. On an
# earlier state, a drill and a recovery took 0.3% more instructions than with x86-64-v2.
CPU = x86-64
# The logic of the kit decides what is proved. `rt version` prints its sum, and README.md names it.
LOGIC = dac8208d650f15bf
# Without rt, a target that proves says so before anything else.
TELL_OF_KIT = @command -v $(RT) > /dev/null || { echo "make: $(RT) of the kit isn't on the path, so nothing can be proved or built (README.md says what the kit is); without it, 'make try' works, and dist/shamir.html opens in a browser" >&2; exit 1; }; \
	found=$$($(RT) version 2> /dev/null) || found="no version"; case "$$found" in *" logic $(LOGIC)") ;; \
	*) echo "make: 'rt version' says '$$found', and README.md names a kit with logic $(LOGIC)" >&2 ;; esac
# These crates are programs for measurements and checks.
TOOLS = s39_bench s39_allocations s39_timing keys_shown
# The crate of the program is the only other one with a main.
PROGRAM = $(filter-out $(TOOLS),$(patsubst crates/%/src/main.rt,%,$(wildcard crates/*/src/main.rt)))
# crates.txt lists all crates, and after each the crates and libraries that it uses.
CRATES := $(shell sed -n 's/^\([a-z0-9_]*\).*:.*/\1/p' crates.txt)
STATIC := $(shell sed -n 's/^\([a-z0-9_]*\) staticlib.*:.*/\1/p' crates.txt)
uses = $(filter $(CRATES),$(shell sed -n 's/^$(1)\( [a-z0-9_=]*\)*://p' crates.txt))
# `make` proves these libraries, and then the program: all that the program uses, and crates that hold only theorems. The others
# are tests, measurements, and libraries for other languages. What the program uses comes first, since the most waits for it.
LIBRARIES = $(call uses,$(PROGRAM)) $(filter-out $(PROGRAM) $(STATIC) $(TOOLS) s39_fixtures s39_tests_% tests_%,$(CRATES))
# Libraries are proved side by side: as many as there are processors, and as many as get 3 GB of memory each.
JOBS = $(or $(shell PYTHONPATH=tools $(PYTHON) -B -c 'import prover; print(prover.lanes())'),1)
SIDE_BY_SIDE = $(if $(filter -j%,$(MAKEFLAGS)),,-j$(JOBS)) --no-print-directory
DOCUMENTS = README.md CHANGELOG.md CONTRIBUTING.md SECURITY.md LICENSE NOTICE
# This command prints the name of each call of the library. `make install-lib` makes a link with each of these names to the
# manual page shamir(3).
CALLS = sed -n 's/^\(shamir_answer\|void\) \(shamir_[a-z_]*\).*/\2/p' include/shamir.h
SOURCES = $(shell find crates -path '*/out' -prune -o -type f -print) crates.txt

TIMING = crates/s39_timing/out/timing
KEYS = crates/keys_shown/out/keys

.PHONY: all lib wasm portable page test quick edits twins check check-library check-js check-page check-papers check-packages check-secrets bench faults compare try install install-bin install-lib install-page install-papers uninstall wheel deb release dist clean

all: shamir shamir-papers
lib: libshamir.so $(SONAME) shamir-papers

# Proves the libraries, proves and builds the program, and runs `show` once on the input stored in its crate.
shamir: $(SOURCES)
	$(TELL_OF_KIT)
	@$(MAKE) $(SIDE_BY_SIDE) $(addprefix prove-,$(LIBRARIES))
	cd crates/$(PROGRAM) && $(RT) run --cpu=$(CPU) -- show < stdin > /dev/null
	cp crates/$(PROGRAM)/out/$(PROGRAM) $@

# Proves every crate that the library uses, and builds the archive.
libshamir.a: $(SOURCES)
	$(TELL_OF_KIT)
	@$(MAKE) $(SIDE_BY_SIDE) $(addprefix prove-,$(call uses,s39_c))
	cd crates/s39_c && $(RT) lib --cpu=$(CPU) > /dev/null
	cp crates/s39_c/out/libs39_c.a $@

SHARED = -shared -Wl,-soname,$(SONAME),--version-script,packaging/libshamir.map,-z,defs,-z,relro,-z,now

libshamir.so: libshamir.a packaging/libshamir.map
	$(CC) $(CFLAGS) $(LDFLAGS) $(SHARED) -o $@ -Wl,--whole-archive libshamir.a -Wl,--no-whole-archive
	cp $@ bindings/python/shamir/libshamir.so
	cp NOTICE bindings/python/NOTICE

# Runs from this folder, over libshamir.so, or else over what `make try` compiled.
shamir-papers: packaging/shamir-papers
	cp $< $@

try: shamir-papers
	@$(PYTHON) tools/try

# The loader looks for the library under this name, also for a program that is linked in this folder.
$(SONAME): libshamir.so
	ln -sf libshamir.so $@

test:
	$(TELL_OF_KIT)
	@RT=$(RT) tools/gate

quick:
	$(TELL_OF_KIT)
	@RT=$(RT) tools/quick

edits:
	$(TELL_OF_KIT)
	@RT=$(RT) tools/edits

twins:
	$(TELL_OF_KIT)
	@RT=$(RT) tools/edits --twins

# Each sum of checks first builds what its checks need. Then it runs them side by side: as many as JOBS says, or as many as -j says.
# Those that take longest come first. tools/part writes the name of a check before each of its lines.
LIBRARY_CHECKS = check-rust check-header check-cpp check-clients check-vectors check-js check-calls
PACKAGES_CHECKS = check-debs check-installed
SECRETS_CHECKS = check-leftovers check-timing
PAGE_PARTS = privacy change refusals tasks journey entry looks astray hasty long agreement ways
PAGE_CHECKS = $(foreach part,$(PAGE_PARTS),check-page-firefox-$(part) check-page-chromium-$(part)) check-page-sources check-page-webkit
CHECKS = $(LIBRARY_CHECKS) $(PACKAGES_CHECKS) check-allocations check-terminal check-recipes check-completions check-values check-dist check-program check-node check-without-kit \
	check-examples check-texts check-figures check-manual check-version check-keys
LONGEST = check-page-firefox-privacy check-page-chromium-privacy check-header check-rust check-program check-leftovers check-papers check-vectors $(PACKAGES_CHECKS)
PART = @$(PYTHON) tools/part $@
# Without wasm-opt there is no page, and the checks say what they leave out.
WASM_OPT := $(shell command -v wasm-opt 2> /dev/null)
PAGE = $(if $(WASM_OPT),shamir.html)
MODULES = $(if $(WASM_OPT),shamir32.wasm program.wasm)

.PHONY: checks check-secrets check-portable check-alone $(CHECKS) $(SECRETS_CHECKS) $(PAGE_CHECKS)

checks: shamir libshamir.so $(SONAME) $(TIMING) $(KEYS) shamir.wasm $(PAGE) $(MODULES)
	@$(MAKE) $(SIDE_BY_SIDE) $(LONGEST) $(PAGE_CHECKS) $(SECRETS_CHECKS) check-papers $(CHECKS)

check: shamir libshamir.so $(SONAME) $(KEYS) shamir.wasm $(PAGE) $(MODULES)
	@$(MAKE) $(SIDE_BY_SIDE) $(CHECKS)

check-library: shamir libshamir.so $(SONAME) shamir.wasm $(PAGE)
	@$(MAKE) $(SIDE_BY_SIDE) $(LIBRARY_CHECKS)

check-packages: shamir libshamir.so $(SONAME) $(PAGE)
	@$(MAKE) $(SIDE_BY_SIDE) $(PACKAGES_CHECKS)

check-secrets: shamir libshamir.a $(TIMING) $(KEYS)
	@$(MAKE) $(SIDE_BY_SIDE) $(SECRETS_CHECKS)

check-page: shamir $(PAGE)
	@$(MAKE) $(SIDE_BY_SIDE) $(PAGE_CHECKS)

# If checks need several of these, one is built after the other: two provers at a time would prove the same crates.
ifneq ($(filter check%,$(MAKECMDGOALS)),)
libshamir.a: | shamir
$(TIMING): | libshamir.so $(if $(filter checks,$(MAKECMDGOALS)),shamir.wasm)
$(KEYS): | $(if $(filter-out check-keys,$(MAKECMDGOALS)),libshamir.so) $(if $(filter checks check-secrets check-timing,$(MAKECMDGOALS)),$(TIMING))
endif

check-version: shamir
	$(PART) sh -c 'test "$$(./shamir --version)" = "shamir $(VERSION)" || { echo "./shamir --version says $$(./shamir --version)"; exit 1; }'

check-figures: shamir $(PAGE)
	$(PART) tools/figures

check-recipes: shamir libshamir.so $(SONAME) $(PAGE)
	$(PART) tools/recipes

check-texts: shamir
	$(PART) tools/texts

check-examples:
	$(PART) tools/examples

check-manual:
	$(PART) tools/manual

check-completions: shamir libshamir.so
	$(PART) tools/completions

check-terminal: shamir
	$(PART) tools/terminal

# It makes no library: whoever has dist/ needs no kit.
check-alone:
	$(PART) $(PYTHON) tools/alone

# Without wasm-opt there is no page, and the check says so.
check-dist: $(PAGE) $(MODULES)
	$(PART) $(PYTHON) tools/release --check

# What is in dist/ needs no kit, and so does this.
check-without-kit:
	$(PART) $(PYTHON) tools/without_kit

# The program as plain C beside ./shamir, on this machine alone.
check-program: shamir libshamir.so $(MODULES)
	$(PART) $(PYTHON) tools/check_portable --program

# The program in Node beside ./shamir. Without wasm-opt there is no program.wasm, and the check says so.
check-node: shamir $(MODULES)
	$(PART) $(PYTHON) tools/node

check-values: shamir
	$(PART) tools/values

check-allocations: shamir
	$(PART) tools/faults --allocations

check-header: shamir libshamir.so $(SONAME)
	$(PART) tools/library

check-calls:
	$(PART) tools/calls

check-cpp: libshamir.so
	$(PART) $(PYTHON) tools/check_cpp

check-clients: libshamir.so $(if $(WASM_OPT),shamir32.wasm)
	$(PART) tools/clients

check-vectors: shamir libshamir.so
	$(PART) $(PYTHON) tools/vectors

check-rust: libshamir.so
	$(PART) tools/rust

# Without wasm-opt there is no shamir32.wasm, and the check says so.
check-portable: shamir libshamir.so $(SONAME) $(MODULES)
	$(PART) $(PYTHON) tools/check_portable

check-js: shamir.wasm $(PAGE) $(MODULES)
	$(PART) tools/javascript

check-installed: shamir libshamir.so $(PAGE)
	$(PART) tools/packages

check-debs: shamir libshamir.so $(PAGE)
	$(PART) tools/debs

check-timing: libshamir.a $(TIMING) $(KEYS)
	$(PART) $(PYTHON) tools/timing

check-keys: $(KEYS)
	$(PART) tools/keys

check-leftovers: shamir libshamir.a $(KEYS)
	$(PART) $(PYTHON) tools/leftovers

$(filter-out %-sources %-webkit,$(PAGE_CHECKS)): check-page-%: shamir $(PAGE)
	$(PART) $(PYTHON) tools/check_page --no-pictures --browser $(subst -, ,$*)

check-page-sources:
	$(PART) $(PYTHON) tools/check_page sources

check-page-webkit: shamir $(PAGE)
	$(PART) $(PYTHON) tools/check_page --no-pictures webkit

check-papers: shamir libshamir.so
	$(PART) $(PYTHON) tools/check_papers

# Proves and builds the program that tools/timing looks at, beside the library.
$(TIMING): $(SOURCES)
	cd crates/s39_timing && $(RT) run --cpu=$(CPU) < stdin > /dev/null
	cp crates/s39_timing/out/s39_timing $@

# Proves and builds the program that derives keys of wallets, for several checks.
$(KEYS): $(SOURCES)
	cd crates/keys_shown && $(RT) run --cpu=$(CPU) -- $$(cat args) < stdin > /dev/null
	cp crates/keys_shown/out/keys_shown $@

faults: shamir
	cd crates/s39_allocations && $(RT) run < stdin > /dev/null
	@tools/faults

compare: shamir libshamir.so $(KEYS) shamir32.wasm shamir.html
	@tools/compare
	@tools/library --kinds repair --cases 10000
	@tools/javascript --cases 10000
	@$(PYTHON) tools/check_page --cases 200 agreement
	@$(PYTHON) tools/check_papers --cases 300 agreement

bench: shamir shamir32.wasm
	cd crates/s39_bench && $(RT) run > /dev/null
	@$(PYTHON) tools/bench

install:
	@stale=; for file in shamir libshamir.a libshamir.so shamir.html; do $(MAKE) -s -q $$file 2> /dev/null || stale="$$stale $$file"; done; \
	test -z "$$stale" || { echo "make install: first 'make$$stale', which proves them; or 'make install-bin install-lib install-page install-papers', which installs what is built here" >&2; exit 1; }
	@$(MAKE) install-bin install-lib install-page install-papers

install-bin:
	@test -f $(BUILT)/shamir || { echo "make install-bin: $(BUILT)/shamir isn't here: 'make' proves and builds it" >&2; exit 1; }
	$(INSTALL) -d "$(DESTDIR)$(BINDIR)" "$(DESTDIR)$(MANDIR)/man1" "$(DESTDIR)$(BASHDIR)" "$(DESTDIR)$(ZSHDIR)" "$(DESTDIR)$(FISHDIR)" \
		"$(DESTDIR)$(DOCDIR)/docs" "$(DESTDIR)$(DOCDIR)/examples"
	$(INSTALL) -m $(BINMODE) $(BUILT)/shamir "$(DESTDIR)$(BINDIR)/shamir"
	$(INSTALL) -m 644 man/shamir.1 "$(DESTDIR)$(MANDIR)/man1/shamir.1"
	$(INSTALL) -m 644 completions/shamir.bash "$(DESTDIR)$(BASHDIR)/shamir"
	$(INSTALL) -m 644 completions/_shamir "$(DESTDIR)$(ZSHDIR)/_shamir"
	$(INSTALL) -m 644 completions/shamir.fish "$(DESTDIR)$(FISHDIR)/shamir.fish"
	$(INSTALL) -m 644 $(DOCUMENTS) "$(DESTDIR)$(DOCDIR)"
	$(INSTALL) -m 644 docs/*.md docs/*.png "$(DESTDIR)$(DOCDIR)/docs"
	$(INSTALL) -m 644 examples/*.txt examples/*.sh "$(DESTDIR)$(DOCDIR)/examples"

install-lib:
	@for file in libshamir.a libshamir.so; do \
	test -f $(BUILT)/$$file || { echo "make install-lib: $(BUILT)/$$file isn't here: 'make lib' proves and builds it" >&2; exit 1; }; done
	$(INSTALL) -d "$(DESTDIR)$(LIBDIR)/pkgconfig" "$(DESTDIR)$(INCLUDEDIR)" "$(DESTDIR)$(MANDIR)/man3" "$(DESTDIR)$(DOCDIR)/docs" \
		"$(DESTDIR)$(DOCDIR)/examples/c" "$(DESTDIR)$(DOCDIR)/examples/cpp"
	$(INSTALL) -m 644 $(BUILT)/libshamir.a "$(DESTDIR)$(LIBDIR)/libshamir.a"
	$(INSTALL) -m 644 $(BUILT)/libshamir.so "$(DESTDIR)$(LIBDIR)/libshamir.so.$(VERSION)"
	ln -sf libshamir.so.$(VERSION) "$(DESTDIR)$(LIBDIR)/$(SONAME)"
	ln -sf $(SONAME) "$(DESTDIR)$(LIBDIR)/libshamir.so"
	$(INSTALL) -m 644 include/shamir.h include/shamir.hpp "$(DESTDIR)$(INCLUDEDIR)"
	sed 's|@PREFIX@|$(PREFIX)|; s|@LIBDIR@|$(LIBDIR:$(PREFIX)/%=$${prefix}/%)|; s|@INCLUDEDIR@|$(INCLUDEDIR:$(PREFIX)/%=$${prefix}/%)|; s|@VERSION@|$(VERSION)|' \
		include/shamir.pc.in > "$(DESTDIR)$(LIBDIR)/pkgconfig/shamir.pc"
	chmod 644 "$(DESTDIR)$(LIBDIR)/pkgconfig/shamir.pc"
	$(INSTALL) -m 644 man/shamir.3 "$(DESTDIR)$(MANDIR)/man3/shamir.3"
	for call in $$($(CALLS)); do ln -sf shamir.3 "$(DESTDIR)$(MANDIR)/man3/$$call.3"; done
	$(INSTALL) -m 644 $(DOCUMENTS) "$(DESTDIR)$(DOCDIR)"
	$(INSTALL) -m 644 docs/*.md docs/*.png "$(DESTDIR)$(DOCDIR)/docs"
	$(INSTALL) -m 644 examples/c/*.c "$(DESTDIR)$(DOCDIR)/examples/c"
	$(INSTALL) -m 644 examples/cpp/*.cpp "$(DESTDIR)$(DOCDIR)/examples/cpp"
	$(INSTALL) -m 644 examples/*.txt examples/*.sh "$(DESTDIR)$(DOCDIR)/examples"
	@test -n "$(DESTDIR)" || PATH="$$PATH:/usr/sbin:/sbin" LDCONFIG="$(LDCONFIG)" packaging/loader "$(LIBDIR)" $(SONAME)

install-page:
	@test -f $(BUILT)/shamir.html || { echo "make install-page: $(BUILT)/shamir.html isn't here: 'make page' builds it" >&2; exit 1; }
	$(INSTALL) -d "$(DESTDIR)$(PAGEDIR)"
	$(INSTALL) -m 644 $(BUILT)/shamir.html dist/heirs.html "$(DESTDIR)$(PAGEDIR)"

# The command finds its modules and the library by the folders that are given here.
START_PAPERS = sed -n '/^. Until/,$$p' packaging/shamir-papers
install-papers:
	$(INSTALL) -d "$(DESTDIR)$(BINDIR)" "$(DESTDIR)$(MANDIR)/man1" "$(DESTDIR)$(BASHDIR)" "$(DESTDIR)$(ZSHDIR)" "$(DESTDIR)$(FISHDIR)" \
		"$(DESTDIR)$(PYTHONDIR)/shamir/papers"
	printf '#!/bin/sh\ntest -f "%s" || { echo "shamir-papers: %s is missing" >&2; exit 1; }\nexport "SHAMIR_LIBRARY=%s" "PYTHONPATH=%s"\npython=python3 options=\n' "$(LIBDIR)/$(SONAME)" "$(LIBDIR)/$(SONAME)" "$(LIBDIR)/$(SONAME)" "$(PYTHONDIR)" > "$(DESTDIR)$(BINDIR)/shamir-papers"
	$(START_PAPERS) >> "$(DESTDIR)$(BINDIR)/shamir-papers"
	chmod 755 "$(DESTDIR)$(BINDIR)/shamir-papers"
	$(INSTALL) -m 644 bindings/python/shamir/*.py bindings/python/shamir/py.typed "$(DESTDIR)$(PYTHONDIR)/shamir"
	$(INSTALL) -m 644 bindings/python/shamir/papers/*.py page/texts.js "$(DESTDIR)$(PYTHONDIR)/shamir/papers"
	$(INSTALL) -m 644 man/shamir-papers.1 "$(DESTDIR)$(MANDIR)/man1/shamir-papers.1"
	$(INSTALL) -m 644 completions/shamir-papers.bash "$(DESTDIR)$(BASHDIR)/shamir-papers"
	$(INSTALL) -m 644 completions/_shamir-papers "$(DESTDIR)$(ZSHDIR)/_shamir-papers"
	$(INSTALL) -m 644 completions/shamir-papers.fish "$(DESTDIR)$(FISHDIR)/shamir-papers.fish"

uninstall:
	rm -f "$(DESTDIR)$(BINDIR)/shamir" "$(DESTDIR)$(MANDIR)/man1/shamir.1"
	rm -f "$(DESTDIR)$(BASHDIR)/shamir" "$(DESTDIR)$(ZSHDIR)/_shamir" "$(DESTDIR)$(FISHDIR)/shamir.fish"
	rm -f "$(DESTDIR)$(LIBDIR)/libshamir.a" "$(DESTDIR)$(LIBDIR)/libshamir.so" "$(DESTDIR)$(LIBDIR)/$(SONAME)" "$(DESTDIR)$(LIBDIR)/libshamir.so.$(VERSION)"
	rm -f "$(DESTDIR)$(LIBDIR)/pkgconfig/shamir.pc" "$(DESTDIR)$(INCLUDEDIR)/shamir.h" "$(DESTDIR)$(INCLUDEDIR)/shamir.hpp"
	rm -f "$(DESTDIR)$(PAGEDIR)/shamir.html" "$(DESTDIR)$(PAGEDIR)/heirs.html"
	rm -f "$(DESTDIR)$(BINDIR)/shamir-papers" "$(DESTDIR)$(MANDIR)/man1/shamir-papers.1"
	rm -f "$(DESTDIR)$(BASHDIR)/shamir-papers" "$(DESTDIR)$(ZSHDIR)/_shamir-papers" "$(DESTDIR)$(FISHDIR)/shamir-papers.fish"
	rm -rf "$(DESTDIR)$(PYTHONDIR)/shamir"
	rmdir "$(DESTDIR)$(PYTHONDIR)" 2> /dev/null; true
	rmdir "$(DESTDIR)$(PAGEDIR)" 2> /dev/null; true
	for page in shamir $$($(CALLS)); do rm -f "$(DESTDIR)$(MANDIR)/man3/$$page.3"; done
	cd "$(DESTDIR)$(DOCDIR)/" 2> /dev/null && rm -f $(DOCUMENTS) docs/*.md docs/*.png examples/*.txt examples/*.sh examples/c/*.c examples/cpp/*.cpp && \
	rmdir examples/c examples/cpp examples docs "$$(pwd)" 2> /dev/null; true

wheel: shamir libshamir.so
	$(PYTHON) tools/wheel

deb: shamir libshamir.so shamir.html
	tools/deb

release: shamir.html program.wasm
	@$(PYTHON) tools/release

dist:
	@top=$$(git -c 'safe.directory=*' rev-parse --show-toplevel 2>&1); test "$$top" = "$$(pwd -P)" || \
	{ echo "make dist: this folder isn't the top of a git checkout, so there is no commit to pack: $$top" >&2; exit 1; }
	@$(MAKE) -s shamir libshamir.so shamir.html
	@RT=$(RT) $(PYTHON) tools/dist $(VERSION)

wasm: shamir32.wasm

# Proves the library once more, for WebAssembly, over the crates that it uses.
shamir.wasm: libshamir.a tools/wasm
	@RT=$(RT) tools/wasm

shamir32.wasm: shamir.wasm
	@tools/wasm --lower

# Proves the program once more, for WebAssembly. `make test` makes it beside ./shamir.
program.wasm: $(SOURCES) tools/wasm | shamir
	@RT=$(RT) tools/wasm --program

portable: shamir32.wasm program.wasm
	@$(PYTHON) tools/portable

page: shamir.html

shamir.html: shamir32.wasm tools/page $(wildcard page/*.js page/*.html page/*.css bindings/js/*.js)
	@tools/page

clean:
	rm -rf shamir shamir-papers libshamir.a libshamir.so $(SONAME) shamir.wasm shamir32.wasm program.wasm shamir.html page/out bindings/python/shamir/libshamir.so bindings/python/shamir/portable.so bindings/python/LICENSE bindings/python/NOTICE bindings/python/build bindings/python/shamir.egg-info bindings/js/*.wasm bindings/js/LICENSE bindings/js/NOTICE shamir-$(VERSION) shamir-*.tar.gz shamir-*.whl *.deb crates/*/out

# prove-NAME proves the library NAME once those are proved that it uses. `rt` looks at the contents of all files, and proves only
# what changed.
.SECONDEXPANSION:
.PHONY: $(CRATES:%=prove-%) $(CRATES:%=test-%)
$(CRATES:%=prove-%): prove-%: $$(addprefix prove-,$$(call uses,$$*))
	@RT=$(RT) tools/prove $*

$(CRATES:%=test-%): test-%: $$(addprefix prove-,$$(call uses,$$*))
	@RT=$(RT) tools/prove --tests $*
