## make help       this list
## make try        runs pfs on the stored instance (crates/pfs/stdin) without proofs, in a minute (tools/try)
## make run        proves and builds pfs, and runs it on the stored instance
## make lib        proves and builds the library for C: lib/out/libpfs.a and lib/out/libpfs.so.1 (docs/LIBRARY.md)
## make check      what to run before each commit: layout, types, scripts and pages, in less than a minute
## make test       proves and tests all that a change has to pass but the mutants (tools/test; times: docs/TESTS.md)
## make fuzz       compares the built program with a second program on random input, for MINUTES (5)
## make mutants    changes the package for Python in COUNT (300) places, one at a time, and prints what no test finds
## make install    installs the program, its manual page, the completions and the pages below PREFIX, an absolute path
##                 (and that below DESTDIR), and the library for C if `make lib` has built it. It proves and builds the
##                 program first if it is missing or older than a source. The package for Python is apart: make wheel
## make install-lib  installs the library for C alone. It proves and builds it first
## make uninstall  removes what these two have installed
## make docs       one site of the pages, the package for Python and the library's header: out/site/index.html
## make dist       a tarball, Debian packages and a wheel for machines without the kit, in the folder DIST, which is an
##                 archive for apt, with an SPDX list and sums, which SIGN=KEY signs. It proves and builds them first
## make wheel      the wheel of the package for Python alone, in the folder DIST
## make taillard   writes Taillard's 120 instances into experiments/out/taillard
.PHONY: help try run check test fuzz mutants install uninstall docs dist wheel taillard
MINUTES = 5
COUNT = 300
PYTEST = /usr/bin/python3 -m pytest
DIST = dist
PREFIX = /usr/local
# Places below PREFIX; for Debian's packages they are others.
LIB = lib
ZSH = share/zsh/site-functions
PROGRAM = crates/pfs/out/pfs
LIBRARY = lib/out/libpfs.so.1
PACKAGE = PYTHONPATH=python/src /usr/bin/python3 -B -m

define newline


endef
# What is installed: a file of the repository, and its place below PREFIX; or where a link leads, and its place.
define PROGRAM_FILES
$(PROGRAM) bin/pfs
share/pfs.1 share/man/man1/pfs.1
share/pfs.bash $(ZSH)/_pfs
$(foreach name,pfs pfs-plan pfs-gantt pfs-experiments pfs-web,\
    share/pfs.bash share/bash-completion/completions/$(name)$(newline))
$(foreach name,$(PAGES),$(name) share/doc/pfs/$(name)$(newline))
endef
PAGES = $(sort $(wildcard *.md CITATION.cff LICENSE-* docs/*.* docs/maintain/*.* examples/* experiments/*.* \
    lib/pfs.h python/README.md python/examples/*.py))
define LIBRARY_FILES
lib/out/libpfs.a $(LIB)/libpfs.a
$(LIBRARY) $(LIB)/libpfs.so.1
-> libpfs.so.1 $(LIB)/libpfs.so
lib/pfs.h include/pfs.h
lib/pfs.pc.in $(LIB)/pkgconfig/pfs.pc
lib/pfsConfig.cmake $(LIB)/cmake/pfs/pfsConfig.cmake
lib/pfsConfigVersion.cmake.in $(LIB)/cmake/pfs/pfsConfigVersion.cmake
share/pfs.3 share/man/man3/pfs.3
endef
export PROGRAM_FILES LIBRARY_FILES
# The library where it is built, so that the program's installation doesn't wait for its proofs.
BUILT_LIBRARY = $(wildcard $(LIBRARY))

help:
	@sed -n 's/^## \?//p' Makefile

try:
	tools/try

run:
	tools/build

.PHONY: lib
lib: $(LIBRARY)

check:
	$(PYTEST) -n auto -q -m check

test:
	tools/test

fuzz: run
	tests/fuzz.py --seconds $$((60 * $(MINUTES)))

mutants: out/lines
	tests/mutants.py $(COUNT)

# Which tests run which lines of the package for Python, and in out/tests.xml how long each takes.
out/lines: $(PROGRAM) $(LIBRARY) $(shell find python/src/pfs tests -name '*.py')
	mkdir -p out
	COVERAGE_FILE="$(CURDIR)/$@" $(PYTEST) -n auto -q --cov="$(CURDIR)/python/src/pfs" --cov-branch --cov-context=test \
	    --junitxml=out/tests.xml --ignore=tests/python/test_web_page.py --ignore=tests/python/test_web_state.py \
	    tests/python || [ $$? = 1 ]  # some failed

$(PROGRAM): crates.txt $(shell find crates \( -name out -o -name must-fail -o -name pfs_c -o -name pfs_calls \
    -o -name pfs_tests \) -prune -o -type f -print)
	tools/build
	touch $@  # rt leaves a program that is the same as it is

$(LIBRARY): crates.txt $(wildcard lib/*.*) $(shell find crates \( -name out -o -name must-fail -o -name pfs \
    -o -name pfs_calls -o -name pfs_desk -o -name pfs_tests -o -name pfs_words \) -prune -o -type f -print)
	tools/build pfs_c
	tools/library
	touch $@

install: $(PROGRAM) $(BUILT_LIBRARY)
	printf '%s\n' "$$PROGRAM_FILES" $(if $(BUILT_LIBRARY),"$$LIBRARY_FILES") | \
	    tools/install put "$(DESTDIR)" "$(PREFIX)" "$(LIB)"
	@$(if $(DESTDIR),,echo "pfs-plan, pfs-web, pfs-gantt and pfs-experiments are in the package for Python:" \
	    "\`make wheel\`, and then python/README.md says how pip installs it")

.PHONY: install-lib
install-lib: $(LIBRARY)
	printf '%s\n' "$$LIBRARY_FILES" | tools/install put "$(DESTDIR)" "$(PREFIX)" "$(LIB)"

uninstall:
	printf '%s\n' "$$PROGRAM_FILES" "$$LIBRARY_FILES" | tools/install take "$(DESTDIR)" "$(PREFIX)" "$(LIB)"

docs:
	tools/site/build

dist: $(PROGRAM) $(LIBRARY)
	tools/dist "$(DIST)"

wheel: $(LIBRARY)
	tools/dist wheel "$(DIST)"

taillard: $(PROGRAM)
	$(PACKAGE) pfs.experiments taillard --pfs $(PROGRAM) experiments/out/taillard
