# Builds, shows, tests and installs cmsproof. `make` builds the program from the assembly in dist/ by a C compiler; the command `rt`
# of the Rattle toolchain proves it (`make proved`) and that dist/ is what the proved sources compile to (`make verify-dist`).

# with it `cd` could lead out of the repository
unexport CDPATH

PREFIX ?= /usr/local
PYTHON ?= python3
BINDIR = $(DESTDIR)$(PREFIX)/bin
LIBDIR = $(DESTDIR)$(PREFIX)/lib/cmsproof
MANDIR = $(DESTDIR)$(PREFIX)/share/man
DOCDIR = $(DESTDIR)$(PREFIX)/share/doc/cmsproof
# where bash, zsh and fish look for completion
FOR_BASH = $(DESTDIR)$(PREFIX)/share/bash-completion/completions
FOR_ZSH = $(DESTDIR)$(PREFIX)/share/zsh/site-functions
FOR_FISH = $(DESTDIR)$(PREFIX)/share/fish/vendor_completions.d
# the machines that packages are made for: this one, or those of ARCHES='amd64 arm64', by a compiler for each
ARCHES ?= $(patsubst x86_64,amd64,$(patsubst aarch64,arm64,$(shell uname -m)))
# What is installed of the tools is what their folder has, and no list of it stands anywhere: the commands, and under the names of
# Python's packages the modules and what lies beside them. (A hidden file, a backup of an editor or what Python compiled has another name.)
TOOLS := $(shell test ! -d tools/installed || LC_ALL=C find tools/installed -maxdepth 1 -type f -regex 'tools/installed/cmsproof-[a-z]+' | LC_ALL=C sort)
MODULES := $(shell cd tools/installed 2> /dev/null && LC_ALL=C find cmsproof cmsproof_tools -type f \
    -regex '[a-z0-9_/]+\.[a-z]+' ! -name '*.pyc' ! -path '*/__pycache__/*' | LC_ALL=C sort)
# The documents that are installed, and below `examples` what their commands use of the repository, under its names: all that is in these
# folders, but of the guide's session its files alone, beside which the builder may have keys.
DOCUMENTS := LICENSE NOTICE README.md dist/PROVENANCE $(addprefix docs/,GUIDE.md PROVED.md REFUSALS.md TOOLS.md guide.svg records.svg)
EXAMPLES := $(addprefix data/guide/,answers.txt authority.pem found.pem found_authority.pem letter.p7s letter.tsq letter.tsr read.txt \
    second.pem second.tsr signer.pem trusted.txt trusted_second.txt trusted_until.txt) \
    $(shell test ! -d data/real || LC_ALL=C find data/real data/records tools/oracle tools/samples -type f \
    -regex '[a-z_/]+/[A-Za-z0-9_]+\(\.[a-z0-9]+\)?' ! -name '*.pyc' | LC_ALL=C sort)
FISH := $(addprefix packaging/completion/,cmsproof.fish $(patsubst %,%.fish,$(notdir $(TOOLS))))
# each of the names in $(2), in the folder $(1), whose name may have a space or a %
IN = $(foreach name,$(2),"$(1)/$(name)")
# where the package cmsproof looks for the library first
LIBRARY = tools/installed/cmsproof/libcmsproof.so.1
CRATE = crates/cmsproof
SOURCES := crates.txt HANDLES $(shell find crates -name out -prune -o \( -name '*.rt' -o -name '*.antt' \) -print)
NEED_RT = command -v rt > /dev/null || { echo "cmsproof: no command 'rt' is on the PATH: install the Rattle toolchain" >&2; exit 1; }
NEED_PYTHON = $(PYTHON) -c 'import cryptography' 2> /dev/null || \
    { echo "cmsproof: '$(PYTHON)' is missing, or its library 'cryptography': install python3-cryptography" >&2; exit 1; }

.PHONY: build proved dist verify-dist demo check test soak tools-test docs-test fuzz hostile install uninstall clean bench instructions
.PHONY: install-tools list-installed
.PHONY: report-test test-all test-without-rt deb tarball library library-test library-soak install-library uninstall-library

build: cmsproof $(LIBRARY)

# From dist/: checks its sums, picks the processor, says in one line what was built. CC=clang is another compiler.
cmsproof: $(wildcard dist/*) tools/build.sh tools/sources.sh $(SOURCES)
	@CC='$(CC)' sh tools/build.sh

# The library, from dist/ too, for the tools and the package for Python.
$(LIBRARY): $(wildcard dist/lib*) dist/runtime.c tools/library.sh include/cmsproof.h
	@CC='$(CC)' PREFIX='$(PREFIX)' sh tools/library.sh "$(BUILT)"
	@install -m 644 "$(BUILT)/libcmsproof.so.1" $@.new && mv -f $@.new $@

# Proves every crate of the program, and builds it by the toolchain, with a line for each crate.
proved:
	@$(NEED_RT)
	@$(PYTHON) tools/dist.py proved

# Proves the program, the library for C and the program of workloads, and writes dist/ from what they compile to: once for a change that
# lands, if a source of these changed.
dist:
	@$(NEED_RT)
	@$(PYTHON) tools/dist.py make

# Proves them, and compares their assembly, text for text, and the digest of the sources with dist/.
verify-dist:
	@$(NEED_RT)
	@$(PYTHON) tools/dist.py verify

# The session of docs/GUIDE.md: run, where openssl and Python's `cryptography` are there, else shown on stored files.
demo: build
	@sh demo.sh

# The quick proof: every crate, over what earlier runs kept, with no edit and no test.
check:
	@$(NEED_RT)
	@rt all check

# The whole gate: whether dist/ says that it is of these sources, docs/PROVED.md has the clauses of their calls, and their lines are
# narrow and as rt fmt lays them out; the edits that are owed because something changed that they stand on; every proof (from nothing, unless this machine proved
# the same text before), the edits that the gate keeps, none of them bad, the tests, the program as two compilers build it; then whether
# dist/ is what those proved sources compile to, the rows of the tests on the program that is built from it, whether all of the tools is
# installed and packed, and runs the guide's commands there, what jobs of the program cost, and rows on aarch64's if it can be emulated.
# RT_JOBS=N has N checks run side by side, SOAK_MINUTES=N gives the edits that are owed N minutes. Without `rt`, what can be done
# without it, and is not long.
ifeq ($(shell command -v rt 2> /dev/null),)
test: test-without-rt
else
test:
	@$(NEED_RT)
	@jobs=$${RT_JOBS:-$$(sh tools/jobs.sh)} && \
	sources=$$(sh tools/sources.sh) && \
	$(PYTHON) tools/dist.py begin && \
	$(PYTHON) tools/api.py --check && \
	$(PYTHON) tools/lines.py --check && \
	$(PYTHON) tools/soak.py --changed --minutes $(or $(SOAK_MINUTES),20) --jobs "$$jobs" && \
	began=$$(date +%s) && \
	RT_JOBS=$$jobs sh tools/proofs.sh && \
	$(PYTHON) tools/dist.py gate "$$began" "$$sources" && \
	MACHINE='' CC='$(CC)' sh tools/build.sh && \
	$(PYTHON) tools/program_rows.py ./cmsproof && \
	CC='$(CC)' $(PYTHON) tools/on_installed.py gate && \
	CC='$(CC)' $(PYTHON) tools/instructions.py --gate && \
	$(PYTHON) tools/dist.py emulated
endif

# What can be tested without `rt`: that dist/ is as its sums say, what the built program says of all rows that a program can show,
# the tests of the tools, and the commands of the documents; where `make test` does it, without the tests that take long, in ten minutes
# on two processors. What is left out, for that or since this machine lacks something, has a line that says why; the last line counts it.
test-without-rt:
	@echo "cmsproof: no command 'rt' is on the PATH: nothing is proved, and no edit is tried"
	@$(MAKE) --no-print-directory test-all TESTED=short

test-all: TESTED =
test-all:
	@CC='$(CC)' sh tools/build.sh
	@$(MAKE) --no-print-directory --always-make $(LIBRARY)
	@cd dist && sha256sum --check --quiet SHA256SUMS && echo "dist/ is as its sums say"
	@$(PYTHON) tools/program_rows.py ./cmsproof
	@status=0; { $(LOOK); } || status=1; $(PYTHON) tools/on_installed.py $(TESTED) || status=1; exit $$status

# The workloads of dist/ here, timed by bench/run against those of the dist/ of commit SINCE, with SEED=N: no proof is needed.
bench:
	@CC='$(CC)' $(PYTHON) tools/bench.py run '$(SINCE)' $(if $(SEED),'$(SEED)')

# What jobs of dist/ cost in instructions, memory and stack, beside bench/instructions.txt. It needs valgrind.
instructions:
	@CC='$(CC)' $(PYTHON) tools/instructions.py

# Tries all edits, those that the gate leaves out too, or those of CRATES="NAME ..", JOBS=N of them side by side, and writes
# what was refused into `soaked`.
soak:
	@$(NEED_RT)
	@$(PYTHON) tools/soak.py --jobs $(or $(JOBS),1) $(CRATES)

# The tests of the tools that are installed beside the program, of the oracle and of the scripts of the gate, on a tree that `make
# install` makes in a new folder. Where pyflakes and mypy are installed, these look at the code first.
LOOK = $(call LOOKS,pyflakes3,tools benchmarks packaging) && $(call LOOKS,mypy)
LOOKS = if command -v $(1) > /dev/null; then $(1) $(2); else echo "tools-test: there is no $(1), so it did not look at the code"; fi
tools-test: build
	@$(LOOK)
	@$(PYTHON) tools/on_installed.py tests

# The report of cmsproof-archive, also in Chromium if it is there.
report-test:
	@$(NEED_PYTHON)
	@$(PYTHON) tools/tests/test_report.py

# Runs each command of the documents that is marked so, on such a tree, and compares what it prints.
docs-test: build
	@$(PYTHON) tools/on_installed.py documents

# Mutated real files, held against the rules and OpenSSL; not part of the gate. MINUTES=N, SEED=S.
fuzz: cmsproof
	@$(PYTHON) tools/trying/fuzz.py ./cmsproof --minutes $(or $(MINUTES),10) $(if $(SEED),--seed $(SEED))

# Families of hostile inputs, and devices and memory that fail, on the built program; not part of the gate.
hostile: cmsproof
	@$(PYTHON) tools/trying/hostile.py ./cmsproof
	@$(PYTHON) tools/trying/failing.py ./cmsproof

install: build install-tools
	install -m 755 cmsproof "$(BINDIR)"
	install -d "$(MANDIR)/man1" "$(MANDIR)/man5"
	install -m 644 $(wildcard man/*.1) "$(MANDIR)/man1"
	install -m 644 $(wildcard man/*.5) "$(MANDIR)/man5"
	install -d $(call IN,$(DOCDIR)/examples,$(sort $(dir $(EXAMPLES))))
	install -m 644 $(DOCUMENTS) "$(DOCDIR)"
	set -e; for example in $(EXAMPLES); do install -m 644 "$$example" "$(DOCDIR)/examples/$$example"; done
	install -d "$(FOR_BASH)" "$(FOR_ZSH)" "$(FOR_FISH)"
	install -m 644 packaging/completion/cmsproof.bash "$(FOR_BASH)/cmsproof"
	for tool in $(notdir $(TOOLS)); do ln -sf cmsproof "$(FOR_BASH)/$$tool"; done
	install -m 644 packaging/completion/_cmsproof "$(FOR_ZSH)"
	install -m 644 $(FISH) "$(FOR_FISH)"

# The tools and the package for Python, with the library and the page of refusals, which a report shows. What is installed for this
# machine is compiled, since who runs it may write nothing there: else each run would compile it, which takes a fifth of a short one.
install-tools: $(LIBRARY)
	install -d "$(BINDIR)" $(call IN,$(LIBDIR),$(sort $(dir $(MODULES))))
	install -m 755 $(TOOLS) "$(BINDIR)"
	set -e; for module in $(MODULES); do install -m 644 "tools/installed/$$module" "$(LIBDIR)/$$module"; done
	install -m 644 docs/REFUSALS.md "$(LIBDIR)/cmsproof_tools"
	install -m 644 $(LIBRARY) "$(LIBDIR)/cmsproof"
	@test -n "$(DESTDIR)" || (umask 022 && $(PYTHON) -m compileall -q "$(LIBDIR)") || echo "cmsproof: the tools were not compiled, and start slower"

# Which files of the folders are installed as they are: whoever makes packages in a clone asks git whether it knows them all.
list-installed:
	@printf '%s\n' $(TOOLS) $(addprefix tools/installed/,$(MODULES)) $(wildcard man/*.1) $(wildcard man/*.5) $(DOCUMENTS) $(EXAMPLES)

uninstall:
	rm -f "$(BINDIR)/cmsproof" $(call IN,$(BINDIR),$(notdir $(TOOLS)))
	rm -f "$(FOR_BASH)/cmsproof" $(call IN,$(FOR_BASH),$(notdir $(TOOLS)))
	rm -f "$(FOR_ZSH)/_cmsproof" $(call IN,$(FOR_FISH),$(notdir $(FISH)))
	rm -rf "$(LIBDIR)" "$(DOCDIR)"
	rm -f $(call IN,$(MANDIR)/man1,$(notdir $(wildcard man/*.1))) $(call IN,$(MANDIR)/man5,$(notdir $(wildcard man/*.5)))

# The library for C, in BUILT.
BUILT = build/library
library: $(LIBRARY)
	@CC='$(CC)' PREFIX='$(PREFIX)' sh tools/library.sh "$(BUILT)"

# What the library says of the real files, in four builds, beside what the command says; its ABI; refused memory; threads. It needs
# gcc, g++, clang and valgrind. The second one takes long: threads for a minute, changed files, a fuzzer for MINUTES=N (10).
library-test: cmsproof library
	@sh tools/tests/library/run.sh "$(BUILT)"

library-soak: cmsproof library
	@sh tools/tests/library/soak.sh "$(BUILT)" $(MINUTES)

install-library: library
	install -d "$(DESTDIR)$(PREFIX)/include" "$(DESTDIR)$(PREFIX)/lib/pkgconfig"
	install -m 644 "$(BUILT)/cmsproof.h" "$(DESTDIR)$(PREFIX)/include"
	install -m 644 "$(BUILT)/libcmsproof.a" "$(DESTDIR)$(PREFIX)/lib"
	install -m 755 "$(BUILT)/libcmsproof.so.1" "$(DESTDIR)$(PREFIX)/lib"
	ln -sf libcmsproof.so.1 "$(DESTDIR)$(PREFIX)/lib/libcmsproof.so"
	install -m 644 "$(BUILT)/cmsproof.pc" "$(DESTDIR)$(PREFIX)/lib/pkgconfig"

uninstall-library:
	rm -f "$(DESTDIR)$(PREFIX)/include/cmsproof.h" "$(DESTDIR)$(PREFIX)/lib/pkgconfig/cmsproof.pc"
	rm -f $(foreach name,libcmsproof.a libcmsproof.so libcmsproof.so.1,"$(DESTDIR)$(PREFIX)/lib/$(name)")

# Packages of dist/ and the tools, in the folder packages: for Debian, and with a program that needs no library of the system.
deb: build
	@set -e; for arch in $(ARCHES); do sh packaging/deb.sh $$arch; done

tarball: build
	@set -e; for arch in $(ARCHES); do sh packaging/tarball.sh $$arch; done

clean:
	rm -f cmsproof cmsproof.new $(LIBRARY) $(LIBRARY).new
	rm -rf crates/*/out packages build tools/installed/*.egg-info
