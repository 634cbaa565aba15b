# Make a pipe fail if any of its commands fails.
SHELL := bash
.SHELLFLAGS := -o pipefail -c

PREFIX ?= /usr/local
DESTDIR ?=
# The program to test, measure and install. If you name one, make does not build it.
PROGRAM := bin/ansible-vault
# The processor to build for, such as x86-64-v3. The default is the last build's, and at first x86-64-v2.
CPU ?= $(shell cat bin/processor 2> /dev/null)
# Whether `make install` may replace files that it did not install.
REPLACE ?= no
# Whether `make test` skips tests that need a missing tool, such as `rt`. Otherwise, it stops at once.
PARTIAL ?= no
# Whether `make bench` runs only one short round of each, to show that it works. Its figures then mean nothing.
QUICK ?= no
QUICKLY := $(if $(filter yes,$(QUICK)),--quick)

VERSION := $(shell sed -n 's/^const VERSION: &str = "\(.*\)";$$/\1/p' crates/vault_request/src/command_line.rt)
SOURCES := $(shell find crates/*/src crates/*/specs crates/*/proofs) crates.txt

# The Python that runs the installed companions, whatever PATH and the current directory say.
PYTHON := /usr/bin/python3
NO_PYYAML = $(PYTHON) has no PyYAML, which the companions need: install it (Debian's package python3-yaml)

# The installed files, below the prefix, in the directories that Debian's tools search. Python finds the companions'
# shared package beside the files that the links point to.
TOP := $(DESTDIR)$(PREFIX)
COMPANIONS := $(patsubst companions/ansible-vault-%,%,$(sort $(wildcard companions/ansible-vault-*)))
MANUALS := $(wildcard man/*.[17])
LIBRARY := lib/ansible-vault
# The installed path of a manual page, such as share/man/man1/ansible-vault.1.
MANUAL_PATH = share/man/man$(subst .,,$(suffix $(1)))/$(notdir $(1))
BASH_FOLDER := share/bash-completion/completions
FISH_FOLDER := share/fish/vendor_completions.d
ifeq ($(PREFIX),/usr)
ZSH_FOLDER := share/zsh/vendor-completions
else
ZSH_FOLDER := share/zsh/site-functions
endif
DOCUMENTS := share/doc/ansible-vault
# Each file, with its source after the colon. The documents keep their relative paths, which their links need.
INSTALLED := bin/ansible-vault:$(PROGRAM) $(foreach page,$(MANUALS),$(call MANUAL_PATH,$(page)):$(page)) \
	$(BASH_FOLDER)/ansible-vault:completions/ansible-vault.bash \
	$(FISH_FOLDER)/ansible-vault.fish:completions/ansible-vault.fish \
	$(ZSH_FOLDER)/_ansible-vault:completions/ansible-vault.zsh \
	$(foreach page,README.md CHANGELOG.md CONTRIBUTING.md LICENSE debian/copyright tests/README.md \
		$(sort $(wildcard docs/* testkit/*.* testkit/vectors/*) testkit/ansible-value testkit/make testkit/run),\
		$(DOCUMENTS)/$(page):$(page)) \
	$(foreach name,$(COMPANIONS),$(LIBRARY)/ansible-vault-$(name):companions/ansible-vault-$(name)) \
	$(foreach file,$(sort $(shell find companions/ansible_vault_companions -name '*.py')),\
		$(file:companions/%=$(LIBRARY)/%):$(file))
# Each link, with its target after the colon.
LINKS := $(foreach name,$(COMPANIONS),\
	bin/ansible-vault-$(name):../$(LIBRARY)/ansible-vault-$(name) \
	$(BASH_FOLDER)/ansible-vault-$(name):ansible-vault \
	$(FISH_FOLDER)/ansible-vault-$(name).fish:ansible-vault.fish)
# Where `make dist` puts its archives, their names, and the command for them. Their date is the newest version's.
DIST := bin/dist
SOURCE_NAME := ansible-vault-$(VERSION)
PROGRAM_NAME := ansible-vault-$(VERSION)-linux-x86_64
SOURCE_DATE_EPOCH ?= $(shell date -u -d "$$(sed -n 's/^\#\# .*, \(.*\)/\1/p' CHANGELOG.md | head -n 1)" +%s)
ARCHIVE = tar --create --format=gnu --sort=name --mtime=@$(SOURCE_DATE_EPOCH) --mode=u+rw,a+rX,go-w \
	--owner=0 --group=0 --numeric-owner
# The checksums of the installed files, so that `make uninstall` removes no others.
SUMS := $(LIBRARY)/installed.sha256

# The command that runs the tests, and the number of processes: more than processors, since many tests wait.
PYTEST ?= /usr/bin/python3 -B -X utf8 -m pytest
PYTEST_PROCESSES ?= $(shell expr $$(nproc) + 2)
TESTING = $(PYTEST) --quiet --numprocesses=$(PYTEST_PROCESSES) "--program=$(PROGRAM)"
# The arguments of tools/plant_faults, tools/mutants, tools/fresh_machine and tools/releases.
PLANTED :=
MUTANTS :=
MACHINE :=
RELEASES :=
# How long `make fuzz` makes requests, and what share of the faults `make faults` tries: one in SHARE.
SECONDS ?= 3600
SHARE ?= 1

.DELETE_ON_ERROR:
.PHONY: all demo packages check mutants test planted fuzz faults bench install uninstall portable dist package lint \
	fresh-machine releases check-long clean FORCE

all: $(if $(filter file,$(origin PROGRAM)),$(PROGRAM))

# Prove a program and the crates below it, if they changed, and build it.
BUILD = mkdir -p bin && cd crates/$(1) && "$(CURDIR)/tools/progress.py" "$(CURDIR)/bin/$(1).log" rt run

bin/ansible-vault: $(SOURCES) bin/processor
	@echo "Proving the program and the crates below it, if they changed; from scratch it takes minutes"
	@$(call BUILD,ansible_vault) $(if $(CPU),--cpu $(CPU)) -- --version
	@cp crates/ansible_vault/out/ansible_vault $@

# Run the README's examples in a directory of their own, and print them.
demo: all
	@python3 -B tests/first_page.py $(PROGRAM)

# Stop before anything is proved if packages that the tests need are missing.
packages:
	@missing=$$(tools/missing_packages); [ -z "$$missing" ] || [ "$(PARTIAL)" = yes ] || { \
		echo "The tests need packages: apt-get install $$missing   (PARTIAL=yes skips what uses them)" >&2; \
		exit 1; \
	}

# The program that tests/failed_allocations_in_memory.py runs.
bin/vault_allocation_failures: $(SOURCES)
	@$(call BUILD,vault_allocation_failures) -- drive view < /dev/null
	@cp crates/vault_allocation_failures/out/vault_allocation_failures $@

# This file changes only if the processor does.
bin/processor: FORCE
	@mkdir -p bin
	@echo '$(CPU)' | cmp -s - $@ || echo '$(CPU)' > $@

# Run the gate, and then the tests, with the programs that the gate builds, unless CPU names another processor. Their
# date is the start of the gate, so that a source changed meanwhile is newer. There are as many proofs in parallel as
# processors, each with one job: every further job of a proof would load the libraries again.
check: export RT_JOBS ?= $(shell nproc)
check: packages bin/processor
	@tools/releases --recorded
	@echo "Proving every crate and its tests, and trying their must-fail edits"
	@touch bin/gate-begun
	@tools/progress.py bin/ci.log rt ci
	@$(if $(CPU),,cp crates/ansible_vault/out/ansible_vault bin/ansible-vault)
	@$(if $(CPU),,touch -r bin/gate-begun bin/ansible-vault)
	@cp crates/vault_allocation_failures/out/vault_allocation_failures bin/vault_allocation_failures
	@touch -r bin/gate-begun bin/vault_allocation_failures
	@$(MAKE) --no-print-directory test

# Not part of the gate: try the mutants of each crate, in addition to its must-fail edits, before a release.
mutants: all
	@echo "Trying the mutants; what became of each is printed once all are tried"
	@tools/mutants $(MUTANTS)

# Run all tests, file by file. A part with fewer tests than its floor fails. The last line counts the tests.
test: packages all $(if $(shell command -v rt),bin/vault_allocation_failures)
	$(TESTING) -m '' --dist=loadfile --floors --runs=6000 --seconds=120 --share=20

# Not part of the gate: plant faults in copies of the repository, and mutants of the companions, and run the tests that
# must catch each.
planted: all
	tools/plant_faults "--program=$(PROGRAM)" $(PLANTED)

# Test with random requests.
fuzz: all
	$(TESTING) -m fuzz --runs=100000000 --seconds=$(SECONDS) --timeout=0 --seed=$(shell date +%s)

# Make every system call fail in turn, and inject the other faults.
faults: all
	$(TESTING) -m faults --share=$(SHARE) --timeout=0

# The program that runs parts of the work alone, for the benchmarks.
bin/vault_bench: $(SOURCES) bin/processor
	@$(call BUILD,vault_bench) $(if $(CPU),--cpu $(CPU)) -- counter-mode 48 1
	@cp crates/vault_bench/out/vault_bench $@

bench: CHART := docs/speed.svg
bench: all bin/vault_bench
	bench/commands.py "$(PROGRAM)" --chart $(CHART) $(QUICKLY)
	bench/parts.py "$(PROGRAM)" $(QUICKLY)
	bench/companions.py "$(PROGRAM)" $(QUICKLY)
	bench/git_runs.py "$(PROGRAM)" $(QUICKLY)
	bench/envelope.py $(QUICKLY)
	bench/counter_mode.py $(QUICKLY)
	bench/key_derivation.py $(QUICKLY)

# Refuse to overwrite another program's file.
# Everybody may use what is installed, whatever the caller's umask. Below DESTDIR, it is for another system's Python.
install: export PYTHON := $(PYTHON)
install: all
	@case $$PYTHON in (*[\"\ ,\&]* | [!/]* | "") echo "PYTHON=$$PYTHON is no plain path that begins with /" >&2; exit 1; esac
	@$(if $(DESTDIR),,[ -x "$(PYTHON)" ] || { echo "there is no $(PYTHON): name a Python by PYTHON=PATH" >&2; exit 1; })
	@umask 022; tools/installed install "$(TOP)" $(SUMS) "$(PYTHON)" $(REPLACE) $(INSTALLED) -- $(LINKS)
# Compiled companions start faster. A package compiles them where it is installed. The lock is that of tools/installed.
	@$(if $(DESTDIR),,umask 022; flock "$(TOP)" "$(PYTHON)" -I -m compileall -q "$(TOP)/$(LIBRARY)" || true)
	@$(if $(DESTDIR),,"$(PYTHON)" -I -c "import yaml" 2> /dev/null || echo "$(NO_PYYAML)" >&2)
	@$(if $(DESTDIR),,echo "Type next: hash -r; ansible-vault --version")

# Remove the installed files that are unchanged, and list the others. As long as there are others, keep the checksums.
uninstall:
	@tools/installed uninstall "$(TOP)" $(SUMS) $(LINKS)

# Fail if the program is built for a newer processor than a package may need.
portable:
	@[ -z "$(CPU)" ] || { \
		echo "bin/ansible-vault is built for $(CPU), and packages and archives are for all processors: make CPU=" >&2; \
		exit 1; \
	}

# Make the archives of a version, and their checksums: the sources that git tracks, and the files that `make install`
# puts below a prefix. The same sources and program always give the same bytes.
dist: portable all
	@git ls-files --error-unmatch Makefile > /dev/null 2>&1 || { \
		echo "make dist archives what git tracks: run it in a git checkout" >&2; \
		exit 1; \
	}
	@rm -rf $(DIST) && mkdir -p $(DIST)
	@git ls-files -z | $(ARCHIVE) --null --files-from=- --transform='flags=r;s,^,$(SOURCE_NAME)/,' \
		| gzip --no-name > $(DIST)/$(SOURCE_NAME).tar.gz
	@$(MAKE) --no-print-directory install PYTHON=/usr/bin/python3 PREFIX= DESTDIR=$(abspath $(DIST))/$(PROGRAM_NAME)
	@rm $(DIST)/$(PROGRAM_NAME)/$(SUMS)
	@$(ARCHIVE) --directory=$(DIST) $(PROGRAM_NAME) | gzip --no-name > $(DIST)/$(PROGRAM_NAME).tar.gz
	@rm -r $(DIST)/$(PROGRAM_NAME)
	@cd $(DIST) && sha256sum *.tar.gz > SHA256SUMS

# Build the Debian package of the program and its companions, in bin/. Work in a copy, so that debhelper writes nothing
# among the sources.
package: portable all
	@rm -rf bin/package && mkdir -p bin/package/source/bin
	@tar --create --exclude='./.*' --exclude=./bin --exclude=out . | tar --extract --directory=bin/package/source
	@cp "$(PROGRAM)" bin/package/source/bin/ansible-vault
	cd bin/package/source && dpkg-buildpackage --build=binary --no-pre-clean --no-sign
	@mv bin/package/*.deb bin/ && rm -r bin/package

# Check the scripts in Python, sh and bash, the manual pages, the length of lines, and what comments and pages refer to,
# and find unused names.
lint:
	tools/lint

# Run the README's commands on a Debian that has nothing else, as root. MACHINE is its suite, or --kept and its suite.
fresh-machine:
	tools/fresh_machine $(MACHINE)

# Compare with the Ansible of other Debian releases, as root. RELEASES are their names, by default all.
releases: all
	PYTEST_PROCESSES=$(PYTEST_PROCESSES) tools/releases "$(PROGRAM)" $(RELEASES)

# Before a version: all that is slow and rare.
check-long: mutants planted faults fuzz releases

# Also remove what Python compiled.
clean:
	rm -rf bin crates/*/out
	find . -name __pycache__ -prune -exec rm -rf {} +
