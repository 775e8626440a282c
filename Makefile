# Everything is proved, built, run and measured from here. It takes the toolchain (rt on the PATH), bash, Python.

PROGRAM := crates/jc_cli/out/jc_cli
SOURCES := $(shell find crates/*/src crates/*/specs crates/*/proofs -type f) crates.txt
PREFIX ?= /usr/local
BIN := $(DESTDIR)$(PREFIX)/bin
SHARE := $(DESTDIR)$(PREFIX)/share
MAN := $(SHARE)/man/man1
DOC := $(SHARE)/doc/journal-collect
LIB := $(DESTDIR)$(PREFIX)/lib

.DELETE_ON_ERROR:
.PHONY: build help demo check files contracts lint install uninstall deb test gate-times bench clean always

build: $(PROGRAM) ## prove and build the program: the first goal, and make without one

help: ## this listing
	@awk -F ':[^#]*## ' '/^[a-z-]+:.*## / { printf "make %-12s %s\n", $$1, $$2 }' $(MAKEFILE_LIST)

demo: ## a collector that is killed: the same upload is sent again, and nothing is lost or doubled
	@program=$$(python3 -ESB tools/trial.py jc_cli) && bash examples/demo.sh "$$program"

check: ## prove the crates that changed, and what stands on them; with SINCE=REVISION only what git says has changed
	@python3 -ESB tools/check.py $(if $(SINCE),--since "$(SINCE)")

files: ## what each file is about, by its own first sentence
	@python3 -ESB tools/files.py

contracts: ## what each contract promises, printed from the sources into build/CONTRACTS.md
	@mkdir -p build
	@python3 -ESB tools/contracts.py > build/CONTRACTS.md
	@echo build/CONTRACTS.md

lint: ## shell, Python and the layout of all texts; what isn't installed is told as skipped
	@python3 -ESB tools/lint

install: $(PROGRAM) ## journal-collect, its man pages, its documents and deploy/, below PREFIX (/usr/local)
	install -d "$(BIN)" "$(MAN)" "$(DOC)"
	install -m 755 $(PROGRAM) "$(BIN)/journal-collect"
	install -m 644 docs/journal-collect.1 "$(MAN)/journal-collect.1"
	install -m 644 README.md docs/GUIDE.md docs/FORMATS.md docs/FORWARDING.md docs/PERFORMANCE.md "$(DOC)/"
	@deploy/install.sh "$(DESTDIR)" "$(PREFIX)"

deb: $(PROGRAM) ## a Debian package of all that is installed, in build/
	@deploy/build-deb.sh build

uninstall: ## what install put there, but for the configuration in /etc/journal-collect
	rm -f "$(BIN)/journal-collect" "$(BIN)/journal-collect-"* "$(SHARE)"/man/man[158]/journal-collect*.[158]
	rm -f "$(LIB)/sysusers.d/journal-collect.conf" "$(SHARE)/bash-completion/completions/journal-collect"*
	rm -f "$(SHARE)/zsh/vendor-completions/_journal-collect"
	rm -f "$(LIB)/systemd/journald.conf.d/journal-collect.conf"
	rm -rf "$(DOC)" "$(LIB)/journal-collect"
	rm -f "$(LIB)/systemd/system/journal-collect"*

test: ## the gate: every proof from nothing, the edits, the tests, the scripts; the last line is `N passed, M failed`
	@tests/run.sh

gate-times: ## the gate, with the processor time and memory of each crate and kind of check at the end
	python3 -ESB tools/gate_times.py

bench: $(PROGRAM) ## how fast uploads are read and stored, beside a baseline in C; no part of the tests
	python3 -ES bench/run.py $(PROGRAM)

clean: ## take away what was built
	rm -rf build bench/out crates/*/out

# Built if a source is newer, or if one was added or taken away since the last build from here.
$(PROGRAM): build/sources $(SOURCES)
	@python3 -ESB tools/build.py jc_cli
	@touch $@

build/sources: always
	@mkdir -p build
	@printf '%s\n' $(sort $(SOURCES)) > $@.new
	@if [ ! -e $@ ]; then mv $@.new $@ && touch -d @0 $@; elif cmp -s $@.new $@; then rm $@.new; else mv $@.new $@; fi
