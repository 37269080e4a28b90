# `make help` says what there is.
program := crates/swiftr_cli/out/swiftr_cli
released := dist/swiftr-linux-x86_64
PREFIX ?= /usr/local
export SWIFTR_QUIET ?= 1

.PHONY: help build demo test lint documents release install uninstall man clean distclean

help:
	@echo 'make demo                compiles an example, runs it, flips bits in it, and evaluates a text (seconds; runs dist/ where nothing is built)'
	@echo 'make build               proves this tree and builds the command (from nothing half an hour or so on four processors)'
	@echo 'make test                the gate: proves everything, tries every must-fail edit, runs every test and program'
	@echo 'make lint                looks for long clauses, missing docs and the like (seconds; no part of the gate)'
	@echo 'make documents           runs the commands that README and docs show, and compares what they print'
	@echo 'make release             puts the program that was built here into dist/'
	@echo 'make install PREFIX=P    installs the command and its manual page below P ($(PREFIX))'
	@echo 'make clean, distclean    removes what was built, without and with the proofs that are kept'

# Proves all crates below, side by side, and then builds the program and runs it without words, which prints `usage`.
build:
	@mkdir -p build
	@scripts/build

# Shows a command, what it prints, and its status where that isn't 0.
show = @echo '$$ $(1)'; $(1) || echo "(status $$?)"

demo:
	@mkdir -p build
	$(call show,cat examples/seven.ll)
	$(call show,./swiftr compile examples/seven.ll build/seven.elf)
	$(call show,./swiftr disasm build/seven.elf)
	$(call show,./swiftr run build/seven.elf - 100)
	@echo '# bit 3 of x10 just before the first instruction: not in the list, and survived'
	$(call show,./swiftr flip build/seven.elf - 100 0 10 3)
	@echo '# the same bit before the second one, at 00010004: a listed point, and the status is another one'
	$(call show,./swiftr flip build/seven.elf - 100 1 10 3)
	@echo '# bit 0 of x17 before the call, at 00010008: a listed point, and there is no such call'
	$(call show,./swiftr flip build/seven.elf - 100 2 17 0)
	$(call show,examples/flip-all.sh examples/seven.ll)
	@echo '# what a text means, without a machine: the checksum of nine digits'
	@printf 123456789 > build/digits
	$(call show,./swiftr eval examples/checksum.ll build/digits 1000)
	@echo '# the module of a text in the manner of clang, in one form'
	$(call show,./swiftr print examples/echo.ll)

test:
	@.ci/run

lint:
	@scripts/lint

documents:
	@scripts/check_documents

release:
	@scripts/release

man: build/swiftr.1

build/swiftr.1: docs/COMMANDS.md scripts/make_manual
	@mkdir -p build
	@scripts/make_manual docs/COMMANDS.md > $@

install: man
	@test -x $(released) || { echo 'no program in dist/: make build release'; false; }
	install -d $(DESTDIR)$(PREFIX)/bin $(DESTDIR)$(PREFIX)/lib/swiftr $(DESTDIR)$(PREFIX)/share/man/man1
	install -m 755 swiftr $(DESTDIR)$(PREFIX)/bin/swiftr
	install -m 755 $(released) $(DESTDIR)$(PREFIX)/lib/swiftr/
	install -m 644 dist/REVISION $(DESTDIR)$(PREFIX)/lib/swiftr/
	install -m 644 build/swiftr.1 $(DESTDIR)$(PREFIX)/share/man/man1/swiftr.1

uninstall:
	rm -rf $(DESTDIR)$(PREFIX)/bin/swiftr $(DESTDIR)$(PREFIX)/lib/swiftr $(DESTDIR)$(PREFIX)/share/man/man1/swiftr.1

clean:
	rm -rf build $(program) *.elf

distclean:
	rm -rf build crates/*/out
