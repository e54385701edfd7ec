# Targets for those who expect a Makefile. The scripts in build/, tests/ and .ci/ do the work; `make` lists the targets.
PREFIX = /usr/local
DESTDIR =
PROGRAM = dist/st2110_timing
ZSHDIR = share/zsh/site-functions
settings = PREFIX='$(PREFIX)' DESTDIR='$(DESTDIR)' PROGRAM='$(PROGRAM)' ZSHDIR='$(ZSHDIR)'

help: ## prints the targets
	@sed -n 's/^\([a-z]*\): ## /\1 /p' Makefile | while read -r name does; do printf 'make %-10s %s\n' "$$name" "$$does"; done

test: ## runs the tests of the program in dist/
	tests/run

prove: ## runs the gate: every proof and every test; needs the Rattle kit, and takes an hour and a half from nothing
	.ci/run

install: ## installs program, man page, completions, pages and examples below PREFIX (/usr/local); DESTDIR= stages them
	@$(settings) build/install.sh install

uninstall: ## removes what `make install` with the same PREFIX and DESTDIR has installed
	@$(settings) build/install.sh uninstall

deb: ## builds the Debian package out/st2110-timing_VERSION_amd64.deb; needs dpkg-deb
	@build/deb.sh '$(PROGRAM)'

.PHONY: help test prove install uninstall deb
