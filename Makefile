# What can be made: make help.
PREFIX = /usr/local
DESTDIR =

.PHONY: program help check install uninstall deb release

# The program, where none is there that is of these sources.
program:
	@./hbird run </dev/null

help:
	@echo "make            builds the program, where none is there that is of these sources"
	@echo "make check      runs all tests that need no prover"
	@echo "make install    puts the program and what goes with it below PREFIX, which is $(PREFIX)"
	@echo "make uninstall  takes it away again"
	@echo "make deb        makes a Debian package in out/"
	@echo "make release    renews release/, from the program that was built here"

check:
	@tests/check.sh

install: program
	@ROOT="$(DESTDIR)" release/install.sh "$(PREFIX)"

uninstall:
	@ROOT="$(DESTDIR)" release/install.sh --remove "$(PREFIX)"

deb: program
	@release/package.sh

release:
	@release/renew.sh
