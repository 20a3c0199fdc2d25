# Calls what is there; tools/ and .ci/run do the work.
PREFIX = /usr/local
DESTDIR =

help:
	@echo 'make check      prove everything and run all tests: .ci/run, an hour or more where nothing is kept'
	@echo 'make build      prove and build the programs and the archives, with progress (needs rt)'
	@echo 'make install    the command, headers, archive, manual and completions, from dist/, to PREFIX ($(PREFIX))'
	@echo 'make uninstall  remove them from PREFIX'
	@echo 'make dist       renew dist/ from what is proved in target/ (needs rt)'

check:
	@.ci/run

build:
	@python3 tools/dist.py build

install:
	@python3 tools/install.py '$(PREFIX)' '$(DESTDIR)'

uninstall:
	@python3 tools/install.py --remove '$(PREFIX)' '$(DESTDIR)'

dist:
	@python3 tools/dist.py

.PHONY: help check build install uninstall dist
