# Builds Flowcheck, installs it, and makes an archive of it.
#
#     make            builds the program, by the Rattle kit: the first time it proves all that it stands on, for half an
#                     hour or more, with a line for each crate; after the gate, .ci/run, it takes the program that the
#                     gate has built
#     make demo       builds the program, and runs the first example of the README whole, with its page
#     make install    installs the built program with its man page, completions, scripts, guests and documents
#     make uninstall  removes what was installed
#     make dist       builds the program, and makes dist/flowcheck-VERSION-x86_64-linux.tar.gz with its .sha256
#
# PREFIX is where it is installed, /usr/local without a word, and DESTDIR a folder in front of it. PROGRAM=FILE takes a
# program that was built elsewhere of the same commit, so that neither `rt` nor a build is wanted. Python 3 does the
# rest, and git names the commit of an archive.

PREFIX ?= /usr/local
DESTDIR ?=
PROGRAM ?= crates/flowcheck/out/flowcheck
OUT ?= dist

.PHONY: build demo install uninstall dist

build:
	@python3 -B tools/packaging/build.py

demo: $(if $(filter file,$(origin PROGRAM)),build)
	@python3 -B tools/packaging/demo.py --program '$(PROGRAM)'

install:
	python3 -B tools/packaging/install.py '$(DESTDIR)$(PREFIX)' --program '$(PROGRAM)'

uninstall:
	python3 -B tools/packaging/install.py '$(DESTDIR)$(PREFIX)' --remove

dist: $(if $(filter file,$(origin PROGRAM)),build)
	python3 -B tools/packaging/archive.py '$(OUT)' --program '$(PROGRAM)'
