# What there is to make: `make` alone prints these lines.
#
# make test     everything that needs no proof, on the program that ./groute runs: some minutes
# make prove    proves and builds both programs from nothing, 20 to 45 minutes on four processors, and says whether they
#               are the released ones
# make install [DESTDIR=FOLDER] [PREFIX=/usr/local]
#               the programs that ./groute and ./grbound run, with tools, man pages, completion and documents
PREFIX = /usr/local
DESTDIR =

help:
	@sed -n 's/^# \{0,1\}//p' Makefile

test:
	python3 tools/test_all.py

prove:
	python3 tools/build.py --anew groute grbound
	tools/release.sh --check

install:
	tools/install.sh "$(DESTDIR)$(PREFIX)"

.PHONY: help test prove install
