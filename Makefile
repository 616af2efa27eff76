# try: the main job on stored files; build: prove and build the program; install: copy what was built, and what is in bin, to PREFIX/bin;
# deb: a Debian package of that, in packaging/out; check: what takes seconds, before each commit: the layout of the code, the pages, the
# words of comments, the texts that rows share, and whether the wrong bodies fit the text; test: the gate and all other tests
# (tests/run.py); test-long: tests of the built program that take minutes (tests/run_long.py); growths: each growth of each call refused
# once, by the program `test_archives` that the gate built (tests/refuse_growths.py); wrong: the wrong bodies that the gate leaves out,
# from where the last run was cut off; soak: a million commands with kills among them (tests/soak.py), from where the last run was stopped.
PREFIX ?= /usr/local
PROGRAM = crates/archive/out/archive

.PHONY: try build install deb check test test-long growths wrong soak

try:
	@echo 'The stored files of an upload go through an archive in memory, which prints its index. Compiling takes about a minute. Nothing is proved by it: its last line says proved=no.' >&2
	@cd crates/demo && rt try -- data/hello_1.0-1_amd64.changes data/hello_1.0-1_amd64.deb data/hello_1.0-1_amd64.control

build:
	cd crates/archive && rt run -- compare 1.0-1 1.0-2

install:
	@test -x $(PROGRAM) || { echo 'There is no $(PROGRAM) yet: run make build first.' >&2; exit 1; }
	install -D -m 755 $(PROGRAM) $(PREFIX)/bin/archive
	install -D -m 755 -t $(PREFIX)/bin bin/with_sidecars bin/upload bin/adopt bin/backup

deb:
	@test -x $(PROGRAM) || { echo 'There is no $(PROGRAM) yet: run make build first.' >&2; exit 1; }
	@packaging/make_deb $(PROGRAM) packaging/out

check:
	@status=0; for it in checks/format checks/pages checks/words 'python3 -m tests.test_pages' 'python3 -m tests.test_texts' 'checks/try_wrong_bodies --read'; do $$it || status=1; done; exit $$status

test:
	@python3 -m tests.run

test-long:
	@python3 -m tests.run_long

growths:
	@python3 -m tests.refuse_growths

wrong:
	checks/try_wrong_bodies

soak:
	python3 -m tests.soak
