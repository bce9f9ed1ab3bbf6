# make        prints the targets below
# Options of the program go in ARGS, as make run ARGS="--schema examples/shop.toml".

PYTHON ?= python3
RT ?= rt
PREFIX ?= /usr/local
# (of these the words of make alone count: a shell may have LINES in its environment, which are the terminal's)
SEED = 1
LINES = 2000
SECONDS = 30
FAILURES = 200
CLIENTS = 64
DAMAGED = 0.07
ROWS =
QUICK =
PROGRAM =
ROOT = $(DESTDIR)$(PREFIX)
SHARE = $(ROOT)/share/weltiyo

comma := ,

.PHONY: help tour try run build service lib test edits check-docs bench fuzz faults sanitize soak crash rates replica-tests window-tests install dist clean

help:
	@echo 'To begin. ARGS="--schema FILE" and the like are the options of the program; `make run` starts one that is up to date without `rt`.'
	@echo '  make tour            five minutes at a terminal: four orders, a fork that is unwound, places that come back'
	@echo '  make try             compiles without proofs (a minute the first time) and serves, at a terminal by a prompt'
	@echo '  make run             proves, builds and serves'
	@echo '  make build           the same, without serving'
	@echo '  make service         proves, builds and serves mi_service: ARGS="--listen 8000 --journal FILE" (docs/OPERATING.md)'
	@echo '  make lib             proves and builds the library into out/library (docs/EMBEDDING.md; needs a C compiler)'
	@echo
	@echo 'To check'
	@echo '  make test            the gate: proofs, must-fail edits, tests, the programs by two compilers'
	@echo '  make check-docs      runs what documents print, and the tests of the clients and of the scripts'
	@echo '  make edits           all wrong bodies that must be refused, those that the gate leaves out too (ARGS="--together NAME": of a'
	@echo '                       crate, several in one check)'
	@echo '  make fuzz            random lines, compared with a reference in Python: SEED=$(SEED) LINES=$(LINES) DAMAGED=$(DAMAGED)'
	@echo '  make faults          each request for memory refused in turn, and a limit of memory (needs a C compiler; ARGS=--short,'
	@echo '                       ARGS="--row WORDS")'
	@echo '  make sanitize        the tests of the pool under AddressSanitizer (needs a C compiler; ARGS=--short: two minutes)'
	@echo
	@echo 'To strain and measure a built program'
	@echo '  make soak            CLIENTS=$(CLIENTS) loopback clients, all replies compared; then SECONDS=$(SECONDS) whose sums are watched'
	@echo '  make crash           the service killed under load, on bad disks, with damaged journals (ARGS=--short)'
	@echo '  make replica-tests   FAILURES=$(FAILURES) failures of three members over etcd (needs etcd; PROGRAM=FILE)'
	@echo '  make window-tests    `weltiyo web` in a browser: views, undo, foreign pages, a million rows (needs chromium, chromium-driver)'
	@echo '  make rates           lines a second of the service beside the program, the time of a replay, and how long others wait'
	@echo '  make bench           beside a Boost.MultiIndex container, SQLite and Redis, into docs/bench (ROWS=1000,10000; QUICK=1)'
	@echo
	@echo 'To install'
	@echo '  make install         the proved program, its tools, clients and documents below PREFIX=$(PREFIX) (PROGRAM=FILE: another one)'
	@echo '  make dist            the same as one archive, out/weltiyo.tar.gz'
	@echo '  make clean           removes what was built, and the proofs that `rt check` keeps'

try:
	@exec $(PYTHON) scripts/program.py try -- $(ARGS)

tour:
	@exec $(PYTHON) scripts/tour.py $(if $(PROGRAM),--program '$(PROGRAM)') $(ARGS)

run:
	@exec $(PYTHON) scripts/program.py run -- $(ARGS)

build:
	@$(PYTHON) scripts/program.py build

service:
	@exec $(PYTHON) scripts/program.py serve -- $(ARGS)

lib:
	@$(PYTHON) scripts/library.py build

test:
	@command -v $(RT) > /dev/null || $(PYTHON) scripts/program.py needs
	@$(RT) ci

edits:
	@$(PYTHON) scripts/further_edits.py $(ARGS)

check-docs:
	@$(PYTHON) scripts/check_docs.py

fuzz:
	@$(PYTHON) scripts/stress fuzz --seed $(SEED) --lines $(LINES) --damaged $(DAMAGED)

faults:
	@$(PYTHON) scripts/stress faults $(ARGS)

sanitize:
	@$(PYTHON) scripts/stress sanitize $(ARGS)

soak:
	@$(PYTHON) scripts/stress soak --seconds $(SECONDS) --clients $(CLIENTS) --seed $(SEED) $(ARGS)

crash:
	@$(PYTHON) scripts/stress crash $(ARGS)
	@$(PYTHON) scripts/stress crowd $(ARGS)

rates:
	@$(PYTHON) scripts/stress rates $(ARGS)
	@$(PYTHON) scripts/stress waits $(ARGS)

replica-tests:
	@$(PYTHON) scripts/stress replicas --failures $(FAILURES) --seed $(SEED) $(if $(PROGRAM),--program '$(PROGRAM)') $(ARGS)

window-tests:
	@$(PYTHON) scripts/stress window $(ARGS)

bench:
	@$(if $(QUICK),$(PYTHON) -m unittest discover -s bench/tests)
	@$(PYTHON) bench/run.py $(if $(ROWS),--rows $(ROWS)) $(if $(QUICK),--quick) $(ARGS)

install:
	@$(if $(PROGRAM),,$(PYTHON) scripts/program.py proved)
	@install -d '$(ROOT)/bin' '$(ROOT)/share/man/man1' '$(ROOT)/share/bash-completion/completions' '$(ROOT)/share/zsh/site-functions'
	@install -d '$(SHARE)/docs/bench' '$(SHARE)/docs/pictures' '$(SHARE)/docs/img' '$(SHARE)/bench' '$(SHARE)/examples' '$(SHARE)/scripts' '$(SHARE)/clients/python/mi_client' '$(SHARE)/clients/python/mi_tools' '$(SHARE)/clients/node'
	@install -m 755 '$(or $(PROGRAM),crates/mi_server/out/mi_server)' '$(ROOT)/bin/mi_server'
	@if $(PYTHON) scripts/program.py fresh mi_service; then install -m 755 crates/mi_service/out/mi_service '$(ROOT)/bin/'; \
		else echo "without mi_service, which isn't there or isn't up to date: \`make service\` makes it"; fi
	@install -m 755 scripts/installed/weltiyo scripts/installed/weltiyo-lint '$(ROOT)/bin/'
	@install -m 644 docs/man/*.1 '$(ROOT)/share/man/man1/'
	@for it in mi_server mi_service weltiyo weltiyo-lint; do \
		install -m 644 scripts/completion/weltiyo.bash "$(ROOT)/share/bash-completion/completions/$$it"; done
	@install -m 644 scripts/completion/_weltiyo '$(ROOT)/share/zsh/site-functions/'
	@install -m 644 $(wildcard *.md) '$(SHARE)/'
	@install -m 644 docs/*.md '$(SHARE)/docs/'
	@install -m 644 docs/bench/* '$(SHARE)/docs/bench/'
	@install -m 644 docs/pictures/*.svg '$(SHARE)/docs/pictures/'
	@install -m 644 docs/img/* '$(SHARE)/docs/img/'
	@install -m 644 bench/README.md '$(SHARE)/bench/'
	@install -m 644 examples/* '$(SHARE)/examples/'
	@install -m 644 scripts/program.py scripts/schema_lint.py '$(SHARE)/scripts/'
	@install -m 644 scripts/bases.py scripts/journal.py scripts/reference.py '$(SHARE)/scripts/'
	@install -m 644 $(filter-out %/tests,$(wildcard clients/python/*.*)) '$(SHARE)/clients/python/'
	@install -m 644 $(wildcard clients/python/mi_client/*.*) '$(SHARE)/clients/python/mi_client/'
	@install -m 644 $(wildcard clients/python/mi_tools/*.*) '$(SHARE)/clients/python/mi_tools/'
	@install -d '$(SHARE)/clients/python/mi_replica'
	@install -m 644 $(wildcard clients/python/mi_replica/*.*) '$(SHARE)/clients/python/mi_replica/'
	@install -m 644 $(wildcard clients/node/*.*) '$(SHARE)/clients/node/'
	@install -d '$(SHARE)/clients/c' '$(SHARE)/clients/cpp' '$(SHARE)/clients/rust/src' '$(SHARE)/clients/rust/examples'
	@install -m 644 clients/c/unwind.c clients/c/ranges.c '$(SHARE)/clients/c/'
	@install -m 644 clients/cpp/accounts.cpp clients/cpp/container.cpp '$(SHARE)/clients/cpp/'
	@install -m 644 clients/rust/Cargo.toml clients/rust/build.rs '$(SHARE)/clients/rust/'
	@install -m 644 clients/rust/src/* '$(SHARE)/clients/rust/src/'
	@install -m 644 clients/rust/examples/* '$(SHARE)/clients/rust/examples/'
	@$(PYTHON) scripts/library.py install '$(ROOT)'
	@echo "installed below $(ROOT): bin/mi_server$(if $(PROGRAM), ($(PROGRAM)$(comma) as it is)), bin/weltiyo, bin/weltiyo-lint, share"

dist:
	@$(if $(PROGRAM),,$(PYTHON) scripts/program.py proved)
	@rm -rf out/dist && mkdir -p out/dist
	@$(MAKE) --no-print-directory install DESTDIR='$(CURDIR)/out/dist' PREFIX=/weltiyo > out/dist/log.txt
	@sed -n '/^without /p' out/dist/log.txt
	@tar -C out/dist -czf out/weltiyo.tar.gz weltiyo
	@rm -rf out/dist && echo 'made out/weltiyo.tar.gz'

clean:
	@rm -rf out crates/*/out
