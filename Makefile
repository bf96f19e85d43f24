# What a person does with this repository. Plain `make` prints the targets.
RT ?= rt
PROGRAM := crates/rbg_manager
AUTHOR := crates/rbg_author_main
REFUSALS := crates/rbg_refusals
CASES := crates/rbg_cases
CRATES := $(wildcard crates/*)
# The programs with a stored run, and the crates with tests. Stored runs with words of their own are the gate's, and so
# is rbg_test_search, whose 2,000 games take too long if each step is checked.
STORED := $(filter-out $(patsubst crates/%/args,%,$(wildcard crates/*/args)) rbg_games,$(patsubst crates/%/stdin,%,$(wildcard crates/*/stdin)))
TESTED := $(filter-out rbg_test_search,$(sort $(foreach file,$(shell grep -rl --include='*.rt' '^ *#\[test\]' crates),$(word 2,$(subst /, ,$(file))))))
# The game of `make demo` and `make play`, and the games of `make clients`, and of `make hall` and `make crash`, each of two players.
GAME := crates/rbg_games/data/tictactoe.rbg
GAMES := tictactoe connect_four breakthrough hex reversi
HALL := tictactoe connect_four breakthrough
data = $(1:%=crates/rbg_games/data/%.rbg)
# The program that is run if a target needs ./rbg, and what comes before the commands of such a target.
RBG := ./rbg
needs = @test -x $(1) || { echo 'make $@ needs $(1): run make build first, or give RBG=path'; exit 1; }
# How many matches and halls `make crash` kills.
MATCHES := 50
HALLS := 20
# How many random cases `make compare` makes, and the seed of the first one.
N := 10000
SEED := 1
# How many requests of each run `make refusals` refuses one after the other, and how many of the later ones, spread out.
# With BUILT=yes it runs rbg_refusals and rbg_cases as they were built last.
FIRST := 5000
SPREAD := 100
BUILT :=
# How many processes `make compare` and `make refusals` run at once, if not one for each processor.
JOBS :=
# How many crates `make build` proves at once, if not one for each processor and 3 GB of memory.
LANES :=
# Where `make install` puts the programs, below DESTDIR if that is given.
PREFIX := /usr/local
DESTDIR :=
# How long a test may take without the proof: its build checks each step.
SECONDS := 600
# The requests for memory of the first match that `make try` refuses, one in each of ten runs.
REFUSED := 1 2 5 10 20 50 100 150 200 300

.PHONY: help run demo games play clients hall tournament slurm crash storm page editor imported compare refusals doctests pages links docs install lib library try build bench test parts check fmt clean

help:
	@echo 'make run      referees the first match of README.md (crates/rbg_manager/stdin), with no proof'
	@echo 'make demo     referees a match between two players over connections, and prints its record, with no proof'
	@echo 'make play     serves a page on which GAME is played by hand in a browser, and prints its link (after make build)'
	@echo 'make games    checks each of the games that come with it, counts its first moves, compares both forms of its automaton and referees a match, with no proof'
	@echo 'make clients  lets two example clients play a match of each of five games over ./rbg serve, and checks the records (after make build)'
	@echo 'make hall     lets example clients play three matches at once over ./rbg hall, and checks the records and logs (after make build)'
	@echo 'make tournament plays small tournaments of the three plans of clients/example, kills some, and lets programs cheat (after make build); WHAT=overhead prints times'
	@echo 'make slurm    sets up Slurm on this one machine, of Debian packages, and plays the example as an array (after make build, as root)'
	@echo 'make crash    kills ./rbg in the middle of 50 matches and 20 halls, lets each go on, and compares its record (after make build)'
	@echo 'make storm    tries ./rbg from outside: clocks, logs, disks, floods, and 1000 matches and 100 halls through a proxy that disturbs; SHORT=yes, and WHAT names parts (after make build, with gcc)'
	@echo 'make page     plays a match of chess, hex, abalone and reversi, and makes a page of each; in a browser, if there is one, plays games by clicks and keys on the page of ./rbg_author play, edits their files, and takes pictures (after make build)'
	@echo 'make editor   talks with ./rbg_author lsp as editors do, with EDITS=10000 random edits of the games (after make build)'
	@echo 'make imported compares boards that ./rbg_author import writes as graphs with their geometry, BOARDS=500 random ones, and comments (after make build)'
	@echo 'make compare  compares ./rbg with the interpreter of tools/slow, on stored cases and N=10000 others of SEED=1 (after make build)'
	@echo 'make refusals refuses each request for memory in turn, and checks each answer (after make build, with gcc)'
	@echo 'make doctests runs the examples in the comments of the clients and tools (after make build)'
	@echo 'make pages    follows the pages: gives each command on them, and compares what it prints (after make build); PAGES="docs/AUTHORS.md" some, PAGES=--built without rt'
	@echo 'make links    checks that what the pages link and name is there, and that what make docs makes is up to date'
	@echo 'make docs     makes the page of all commands, the manual pages and the completions, from the sources'
	@echo 'make lib      proves the library for programs in C, and leaves librbg.a, librbg.so and rbg.pc beside include/rbg.h (with gcc)'
	@echo 'make library  calls the library in all ways from C, also under valgrind and AddressSanitizer, tries the package for Python, and lets players in C, C++, Rust and Python play each other (after make lib and make build, with gcc, g++ and rustc)'
	@echo 'make install  copies ./rbg, ./rbg_author, their manual pages and completions below PREFIX=/usr/local, and the library if make lib has left it (after make build)'
	@echo 'make try      runs the stored runs, ten with a request for memory refused, and the tests, with no proof; make -j4 try runs four at once'
	@echo 'make build    proves the programs and what they use, LANES crates at once, and leaves them as ./rbg and ./rbg_author'
	@echo 'make bench    takes the figures of docs/COSTS.md by valgrind, and writes tools/bench/RESULTS.md (after make build, and make lib for what the library costs); SECTIONS="texts search" takes some'
	@echo 'make test     the gate: every proof from nothing, the must-fail edits, each test and program, and then make parts'
	@echo 'make parts    refusals, compare, crash, storm, tournament, clients, hall, library, editor and imported with smaller numbers, pages, doctests and links, with the programs as the gate built them'
	@echo 'make check    proves what changed since the last check, lowest crates first'
	@echo 'make fmt      lays out the sources and the proofs'
	@echo 'make clean    removes what was built'

run:
	@cd $(PROGRAM) && $(RT) try < stdin

demo:
	@cd $(PROGRAM) && $(RT) try --seconds $(SECONDS) -- demo $(abspath $(GAME))

games:
	@cd crates/rbg_games && sed 's/ [0-9]*$$/ 1/' stdin | $(RT) try --seconds $(SECONDS) $(foreach file,$(notdir $(filter-out %.md,$(wildcard crates/rbg_games/data/*))),--data $(file)=data/$(file))

clients:
	$(call needs,$(RBG))
	@python3 clients/matches.py --rbg $(RBG) $(call data,$(GAMES))

hall:
	$(call needs,$(RBG))
	@python3 clients/hall.py --rbg $(RBG) $(call data,$(HALL))

# Small tournaments of the three plans of clients/example, runs that are killed, and programs that cheat. WHAT chooses some.
WHAT :=
tournament:
	@test -x ./rbg || { echo 'make tournament needs ./rbg: run make build first'; exit 1; }
	@cd clients && python3 -m doctest ratings.py tournament*.py example/steady.py
	@python3 clients/tournament_trial.py $(WHAT)

# One machine as a Slurm of Debian's packages: slurmctld, slurmd, slurm-client and munge.
slurm:
	@test -x ./rbg || { echo 'make slurm needs ./rbg: run make build first'; exit 1; }
	@python3 -m doctest clients/tournament_slurm.py clients/tournament_machines.py
	@python3 clients/tournament_slurm.py && python3 clients/tournament_machines.py

crash:
	$(call needs,$(RBG))
	@python3 clients/crash.py --rbg $(RBG) --count $(MATCHES) --halls $(HALLS) $(call data,$(HALL))

# Trials from outside. WHAT chooses parts or trials, as clients/storm.py names them.
SHORT :=
storm:
	$(call needs,$(RBG))
	@python3 clients/storm.py crates/rbg_games/data --rbg $(RBG) $(if $(SHORT),--short) $(if $(WHAT),--only $(WHAT)) $(JOBS:%=--jobs %)

page:
	@test -x ./rbg && test -x ./rbg_author || { echo 'make page needs ./rbg and ./rbg_author: run make build first'; exit 1; }
	@python3 tools/page/contrast.py
	@python3 tools/page/page.py
	@if python3 -c 'import sys; sys.path.insert(0, "tools/page"); import browser; sys.exit(not browser.is_there())'; then python3 tools/page/wrong.py && python3 tools/page/playing.py && python3 tools/page/working.py && python3 tools/page/habits.py && python3 tools/page/reading.py; else echo 'no game is played by clicks: there is no chromium with its driver'; fi

# The library for programs in C, and its trials: TEXTS random texts are spoilt, and CALLS random calls are made.
TEXTS := 10000
CALLS := 1000000
lib:
	@cd crates/rbg_c && $(RT) lib
	@RT='$(RT)' tools/library --prefix $(PREFIX)

# If `make lib` has left no archive, OVER=FOLDER makes it over the libraries that `rt ci` has proved in a checkout. ARCHIVE=FILE
# takes another one. The package for Python is tried over the library, and over `rbg ask`.
OVER :=
ARCHIVE :=
library:
	$(call needs,$(RBG))
	@RT='$(RT)' tools/library --prefix $(PREFIX) $(OVER:%=--over %) $(ARCHIVE:%=--archive %)
	@TEXTS=$(TEXTS) CALLS=$(CALLS) python3 clients/c/trials.py $(call data,chess tictactoe)
	@tools/doctests clients/python/rbg
	@for library in ./librbg.so ''; do RBG_LIBRARY=$$library python3 clients/package_trial.py --rbg $(RBG) $(call data,tictactoe) || exit 1; done
	@python3 clients/languages.py --rbg $(RBG) $(call data,tictactoe breakthrough)
	@python3 clients/evenness.py --rbg $(RBG) $(call data,chess breakthrough abalone go_9x9 gomoku tictactoe english_draughts)

play:
	@test -x ./rbg_author || { echo 'make play needs ./rbg_author: run make build first'; exit 1; }
	@./rbg_author play $(GAME)

# How many random edits of the games that ship `make editor` makes, and the program that it talks with.
EDITS := 10000
AUTHOR_PROGRAM := ./rbg_author
editor:
	$(call needs,$(AUTHOR_PROGRAM))
	@python3 tools/editor/editor.py --program $(AUTHOR_PROGRAM) --count $(EDITS)

# How many random boards of the paper's language `make imported` makes.
BOARDS := 500
imported:
	$(call needs,$(AUTHOR_PROGRAM))
	@python3 tools/imported/imported.py --program $(AUTHOR_PROGRAM) --count $(BOARDS) --seed $(SEED)

compare:
	$(call needs,$(RBG))
	@python3 tools/slow/compare.py --rbg $(RBG) --count $(N) --seed $(SEED) $(JOBS:%=--processes %)

refusals:
	$(call needs,$(RBG))
	@$(if $(BUILT),,for crate in $(REFUSALS) $(CASES); do \
	  (cd $$crate && printed=$$(mktemp) && $(RT) run < stdin > $$printed && diff stdout $$printed && rm $$printed) || exit 1; done)
	@folder=$$(mktemp -d) && \
	gcc -O2 -Wall -Wextra -shared -fPIC -o $$folder/refuse.so tools/refuse/refuse.c && \
	python3 tools/refuse/refuse.py $$folder/refuse.so --rbg $(RBG) --refusals $(REFUSALS)/out/rbg_refusals --cases $(CASES)/out/rbg_cases \
	  --first $(FIRST) --spread $(SPREAD) $(JOBS:%=--processes %); \
	status=$$?; rm -rf $$folder; exit $$status

doctests:
	$(call needs,./rbg)
	$(call needs,./rbg_author)
	@tools/doctests

# PAGES chooses some, and --built runs the programs in place of rt try.
PAGES :=
pages:
	$(call needs,./rbg)
	$(call needs,./rbg_author)
	@tools/pages $(PAGES)

links:
	@tools/links
	@tools/docs/docs.py --check

docs:
	@tools/docs/docs.py

install:
	$(call needs,./rbg)
	install -d $(DESTDIR)$(PREFIX)/bin
	install ./rbg ./rbg_author $(DESTDIR)$(PREFIX)/bin
	cd share && find * -type f -exec install -D -m 644 {} $(DESTDIR)$(PREFIX)/share/{} \;
	if test -e rbg.pc; then \
	  install -D -m 644 -t $(DESTDIR)$(PREFIX)/include include/rbg.h clients/cpp/rbg.hpp && \
	  install -D -m 644 -t $(DESTDIR)$(PREFIX)/lib librbg.a librbg.so && install -d $(DESTDIR)$(PREFIX)/lib/pkgconfig && \
	  sed 's|^prefix=.*|prefix=$(PREFIX)|' rbg.pc > $(DESTDIR)$(PREFIX)/lib/pkgconfig/rbg.pc; fi

try: $(STORED:%=try-run-%) $(REFUSED:%=try-memory-%) $(TESTED:%=try-test-%)

try-memory-%:
	@cd $(PROGRAM) && printed=$$(mktemp) && \
	{ $(RT) try --seconds $(SECONDS) --fail-alloc $* < stdin > $$printed; status=$$?; \
	  test $$status = 0 && cmp -s stdout $$printed && answer='what is wanted' || \
	  { test $$status = 4 && echo memory | cmp -s - $$printed && answer=memory; } || \
	  answer="status $$status, which may not be"; \
	  rm $$printed; echo "request $* refused: $$answer"; test "$${answer%, *}" = "$$answer"; }

try-run-%:
	@cd crates/$* && printed=$$(mktemp) && $(RT) try --seconds $(SECONDS) < stdin > $$printed && diff stdout $$printed && rm $$printed

try-test-%:
	@cd crates/$* && $(RT) try --test --seconds $(SECONDS)

build:
	tools/lanes --rt '$(RT)' $(LANES:%=--lanes %) $(notdir $(PROGRAM) $(AUTHOR))
	cd $(PROGRAM) && $(RT) run < stdin
	cp $(PROGRAM)/out/rbg_manager rbg
	cd $(AUTHOR) && $(RT) run -- --help
	cp $(AUTHOR)/out/rbg_author_main rbg_author

bench:
	@python3 tools/bench/bench.py --write $(SECTIONS)

test:
	@tools/gate --rt '$(RT)'

parts:
	@tools/gate --rt '$(RT)' --built

check:
	$(RT) all check

fmt:
	@for crate in $(CRATES); do (cd $$crate && $(RT) fmt) || exit 1; done

clean:
	rm -rf $(addsuffix /out,$(CRATES)) out rbg rbg_author librbg.a librbg.so rbg.pc
