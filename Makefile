INPUT ?= crates/epoch_run_script/stdin
ARGS ?= queue 3 4

PICTURES = $(patsubst docs/pictures/%.txt,%,$(wildcard docs/pictures/*.txt))

.PHONY: help run threads try draw pictures pages words runs test refute take beside beside-histories rivals leaks

help:
	@echo 'make try      compiles what runs a script, and runs it; proves nothing              20 s, then 1 s'
	@echo 'make draw     draws the run of a script to out/run.svg; proves nothing              20 s, then 1 s'
	@echo 'make run      proves and builds what a script needs, and runs the script          15 min, then 1 s'
	@echo 'make threads  proves and builds what threads need, and makes the run that ARGS'
	@echo '              asks for: threads, a stack or a queue                               25 min, then 1 s'
	@echo 'make test     the merge gate: every proof, every test, and the wrong bodies of'
	@echo '              crates/*/must-fail, each of which must be refused. What this machine has'
	@echo '              proved already is not proved again: rt ci --anew proves all          80 min at first'
	@echo 'make runs     gives scripts to the programs, and compares what they write with what was worked'
	@echo '              out by hand; proves nothing                                         20 s, then 5 s'
	@echo 'make refute   tries the other wrong bodies, those of crates/*/refuted             an hour and more'
	@echo 'make pictures draws the pictures of the documents anew                                        30 s'
	@echo 'make pages    writes the pages that follow from the sources: README.md of each crate, the'
	@echo '              map in docs/ARCHITECTURE.md and the tables in docs/PROMISES.md                1 s'
	@echo 'make words    says how many words the pages have that are written by hand                   1 s'
	@echo 'make take     copies the crates WHAT, and what they stand on, into the repository TO       seconds'
	@echo 'make beside   times this library and crossbeam-epoch in turn; beside/README.md'
	@echo '              says what must be installed                                       25 min, then 5 min'
	@echo 'make beside-histories  gives random scripts to both, and compares which jobs they call'
	@echo '                                                            15 min, then 72 s for 10,000,000 LINES'
	@echo 'make rivals   times this library and what a user would pick instead in turn; beside/README.md'
	@echo '              says what must be installed                                       25 min, then 3 min'
	@echo 'make leaks    runs programs under valgrind, and sees that they lose no memory    25 min, then 1 min'
	@echo
	@echo 'INPUT=FILE    the script of try, run and draw, instead of crates/epoch_run_script/stdin'
	@echo "ARGS='WORDS'  the arguments of threads, instead of 'queue 3 4'"
	@echo "WHAT='CRATES' TO=FOLDER   what take copies, and where to"
	@echo 'CRATE=NAME    the crate of refute, instead of all'
	@echo 'ROWS=REGEX THREADS=1,4 PASSES=10    which rows beside and rivals measure, and how often'
	@echo 'SIDES=REGEX                         which sides rivals measures'
	@echo 'LINES=N SEED=S                      how long the scripts of beside-histories are, and which'
	@echo 'Times are of a first run and of later ones, on 4 slow processors; docs/PERFORMANCE.md says what they depend on.'

ifeq ($(shell command -v rt),)
$(error rt, the command of the Rattle toolchain, is missing: put its folder on PATH)
endif

# What a recipe begins with that reads INPUT.
READABLE = test -r "$(INPUT)" && test ! -d "$(INPUT)" \
	|| { echo 'There is no script to read: INPUT is "$(INPUT)", and should be the name of a file that can be read.' >&2; exit 2; }

run:
	@$(READABLE)
	@echo 'The first run proves all that a script needs, which takes minutes. Later ones take seconds.' >&2
	@script=$$(realpath "$(INPUT)") && tools/prove.py epoch_run_script && cd crates/epoch_run_script && rt run < "$$script"

threads:
	@echo 'The first run proves all that threads need, which takes minutes. Later ones take seconds.' >&2
	@tools/prove.py epoch_run && cd crates/epoch_run && rt run -- $(ARGS)

try:
	@$(READABLE)
	@tools/try.py epoch_run_script < "$(INPUT)"

draw:
	@$(READABLE)
	@mkdir -p out
	@if tools/try.py epoch_draw < "$(INPUT)" > out/run.svg.part; then mv out/run.svg.part out/run.svg; \
	  else status=$$?; rm -f out/run.svg.part; exit $$status; fi
	@echo 'The picture is out/run.svg.' >&2

pictures:
	@for name in $(PICTURES); do \
	  $(MAKE) -s draw INPUT=docs/pictures/$$name.txt && cp out/run.svg docs/pictures/$$name.svg || exit 1; \
	done

pages:
	@tools/pages.py

words:
	@tools/words.py

runs:
	@tools/runs.py --try

test:
	@rm -rf .git/proving .git/refuting
	@tools/refute.py --stand
	@tools/quotes.py
	@tools/names.py
	@tools/take.py --test
	@tools/pages.py --check
	@tools/words.py --check
	@tools/sizes.py
	@tools/repeats.py
	@tools/gate.py
	@tools/runs.py

refute:
	@tools/refute.py $(CRATE)

take:
	@tools/take.py '$(TO)' $(WHAT)

beside:
	@tools/beside.py table

beside-histories:
	@tools/beside.py histories

rivals:
	@tools/rivals.py

leaks:
	@tools/leaks.py
