# Proves, builds and tests the repository with the kit's command rt, which is found on PATH.
#
#   make run                        runs otel_carry on examples/first-run, in a minute; unproved, unless make prove ran before
#   make run INPUT=F                the same with the file F; INPUT=- is standard input
#   make prove                      proves and builds the programs, and runs them
#   make example                    runs a service: prints the headers that it sends on for examples/service and for no headers,
#                                   a picture of its traces, its log lines, and its spans as lines of JSON
#   make example-collector          runs the service beside a collector, to which it sends its spans, and prints what arrived
#   make view                       lists the traces of that service's spans, draws the first, and writes a page of all
#   make example-c                  runs a C program with the static library of crates/otel_c, which is proved first
#   make install PREFIX=P           installs this library with its header under P: libraries, pkg-config's file and a manual page
#   make test                       checks every proof, test, vector, misuse case and run out of memory, and the wrong bodies that
#                                   may have become right
#
# Shorter commands, most of them parts of make test:
#
#   make check CRATE=C              proves one crate, reusing the results of earlier checks
#   make tests                      runs the tests; CRATE=C of one crate; TEST=T whose path contains T
#   make edit CRATE=C EDIT=E        checks that the prover refuses one wrong body, in seconds after a check of the crate
#   make mutants                    the same for all wrong bodies, from nothing; CRATE=C of one crate
#   make planted                    checks that tests find the bugs that the prover can't refuse; EDIT=E one of them
#   make untried                    the same for the ones that may have become right
#   make budgets                    measures the processor minutes and the memory of each crate's proof, from nothing
#   make vectors                    compares answers with recorded ones of the Rust crate
#   make otlp                       reads lines of JSON with another implementation
#   make b3                         exchanges headers of B3 with Zipkin's libraries
#   make page                       opens pages of traces in a browser; PICTURE=1 also makes docs/page.png
#   make collector                  sends spans to a collector on the loopback address, by OTLP over HTTP
#   make c                          calls the library from C, Python and Go
#   make fuzz-c                     fuzzes the library for C; RUNS=N sets the number of runs
#   make misuse                     checks that misuse doesn't compile; CASE=NAME one case
#   make memory                     runs programs out of memory: each allocation fails in turn
#   make viewer                     reads files of many writers with the viewer of traces
#   make service                    sends requests to a service at work
#   make long                       runs the programs on long inputs
#   make calls                      checks that make memory covers each call that can run out of memory
#   make new-crate                  checks that ./new makes a crate whose program runs
#   make fuzz                       compares random programs, rows and orders of requests with plain models; COUNT=N sets their
#                                   number, SEED=N the seed
#   make documents                  checks that everything the documents mention exists, and that the code they show runs
#   make bench                      counts the instructions of operations, beside the Rust crate
#
# Results go to standard output, and everything else, such as progress, to standard error.

MAKEFLAGS += --no-print-directory
SHELL := /bin/bash

INPUT ?= examples/first-run
PREFIX ?= /usr/local
COUNT ?= 10000
SEED ?= 1
RUNS ?= 10000000
GIVEN := $(if $(filter -,$(INPUT)),,< "$(INPUT)")
# Stops if CRATE isn't a crate.
CRATES := $(patsubst crates/%/src,%,$(wildcard crates/*/src))
IS_CRATE = @$(if $(filter $(CRATE),$(CRATES)),true,echo 'make $@: name a crate, as in `make $@ CRATE=otel_ids`: $(CRATES)' >&2; exit 2)

.PHONY: run prove example example-collector view example-c install test check tests edit mutants planted untried budgets vectors otlp b3 page collector c fuzz-c misuse memory viewer service long calls new-crate fuzz documents bench

run:
	@program=$$(tests/tools/programs.py path otel_carry) && "$$program" $(GIVEN)

prove:
	@tests/tools/programs.py prove

example:
	@program=$$(tests/tools/programs.py path otel_service) && spans=crates/otel_service/out/spans.jsonl && rm -f "$$spans" \
		&& for input in examples/service /dev/null; do "$$program" --headers --fixed --waterfall < "$$input" || exit; done \
		&& "$$program" --headers "$$spans" < examples/service > /dev/null && echo "the spans as lines of JSON: $$spans" >&2

example-collector:
	@program=$$(tests/tools/programs.py path otel_service) && tests/tools/otlp_http --for "$$program" --headers --fixed --otlp < examples/service

view:
	@service=$$(tests/tools/programs.py path otel_service) && program=$$(tests/tools/programs.py path otel_view) \
		&& spans=crates/otel_view/out/spans.jsonl && rm -f "$$spans" && mkdir -p crates/otel_view/out \
		&& "$$service" --headers --fixed "$$spans" < examples/service > /dev/null && "$$program" "$$spans" && echo && "$$program" "$$spans" 0af7 \
		&& page=crates/otel_view/out/traces.html && "$$program" "$$spans" --html "$$page" && echo "a page of the traces: $$page" >&2

example-c:
	@archive=$$(tests/tools/programs.py archive) && room=$$(mktemp -d) && trap 'rm -rf "$$room"' EXIT \
		&& crates/otel_c/install "$$archive" "$$room" && cc -I"$$room/include" examples/c/forward.c "$$room/lib/libotel_c.a" -o "$$room/forward" \
		&& "$$room/forward" < examples/c/received

install:
	@archive=$$(tests/tools/programs.py archive) && crates/otel_c/install "$$archive" "$(PREFIX)"

test:
	@tests/tools/all

check:
	$(IS_CRATE)
	@cd "crates/$(CRATE)" && ../../tests/tools/progress.py 'check $(CRATE)' rt check

tests:
	@tests/tools/unit "$(CRATE)" "$(TEST)"

edit:
	$(IS_CRATE)
	@tests/tools/edits "$(CRATE)" "$(EDIT)"

mutants:
	@tests/tools/edits $(CRATE)

planted:
	@tests/tools/progress.py --part 'bugs that tests find' tests/planted/run $(EDIT)

untried:
	@tests/tools/edits --untried

budgets:
	@tests/tools/progress.py 'each proof' tests/tools/costs.py

vectors:
	@tests/tools/progress.py --part vectors tests/vectors/run

otlp:
	@tests/tools/progress.py --part otlp tests/otlp/run

b3:
	@tests/tools/progress.py --part b3 tests/b3/run

page:
	@tests/tools/progress.py --part page tests/page/run $(if $(PICTURE),--picture)

collector:
	@tests/tools/progress.py --part 'spans to a collector' tests/otlp_http/run

c:
	@tests/tools/progress.py --part 'calls from C' tests/c/run

fuzz-c:
	@archive=$$(tests/tools/programs.py archive) && room=$$(mktemp -d) && trap 'rm -rf "$$room"' EXIT \
		&& crates/otel_c/install "$$archive" "$$room" && tests/tools/progress.py --part 'the fuzzer' tests/c/fuzzed "$$room" "$(RUNS)"

misuse:
	@tests/tools/progress.py --part misuse tests/misuse/run $(CASE)

memory:
	@program=$$(tests/tools/programs.py path otel_carry) && tests/tools/progress.py --part 'runs out of memory' tests/memory/sweep "$$program"

viewer:
	@tests/tools/progress.py --part 'the viewer' tests/view/run

service:
	@tests/tools/progress.py --part 'a service at work' tests/service/run

long:
	@for name in otel_carry otel_service; do program=$$(tests/tools/programs.py path $$name) \
		&& tests/tools/progress.py --part 'long inputs' tests/long/run $$name "$$program" || exit; done

calls:
	@tests/memory/calls

new-crate:
	@tests/tools/progress.py --part 'a new crate' tests/new/run

fuzz:
	@tests/tools/progress.py --part fuzz tests/fuzz/run "$(COUNT)" "$(SEED)"

documents:
	@tests/tools/documents

bench:
	@tests/tools/progress.py --part bench bench/run
