# make try       a first answer in a minute or two, with nothing proved: runs the sources, with run-time checks, on networks of examples/
# make demo      builds the program, if its sources have changed, and runs it on the networks of examples/
# make test      the gate: every proof from nothing, the edits that must be refused, the tests, the stored run, the transcripts
#                of the pages, the worked examples, and a part of the hostile runs
# make wrong     tries the wrong bodies that the gate leaves out: the prover has to refuse each
# make quick     a first look at a change, in minutes and with nothing proved: the tests, and most worked examples, with run-time checks
# make keep      proves the program's crates as `rt check` does, which keeps the proof of each function: for who will change them
# make install   builds the program, if its sources have changed, and puts it and its manual page below PREFIX, /usr/local if none is given
# make dist      builds the program, if its sources have changed, and packs it with its pages and examples into dist/
# make soak      runs many threads at one hub, thirty million events, and sixteen sessions at one desk for a minute, and tells what became of them
# make hostile   takes memory away from the program and breaks its input and output, at each place in turn

PROGRAM = crates/route_desk/out/route_desk
PREFIX = /usr/local
# what the last build was made from: newer than each source
BUILT = crates/route_desk/out/built
SOURCES = crates.txt $(shell find crates \( -name out -o -name must-fail -o -name wrong-bodies \) -prune -o -type f \( -name '*.rt' -o -name '*.antt' \) -print)

.PHONY: try demo build install dist quick keep test wrong soak hostile

try:
	@scripts/try.sh

demo: build
	@scripts/demo.sh $(PROGRAM)

build: $(BUILT)

$(BUILT): $(SOURCES)
	@scripts/build.py
	@touch $(BUILT)

install: build
	install -D $(PROGRAM) $(DESTDIR)$(PREFIX)/bin/route_desk
	install -D -m 644 docs/route_desk.1 $(DESTDIR)$(PREFIX)/share/man/man1/route_desk.1

dist: build
	@scripts/dist.sh $(PROGRAM)

quick:
	@scripts/quick.py

keep:
	@scripts/build.py keep
	@touch $(BUILT)

test:
	@scripts/gate.sh $(PROGRAM)

wrong:
	@scripts/wrong.py

soak:
	@scripts/soak.sh

hostile: build
	@scripts/build.py library_calls
	@scripts/hostile.py $(PROGRAM) crates/library_calls/out/library_calls
