# make run     ./run: the bench program on 01's example
# make test    ./test: proves every crate, then runs the host tests
# make prove   the proofs and the wrong programs alone
# make host    the host tests alone, over what of the proved code is missing or older than its source
# make map     draws the rooms of crates.txt and who uses whom, into docs/rooms.svg
# make bench   measures the proved calls against ones written by hand, and writes docs/BENCHMARK.md
# make install PREFIX=..   the header, the archive and the pkg-config file
# make clean   removes all that was made, and with it what rt keeps of the proofs

ARCHIVES := target/staticlib/libplan_calls.a target/staticlib/libdispatcher_calls.a target/staticlib/libknee.a
# For the tests alone: the rounding-up division, which the calls have built in.
ROUNDING := target/staticlib/libtime_needed.a
CODE := crates.txt $(shell find crates -name out -prune -o -name '*.rt' -print)
PREFIX ?= /usr/local

.PHONY: run test prove host archives programs map bench install clean
.NOTPARALLEL:

run test:
	@./$@

prove:
	rt ci

host: archives programs
	cd host && cargo test --release --offline
	host/c/test.sh
	docs/test.sh

archives: $(ARCHIVES) $(ROUNDING)

programs:
	@tools/program bench

map:
	tools/map > docs/rooms.svg

bench: archives
	host/benchmark/run

install: target/staticlib/libkilmstra.a
	mkdir -p "$(PREFIX)/include" "$(PREFIX)/lib/pkgconfig"
	install -m 644 host/c/kilmstra.h "$(PREFIX)/include"
	install -m 644 target/staticlib/libkilmstra.a "$(PREFIX)/lib"
	install -m 644 host/c/kilmstra.pc "$(PREFIX)/lib/pkgconfig"

# What a firmware links: the objects of all archives in one.
target/staticlib/libkilmstra.a: $(ARCHIVES)
	rm -rf target/joined $@
	mkdir target/joined
	cd target/joined && for archive in $(ARCHIVES); do ar x ../../$$archive || exit; done
	ar rcs $@ target/joined/*.o

$(ROUNDING): crates/numeric/src/lib.rt
	tools/visible numeric time_needed

target/staticlib/lib%.a: $(CODE)
	tools/archive $*

clean:
	rm -rf target host/target crates/*/out
