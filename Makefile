# Without the kit, whose command is `rt`: `sh release/install.sh PREFIX` installs what was proved and built, and `make test` tests it.
#
# make, make all  proves and builds bin/cmph, bin/cmph_judge, bin/cmph_filter, bin/cmph_store and bin/cmph_shards: names each crate with its
#                 time, and puts all else into out/prove.log
# make demo       builds a function over a word list, queries it, and tries all algorithms over generated keys
# make library    proves and builds the C library: lib/libcmph_c.a and lib/libcmph_c.so.1; its header is library/cmph_c.h
# make test       runs the tests over bin/ and lib/, or over the release if they are not there: PREFIX=X for what was installed below X,
#                 TESTS="edge python" for some of them
# make check      the gate: proves everything from nothing, and runs all tests
# make install    installs the programs, their man pages, and completions for bash and zsh below $(PREFIX); and the library, if `make library` made it
# make install-library
#                 installs the library, its header and cmph_c.pc below $(PREFIX)
# make uninstall  removes all of them
# make release    packs programs, library, man pages and completions into release/, if the gate or `make` proved and built them so
# make dist       packs them as a Debian package, in dist/
# make bench      measures it beside the C tool and plain Rust, leaves the results in bench/results, and writes the measured tables of
#                 README.md and docs/: make bench SETS="100000 words" for fewer sets of keys, ROUNDS=3 for fewer runs, NAME=here for
#                 results of another name than `latest`
# make bench-bits, make bench-peel, make bench-spill, make bench-bbhash
#                 the same for packed tables, for peeling, for the buffer of brz, and beside bbhash
# make bench-versions BEFORE=PROGRAM
#                 the same beside the program of an earlier version
# make bench-most the same over as many keys as a function may have: it needs three gigabytes of disk
# make bench-judge
#                 the judge of reports beside the refused builds that printed them
# make bench-filter
#                 membership filters beside builds and queries, libbloom and plain Rust
# make bench-store
#                 record stores beside builds and queries, tinycdb and LMDB
# make bench-shards
#                 splits and queries of shards beside plain Rust and one function, and all steps beside cmph-shards
# make bench-library
#                 calls of the C library beside those of libcmph, in one process
# make bench-sizes
#                 builds and queries against the number of keys, beside the C tool: it needs five gigabytes of disk; SETS="1000 10000" for fewer
#                 numbers, SETS="--merge 10000000" to keep what was measured of others
# make drawings   makes every drawing of docs/ again: from real runs, from the results of measurements, and from crates.txt
# make clean      removes what was proved, built and packed, except release/
PREFIX ?= /usr/local
SETS ?=
NAME ?= latest
ROUNDS ?= 7
BEFORE ?=
TESTS ?=
VERSION := $(shell cat VERSION)
SOURCES := crates.txt $(wildcard crates/*/src/*.rt crates/*/specs/*.antt) $(shell find crates -path '*/out' -prune -o -name '*.antt' -print)

PROGRAMS := cmph cmph_judge cmph_filter cmph_store cmph_shards

NEEDS_KIT = $(if $(shell command -v rt),,$(error there is no rt on the path, the command of the Rattle kit, which proves; `sh release/install.sh` runs without it and installs what was proved))

all: $(PROGRAMS:%=bin/%)

# A run that was stopped goes on with the crates that were not proved. The programs are proved one after another, since they share crates.
bin/cmph_judge: bin/cmph
bin/cmph_filter: bin/cmph_judge
bin/cmph_store: bin/cmph_filter
bin/cmph_shards: bin/cmph_store
bin/%: $(SOURCES)
	$(NEEDS_KIT)@python3 tools/prove.py $*
	@mkdir -p bin
	@cp crates/$*/out/$* $@

library: lib/libcmph_c.a lib/libcmph_c.so.1

lib/libcmph_c.a: $(SOURCES)
	$(NEEDS_KIT)@python3 tools/prove.py cmph_c
	@python3 tools/link.py lib

lib/libcmph_c.so.1: lib/libcmph_c.a library/exports.map
	@python3 tools/link.py lib

install-library: library
	install -D -m 644 library/cmph_c.h $(DESTDIR)$(PREFIX)/include/cmph_c.h
	install -D -m 644 lib/libcmph_c.a $(DESTDIR)$(PREFIX)/lib/libcmph_c.a
	install -D -m 755 lib/libcmph_c.so.1 $(DESTDIR)$(PREFIX)/lib/libcmph_c.so.1
	ln -sf libcmph_c.so.1 $(DESTDIR)$(PREFIX)/lib/libcmph_c.so
	install -d $(DESTDIR)$(PREFIX)/lib/pkgconfig
	sed 's|@PREFIX@|$(PREFIX)|; s|@VERSION@|$(VERSION)|' library/cmph_c.pc.in > $(DESTDIR)$(PREFIX)/lib/pkgconfig/cmph_c.pc

release:
	@python3 tools/release.py

dist:
	@python3 tools/dist.py

demo: bin/cmph
	@scratch=$$(mktemp -d) && cp examples/words $$scratch/ && cd $$scratch && cmph=$(CURDIR)/bin/cmph && \
	echo "\$$ cmph -g words        ($$(wc -l < words) words, one a line)" && $$cmph -g words && \
	echo "\$$ cmph words | head -n 3" && $$cmph words > answers && head -n 3 answers && \
	echo "words has $$(wc -c < words) bytes, and words.mph $$(wc -c < words.mph)" && \
	echo "\$$ cmph -T 100000      (algorithm, keys, bytes of the function, sum of the numbers)" && $$cmph -T 100000; \
	status=$$?; rm -rf $$scratch; exit $$status

test:
	@python3 tests/run.py $(if $(filter command environment,$(origin PREFIX)),--prefix $(PREFIX)) $(TESTS)

check:
	bash .ci/run

install: all
	for program in $(PROGRAMS); do \
	    install -D -m 755 bin/$$program $(DESTDIR)$(PREFIX)/bin/$$program && \
	    install -D -m 644 man/$$program.1 $(DESTDIR)$(PREFIX)/share/man/man1/$$program.1 && \
	    install -D -m 644 completions/$$program.bash $(DESTDIR)$(PREFIX)/share/bash-completion/completions/$$program && \
	    install -D -m 644 completions/_$$program $(DESTDIR)$(PREFIX)/share/zsh/site-functions/_$$program || exit; \
	done
	@test ! -e lib/libcmph_c.a || $(MAKE) install-library

uninstall:
	for program in $(PROGRAMS); do \
	    rm -f $(DESTDIR)$(PREFIX)/bin/$$program $(DESTDIR)$(PREFIX)/share/man/man1/$$program.1 \
	        $(DESTDIR)$(PREFIX)/share/bash-completion/completions/$$program $(DESTDIR)$(PREFIX)/share/zsh/site-functions/_$$program; \
	done
	rm -f $(DESTDIR)$(PREFIX)/include/cmph_c.h $(DESTDIR)$(PREFIX)/lib/libcmph_c.a $(DESTDIR)$(PREFIX)/lib/libcmph_c.so.1 \
	    $(DESTDIR)$(PREFIX)/lib/libcmph_c.so $(DESTDIR)$(PREFIX)/lib/pkgconfig/cmph_c.pc

bench: bin/cmph
	python3 bench/compare.py --name $(NAME) --rounds $(ROUNDS) $(SETS)
	python3 bench/tables.py

bench-bits:
	python3 bench/tables.py --record bits bench/bits.sh

bench-peel:
	python3 bench/tables.py --record peel bench/peel.sh

bench-spill: bin/cmph
	python3 bench/tables.py --record spill python3 bench/spill.py $(SETS)

bench-bbhash: bin/cmph
	python3 bench/tables.py --record bbhash python3 bench/bbhash.py

bench-versions: bin/cmph
	python3 bench/tables.py --record versions python3 bench/versions.py $(BEFORE)

bench-most: bin/cmph
	python3 bench/tables.py --record most python3 bench/most.py

bench-judge: all
	python3 bench/tables.py --record judge python3 bench/judge.py

bench-filter: all
	python3 bench/tables.py --record filter python3 bench/filter.py

bench-store: all
	python3 bench/tables.py --record store python3 bench/store.py

bench-shards: all
	python3 bench/tables.py --record shards python3 bench/shards.py

bench-library: bin/cmph library
	python3 bench/tables.py --record library python3 bench/library.py

bench-sizes: bin/cmph
	python3 bench/tables.py --record sizes python3 bench/sizes.py $(SETS)

drawings: all
	python3 bench/drawings.py

clean:
	rm -rf bin lib out dist crates/*/out

.PHONY: all library release dist demo test check install install-library uninstall bench bench-bits bench-peel bench-spill bench-bbhash bench-versions bench-most bench-judge bench-filter bench-store bench-shards bench-library bench-sizes drawings clean
