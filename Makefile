# Where the original stands, the Rust of dashpay/grovedb, read from here.
GROVEDB_SRC ?= ../shared/docs/src
RUN ?= long $(CURDIR)/docs/COMPARISON.md
# How many invoices Python's decimal adds up again.
CENTS ?= 1000000
# How many covers and uncovers of stored lists PostgreSQL's multiranges make again.
MULTIRANGES ?= 200000
# How many sheets Python's csv reads again or writes, half of them each.
SHEETS ?= 100000
# What the program is shown on, and how many damaged files it is tried on.
FILE ?= samples/document.krl
COUNT ?= 10000
EARLIER ?=
# Where `make install` puts the library and its header.
PREFIX ?= /usr/local
LIBDIR ?= $(PREFIX)/lib
INCLUDEDIR ?= $(PREFIX)/include
# What C and C++ are compiled with here.
STRICT := -Wall -Wextra -Wpedantic -Werror
# cargo by itself: it takes no part in make's own share of the cores.
CARGO := env -u MAKEFLAGS -u MFLAGS cargo
LANES = $(CARGO) run --quiet --offline --manifest-path rust/Cargo.toml --example lanes --
FERNSPONGE = $(CARGO) run --quiet --offline --manifest-path cli/Cargo.toml --
COMPARE = GROVEDB_SRC="$(GROVEDB_SRC)" $(CARGO) run --quiet --release --offline --manifest-path compare/Cargo.toml --

.PHONY: run test beside lib compare compare-short cents multiranges sheets bench record attack attack-short \
    link-short link-c link-c++ link-installed link-rust clippy install clean help kit sources

# What `make help` shows.
#: make run                 the program krl on a file, FILE=samples/document.krl; `make` alone does the same
#: make test                the gate: every proof, every edit that must fail, and what is tried beside them
#: make lib                 the static library and its header, in target/lib and target/include
#: make install             the same in PREFIX=/usr/local (LIBDIR, INCLUDEDIR), behind DESTDIR
#: make link-short          the library linked from C and from Rust: examples, tests, clippy
#: make compare             our answers held against the original's (GROVEDB_SRC), and Python's and PostgreSQL's; writes docs/COMPARISON.md
#: make bench               both sides timed; writes docs/BENCHMARKS.md. EARLIER=an earlier libfernsponge.a is timed too
#: make attack              the program on COUNT=10000 damaged files
#: make record              the original's answers that the gate replays, made anew
#: make kit                 whether the kit is the one that kit-version names; the gate warns where it is not
#: make clean               removes what was made, proofs too
#: make help                this

# The program krl on a file. What is proved and unchanged is not proved again.
run:
	@tools/have rt
	@[ -f "$(FILE)" ] && [ -r "$(FILE)" ] || { echo "make: $(FILE) is no file that can be read; FILE names the one that krl reads" >&2; exit 2; }
	@$(MAKE) --no-print-directory target/krl.log
	@tools/run-program krl <"$(FILE)"

target/krl.log: crates.txt $(shell find crates -path '*/out' -prune -o \( -name '*.rt' -o -name '*.antt' \) -print)
	@echo "make: proving and building krl; from nothing that takes some minutes" >&2
	@tools/progress krl
	@mkdir -p target
	@touch $@

# The gate. What the crates make is first compared with the original, linked, and attacked. Then `rt ci` proves every crate from nothing, tries the
# edits that must fail, and runs each program as two compilers make it. Both have to pass; `rt ci` takes longer, and its count is the last line.
test:
	@tools/have rt
	@for command in cargo cc python3; do command -v $$command >/dev/null || echo "make: $$command is not on the PATH: what needs it is left out"; done
	@$(MAKE) --no-print-directory kit
	tools/trace
	tools/pages
	@rm -rf target
	@$(MAKE) --no-print-directory beside
	tools/gate

# Whether this is the kit that all was last proved with. Another one may well prove it too: the gate tells, and this only says why it might not.
kit:
	@used=$$(rt version) && pinned=$$(cat kit-version) && if [ "$$used" = "$$pinned" ]; then \
	    echo "kit: $$used, as kit-version says"; \
	else \
	    echo "kit: WARNING: the proofs were last checked with $$pinned (kit-version), and this is $$used"; \
	fi

# What is tried beside the proofs, by the checks of a working copy: `rt ci` counts none of these.
beside:
	@mkdir -p target
	@{ $(MAKE) --no-print-directory lib && $(MAKE) --no-print-directory compare-short && $(MAKE) --no-print-directory link-short && \
	    $(MAKE) --no-print-directory attack-short; } \
	    >target/beside.log 2>&1 || { cat target/beside.log; echo "make: what is tried beside the proofs failed"; exit 1; }
	@grep -E 'calls in all|^decimal_cents:|^multiranges:|^csv_sheets:|^attack:|left out' target/beside.log

# The program on files that are damaged in many ways.
attack:
	@tools/have rt python3
	@$(MAKE) --no-print-directory target/krl.log
	tools/attack $(COUNT)

# A few hundred of them, and whether the files that krl_cases runs on are as the plain reading has them, where python3 is at hand.
attack-short:
	@if command -v python3 >/dev/null; then \
	    tools/cases.py check && $(MAKE) --no-print-directory attack COUNT=300; \
	else \
	    echo "attack-short: left out, as python3 is not at hand"; \
	fi

# What others link: the static library for this machine's processor, and its header.
lib:
	@tools/have rt
	@tools/native-lib fernsponge
	@mkdir -p target/lib target/include
	@cp target/native/libfernsponge.a target/lib/
	@cp include/fernsponge.h target/include/

# The same where others look for it, with a file for pkg-config. DESTDIR stands before all paths, for who makes a package.
install: lib
	install -d "$(DESTDIR)$(LIBDIR)/pkgconfig" "$(DESTDIR)$(INCLUDEDIR)"
	install -m 644 target/lib/libfernsponge.a "$(DESTDIR)$(LIBDIR)/"
	install -m 644 target/include/fernsponge.h "$(DESTDIR)$(INCLUDEDIR)/"
	sed -e 's|@PREFIX@|$(PREFIX)|' -e 's|@LIBDIR@|$(LIBDIR)|' -e 's|@INCLUDEDIR@|$(INCLUDEDIR)|' \
	    -e "s|@VERSION@|$$(sed -n 's/^#define FERNSPONGE_VERSION "\(.*\)"/\1/p' target/include/fernsponge.h)|" \
	    c/fernsponge.pc.in >"$(DESTDIR)$(LIBDIR)/pkgconfig/fernsponge.pc"

# What was made, proofs too: the next `make` begins from nothing.
clean:
	rm -rf target rust/target compare/target cli/target crates/*/out

help:
	@sed -n 's/^#: //p' Makefile

# Our answers held against the original's, some eight minutes; the table goes to docs/COMPARISON.md. Then our sums and cents against Python's, our
# stored lists against PostgreSQL's, and our sheets against Python's csv.
compare: sources lib
	$(COMPARE) $(RUN)
	@$(MAKE) --no-print-directory cents
	@$(MAKE) --no-print-directory multiranges
	@$(MAKE) --no-print-directory sheets

# The totals of invoices, added up again and rounded by Python's decimal, where python3 is at hand; first three wrong lines, each of which has to
# fail: another sum, another number of keys without a rate, half a cent as 1.
cents: lib
	@if command -v python3 >/dev/null; then \
	    for wrong in '50;0;51 0 0' '50;0;50 1 0' '50;0;50 0 1'; do \
	        ! echo "$$wrong" | tools/decimal_cents 1 >/dev/null || { echo "cents: $$wrong is accepted"; exit 1; }; \
	    done && \
	    $(COMPARE) cents $(CENTS) | tools/decimal_cents $(CENTS); \
	else \
	    echo "cents: left out, as python3 is not at hand"; \
	fi

# The lists that covers and uncovers leave, made again by PostgreSQL's multiranges, where python3 and PostgreSQL are at hand; first four wrong
# lines, each of which has to fail: touching pairs left apart, after and before, a total that is added whole, the middle uncovered without a
# second pair.
multiranges: lib
	@if command -v python3 >/dev/null; then \
	    printf '%s\n' '0 5;cover;5 7;0 5 5 7;7' '0 2 2 5;cover;7 9;0 5 7 9;7' '0 5;cover;3 9;0 9;11' '0 5;uncover;2 3;0 2;2' \
	        | tools/multiranges 4 | grep -E '; 4 failures|left out' >/dev/null || { echo "multiranges: a wrong line is accepted"; exit 1; }; \
	    $(COMPARE) multiranges $(MULTIRANGES) | tools/multiranges $(MULTIRANGES); \
	else \
	    echo "multiranges: left out, as python3 is not at hand"; \
	fi

# Sheets read again by Python's csv, and sheets that its writer wrote read by ours, where python3 is at hand; first eleven wrong lines, each of
# which has to fail: another key, another code, an absent key as an empty one, a row too few, a good row refused, LF alone or a blank row accepted,
# another row's number, a text without its line end, other lanes than csv's writer was given, no line at all.
sheets: lib
	@if command -v python3 >/dev/null; then \
	    key=4B65792C30352C && row=$${key}0D0A && printf '%s\n' "$$row;0:06:*;$$row" "$$row;4:05:*;$$row" "$$row;0:05:;$$row" "$$row$$row;0:05:*;$$row" \
	        "$$row;refused 12 0;" "$${key}0A;0:05:*;$$row" "$${row}0D0A;0:05:*;$$row" "$${row}2C;refused 12 0;" "$$row;0:05:*;$$key" \
	        "$$row;0:06:*;0:05:*;$$row" "$$row" | tools/csv_sheets hold 11 | grep '; 11 failures' >/dev/null \
	        || { echo "sheets: a wrong line is accepted"; exit 1; }; \
	    half=$$(($(SHEETS) / 2)) && \
	    { $(COMPARE) sheets $$half && tools/csv_sheets write $$half | $(COMPARE) sheets-read; } | tools/csv_sheets hold $$((2 * half)); \
	else \
	    echo "sheets: left out, as python3 is not at hand"; \
	fi

# The same on a sample, where cargo and the original are at hand.
compare-short:
	@if command -v cargo >/dev/null && [ -d "$(GROVEDB_SRC)" ]; then \
	    $(MAKE) --no-print-directory compare RUN=short CENTS=30000 MULTIRANGES=2000 SHEETS=2000; \
	else \
	    echo "compare-short: left out, as cargo or the original's sources (GROVEDB_SRC=$(GROVEDB_SRC)) are not at hand"; \
	fi

# The library linked, where a C compiler and cargo are at hand: the header, C's examples and what they write, the header in C++, what is installed;
# the Rust crate's own tests, its doc examples and its example program; the command's tests, and what it writes of the samples.
link-short:
	@if command -v cc >/dev/null; then \
	    $(MAKE) --no-print-directory link-c; \
	else \
	    echo "link-short: C is left out, as cc is not at hand"; \
	fi
	@if command -v cargo >/dev/null; then \
	    $(MAKE) --no-print-directory link-rust; \
	else \
	    echo "link-short: Rust is left out, as cargo is not at hand"; \
	fi

link-c: lib
	cc -std=c11 $(STRICT) -Itarget/include c/calls.c target/lib/libfernsponge.a -o target/calls
	target/calls
	cc -std=c11 $(STRICT) -Itarget/include c/listing.c target/lib/libfernsponge.a -o target/listing
	target/listing | diff - crates/krl/stdout
	cc -std=c11 $(STRICT) -Itarget/include c/plan.c target/lib/libfernsponge.a -o target/plan
	target/plan | diff - c/plan.stdout
	cc -std=c11 $(STRICT) -Itarget/include c/card.c target/lib/libfernsponge.a -o target/card
	target/card | diff - c/card.stdout
	cc -std=c11 $(STRICT) -Itarget/include c/stored.c target/lib/libfernsponge.a -o target/stored
	target/stored | diff - c/stored.stdout
	cc -std=c11 $(STRICT) -Itarget/include c/collect.c target/lib/libfernsponge.a -o target/collect
	target/collect | diff - c/collect.stdout
	cc -std=c11 $(STRICT) -Itarget/include c/sheet.c target/lib/libfernsponge.a -o target/sheet
	target/sheet | diff - c/sheet.stdout
	@if command -v c++ >/dev/null; then $(MAKE) --no-print-directory link-c++; else echo "link-c: C++ is left out, as c++ is not at hand"; fi
	@$(MAKE) --no-print-directory link-installed

# The header as C++ reads it, and a call that C++ links.
link-c++:
	printf '%s\n' '#include "fernsponge.h"' 'int main() { return fernsponge_to_cents(150) != 2; }' >target/from_cpp.cpp
	c++ -std=c++11 $(STRICT) -Itarget/include target/from_cpp.cpp target/lib/libfernsponge.a -o target/from_cpp
	target/from_cpp

# What `make install` puts into a folder of its own, compiled and linked as its file for pkg-config says, where that is at hand. The library has been
# made, and is not made again.
link-installed:
	@rm -rf target/install
	@$(MAKE) --no-print-directory -o lib install DESTDIR="$(CURDIR)/target/install"
	@if command -v pkg-config >/dev/null; then \
	    flags=$$(PKG_CONFIG_SYSROOT_DIR="$(CURDIR)/target/install" PKG_CONFIG_LIBDIR="$(CURDIR)/target/install$(LIBDIR)/pkgconfig" \
	        pkg-config --cflags --libs fernsponge) && \
	    cc -std=c11 $(STRICT) c/listing.c $$flags -o target/listing_installed && target/listing_installed | diff - crates/krl/stdout; \
	else \
	    echo "link-installed: left out, as pkg-config is not at hand"; \
	fi

link-rust: lib
	$(CARGO) test --quiet --offline --manifest-path rust/Cargo.toml
	$(LANES) samples/ours.csv samples/theirs.csv | diff - crates/krl/stdout
	$(LANES) samples/ours.csv samples/theirs.csv target/shared.csv target/only_ours.csv target/only_theirs.csv
	printf 'Key,03,\r\n' | diff - target/shared.csv
	printf 'Range,01,03\r\nRangeAfterTo,03,05\r\n' | diff - target/only_ours.csv
	printf '' | diff - target/only_theirs.csv
	@rm target/shared.csv target/only_ours.csv target/only_theirs.csv
	$(CARGO) test --quiet --offline --manifest-path cli/Cargo.toml
	$(FERNSPONGE) compare samples/ours.csv samples/theirs.csv | tr -d '\r' | tr , ' ' | sed 's/ *$$//' | diff - crates/krl/stdout
	$(FERNSPONGE) compare samples/document.krl | tr -d '\r' | tr , ' ' | sed 's/ *$$//' | diff - crates/krl/stdout
	$(FERNSPONGE) compare samples/ours.csv samples/theirs.csv --shared target/shared.csv --ours target/only_ours.csv --theirs target/only_theirs.csv
	printf 'Key,03,\r\n' | diff - target/shared.csv
	printf 'Range,01,03\r\nRangeAfterTo,03,05\r\n' | diff - target/only_ours.csv
	printf '' | diff - target/only_theirs.csv
	$(FERNSPONGE) pack samples/ours.csv samples/theirs.csv | cmp - samples/document.krl
	@$(MAKE) --no-print-directory clippy

# The Rust of this project by clippy, as it is set when installed, where it is; compare/ where the original's sources are at hand too.
clippy:
	@if $(CARGO) clippy --version >/dev/null 2>&1; then \
	    $(CARGO) clippy --quiet --offline --all-targets --manifest-path rust/Cargo.toml -- -D warnings && \
	    $(CARGO) clippy --quiet --offline --all-targets --manifest-path cli/Cargo.toml -- -D warnings && \
	    if [ -d "$(GROVEDB_SRC)" ]; then \
	        GROVEDB_SRC="$(GROVEDB_SRC)" $(CARGO) clippy --quiet --offline --all-targets --manifest-path compare/Cargo.toml -- -D warnings; \
	    fi; \
	else \
	    echo "clippy: left out, as it is not at hand"; \
	fi

# Both sides timed in one run, some five minutes; the tables go to docs/BENCHMARKS.md, and the chart to docs/benchmarks.svg. EARLIER names a
# libfernsponge.a that was kept from before a change: the three lists and two keys are then timed beside it too.
bench: sources lib
	@[ -z "$(EARLIER)" ] || tools/earlier "$(EARLIER)"
	BENCH_KIT="$$(rt version)" BENCH_RUSTC="$$(rustc --version)" BENCH_DATE="$$(date +%F)" \
	    GROVEDB_SRC="$(GROVEDB_SRC)" EARLIER_LIBS="$(if $(EARLIER),target/earlier)" \
	    $(CARGO) run --quiet --release --offline --manifest-path compare/Cargo.toml --bin bench -- "$(CURDIR)/docs"

# What is asked before anything is proved for a comparison: cargo, and the original's sources.
sources:
	@tools/have rt cargo
	@[ -d "$(GROVEDB_SRC)" ] || { echo "make: there is no folder $(GROVEDB_SRC): GROVEDB_SRC names that of the original's sources" >&2; exit 2; }

# The original's answers that the programs vectors_.. replay, made anew.
record: sources lib
	$(COMPARE) record "$(CURDIR)/crates"
