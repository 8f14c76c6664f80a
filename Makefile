# make test: everything that has to hold; what `rt ci` has passed on this machine it does not prove again. Its last line is `N passed, 0 failed`.
.PHONY: test check programs archive install bench fmt clean

PREFIX ?= /usr/local

test:
	@tests/run

# The proofs and programs alone, with what is unchanged taken as it was.
check:
	rt all check
	@$(MAKE) -s programs

# What `rt` makes stands in its crate's out/, and here a copy of it in target/. It is made again when something that it is made of has changed; a
# program that `rt ci` has made is taken as it is.
SOURCES = crates.txt $(shell find crates -name out -prune -o \( -name '*.rt' -o -name '*.antt' \) -print)

# The library for C and Rust.
ARCHIVE = target/staticlib/libwairepomuro.a

archive: $(ARCHIVE)

$(ARCHIVE): crates/wairepomuro/out/libwairepomuro.a
	@install -D -m 644 $< $@

crates/wairepomuro/out/libwairepomuro.a: $(SOURCES)
	@mkdir -p target
	@(cd crates/wairepomuro && rt lib) >target/staticlib.log 2>&1 || { tail -n 20 target/staticlib.log; exit 1; }
	@touch $@

# `rt run` makes a program and runs it, here on no input.
PROGRAMS = vectors watch drill

programs: $(PROGRAMS:%=target/bin/%)

.SECONDEXPANSION:
target/bin/%: crates/$$*/out/$$*
	@install -D $< $@

$(foreach program,$(PROGRAMS),crates/$(program)/out/$(program)): $(SOURCES)
	@mkdir -p target
	@(cd crates/$(@F) && rt run) </dev/null >target/$(@F).log 2>&1 || { tail -n 20 target/$(@F).log; exit 1; }
	@touch $@

# Header, archive and a pkg-config file.
install: archive
	install -d $(DESTDIR)$(PREFIX)/include $(DESTDIR)$(PREFIX)/lib/pkgconfig
	install -m 644 include/wairepomuro.h $(DESTDIR)$(PREFIX)/include/
	install -m 644 $(ARCHIVE) $(DESTDIR)$(PREFIX)/lib/
	sed 's|@PREFIX@|$(PREFIX)|' include/wairepomuro.pc.in >$(DESTDIR)$(PREFIX)/lib/pkgconfig/wairepomuro.pc

# What every call costs, beside plain Rust and the naive way: docs/BENCH.md and docs/bench.svg.
bench:
	@bench/run

fmt:
	@for crate in crates/*/; do (cd "$$crate" && rt fmt) || exit 1; done

clean:
	rm -rf target crates/*/out
