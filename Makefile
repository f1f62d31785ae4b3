# make                  the portable library and turn printer, by cargo, in seconds
# make proved           the proved library and turn printer, by rt of the Rattle toolchain; to prove all crates takes about an hour on four processors
# make library          the proved library alone
# make install          headers, the proved library, sotjarn.pc, the turn printer and its man page, under PREFIX (/usr/local); DESTDIR is put before it
# make install PORTABLE=1   the same from the portable build, with its shared library and sotjarn_portable.pc; both may be installed side by side
# make uninstall        takes the same files away, with the same PREFIX, DESTDIR and PORTABLE
# make test             all tests (tests/all)
# make help             prints this

PREFIX ?= /usr/local
DESTDIR ?=

ifdef PORTABLE
name = sotjarn_portable
library = portable/target/release/libsotjarn_portable.a
shared = portable/target/release/libsotjarn_portable.so
printer = portable/target/release/turns
else
name = sotjarn
library = target/staticlib/libsotjarn.a
shared =
printer = target/bin/print_main
endif

headers = bindings/c/sotjarn.h bindings/c/sotjarn_words.h
to = $(DESTDIR)$(abspath $(PREFIX))
kept = $(to)/lib/sotjarn
source = crates.txt $(shell find crates -path '*/out' -prune -o -type f \( -path '*/src/*' -o -path '*/specs/*' -o -path '*/proofs/*' \) -print)

.PHONY: portable proved library rattle install uninstall test help

portable:
	cargo build --release --manifest-path portable/Cargo.toml --target-dir portable/target

portable/target/release/libsotjarn_portable.a portable/target/release/libsotjarn_portable.so portable/target/release/turns: portable

proved: target/staticlib/libsotjarn.a target/bin/print_main

library: target/staticlib/libsotjarn.a

rattle:
	@command -v rt > /dev/null || { echo "make: the proved library is built by 'rt' of the Rattle toolchain, which is not on the path;" >&2; \
	  echo "make: 'make install PORTABLE=1' installs the portable library, which needs cargo alone" >&2; exit 1; }

target/staticlib/libsotjarn.a: $(source) | rattle
	cd crates/sotjarn && rt lib
	install -D -m 644 crates/sotjarn/out/libsotjarn.a $@

# rt keeps the program that it builds and runs
target/bin/print_main: $(source) | rattle
	cd crates/print_main && rt run -- data/three_stems.words > /dev/null
	install -D -m 755 crates/print_main/out/print_main $@

install: $(library) $(shared) $(printer)
	mkdir -p $(to)/bin $(to)/include $(to)/lib/pkgconfig $(to)/share/man/man1 $(kept)
	install -m 644 $(headers) $(to)/include/
	install -m 644 $(library) $(to)/lib/lib$(name).a
	$(if $(shared),install -m 755 $(shared) $(to)/lib/)
	install -m 755 $(printer) $(kept)/
	install -m 644 VERSION tools/refusals.txt $(kept)/
	install -m 755 turns $(to)/bin/sotjarn-turns
	sed -e "s|@VERSION@|$$(cat VERSION)|" docs/sotjarn-turns.1 > $(to)/share/man/man1/sotjarn-turns.1
	sed -e 's|@PREFIX@|$(abspath $(PREFIX))|' -e 's|@NAME@|$(name)|' -e "s|@VERSION@|$$(cat VERSION)|" bindings/c/sotjarn.pc.in \
	  > $(to)/lib/pkgconfig/$(name).pc

# what both builds install goes with the last of them
uninstall:
	rm -f $(to)/lib/lib$(name).a $(addprefix $(to)/lib/,$(notdir $(shared))) $(to)/lib/pkgconfig/$(name).pc $(kept)/$(notdir $(printer))
	ls $(to)/lib/pkgconfig/sotjarn*.pc > /dev/null 2>&1 || rm -rf $(addprefix $(to)/include/,$(notdir $(headers))) $(kept) \
	  $(to)/bin/sotjarn-turns $(to)/share/man/man1/sotjarn-turns.1

test:
	tests/all

help:
	@sed -n '/^$$/q; s/^# //p' Makefile
