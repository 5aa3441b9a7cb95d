# `make help` says what there is. JOB, SET, PREFIX and DESTDIR are given after a target's name, as in `make run JOB=examples/and.job`.
JOB = examples/half-adder.job
SET = (set 1 1)
SECONDS = 600
PREFIX = /usr/local
DESTDIR =
CC = cc
CFLAGS = -O2
RT = rt

# CROSSBAR_LIB names an archive that is there already; then nothing is proved for it.
CROSSBAR_LIB ?=
archive = $(if $(CROSSBAR_LIB),$(CROSSBAR_LIB),target/staticlib/libcrossbar.a)

version := $(shell sed -n 's/.*CROSSBAR_VERSION "\(.*\)"/\1/p' include/crossbar.h)
major := $(firstword $(subst ., ,$(version)))
shared = libcrossbar.so.$(version)
soname = libcrossbar.so.$(major)
to = $(DESTDIR)$(PREFIX)
calls = crossbar_map crossbar_walk crossbar_light crossbar_print crossbar_load

# Every file of an installation, below PREFIX.
files = $(addprefix bin/,map_main light_main crossbar) \
	$(addprefix lib/,libcrossbar.a $(shared) $(soname) libcrossbar.so pkgconfig/crossbar.pc) \
	include/crossbar.h \
	$(addprefix share/man/,man1/map_main.1 man1/light_main.1 man1/crossbar.1 man3/crossbar.3 man5/crossbar.5) \
	$(addprefix share/man/man3/,$(addsuffix .3,$(calls)))

.PHONY: help run test bench soak proved build tool shared draw picture install uninstall clean

help:
	@echo 'make run        prove and build the two programs, map JOB and light it under SET (about 6 minutes the first time)'
	@echo 'make test       the gate: every proof, every edit that must fail, every program, every test'
	@echo 'make build      prove and build the programs, the library and the command crossbar'
	@echo 'make draw       draw the crossbar of JOB under SET as target/drawing.svg'
	@echo 'make picture    draw the picture of README.md again'
	@echo 'make bench      time the library beside a plain program and the second implementation'
	@echo 'make soak       compare the library with the second implementation on new cases for SECONDS seconds'
	@echo 'make install    programs, libraries, header and man pages, under DESTDIR and PREFIX'
	@echo 'make uninstall  remove what make install put there'
	@echo 'make clean      remove target/ and what the prover keeps in crates/*/out'
	@echo
	@echo 'JOB=$(JOB) SET="$(SET)" PREFIX=$(PREFIX) SECONDS=$(SECONDS)'

run:
	@RT='$(RT)' tools/run '$(JOB)' '$(SET)'

test:
	bash .ci/run

bench:
	tests/bench/run

soak:
	RT='$(RT)' tools/build archive
	CARGO_TARGET_DIR=target/cargo cargo run --quiet --release --offline --locked \
	    --manifest-path tests/Cargo.toml -p differential --bin differential -- --soak $(SECONDS)

# The programs and the archive.
proved:
	$(if $(CROSSBAR_LIB),,RT='$(RT)' tools/build)

build: proved tool shared

tool: proved
	mkdir -p target/tools
	$(CC) -std=c99 -Wall -Wextra -pedantic $(CFLAGS) -Iinclude tools/*.c $(archive) -o target/tools/crossbar

# The archive's code is position independent, and the linker is told to refuse it where it is not.
shared: proved
	mkdir -p target/lib
	$(CC) -shared -Wl,-soname,$(soname) -Wl,-z,defs -Wl,-z,text \
	    -Wl,--whole-archive $(archive) -Wl,--no-whole-archive -o target/lib/$(shared)

draw: tool
	target/tools/crossbar draw --set '$(SET)' '$(JOB)' > target/drawing.svg || { rm -f target/drawing.svg; exit 1; }

picture: tool
	target/tools/crossbar draw --set 10 --title 'Half adder: output 0 is the sum, output 1 the carry' \
	    examples/half-adder.job > examples/half-adder.svg

install: build
	install -d $(sort $(dir $(addprefix $(to)/,$(files))))
	install -m 755 target/bin/map_main target/bin/light_main target/tools/crossbar $(to)/bin
	install -m 644 $(archive) $(to)/lib/libcrossbar.a
	install -m 755 target/lib/$(shared) $(to)/lib
	ln -sf $(shared) $(to)/lib/$(soname)
	ln -sf $(soname) $(to)/lib/libcrossbar.so
	install -m 644 include/crossbar.h $(to)/include
	install -m 644 man/*.1 $(to)/share/man/man1
	install -m 644 man/*.3 $(to)/share/man/man3
	install -m 644 man/*.5 $(to)/share/man/man5
	sed 's|@PREFIX@|$(PREFIX)|; s|@VERSION@|$(version)|' crossbar.pc.in > $(to)/lib/pkgconfig/crossbar.pc
	chmod 644 $(to)/lib/pkgconfig/crossbar.pc

uninstall:
	rm -f $(addprefix $(to)/,$(files))

clean:
	rm -rf target crates/*/out
