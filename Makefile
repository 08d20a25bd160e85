# The library for C and other languages, its examples, and what holds it against a plain Rust program.
# Needs the kit of the README, and beside it gcc, cargo and python3.

kit := $(dir $(shell rt doc))
out := build
sources := $(shell find crates -name out -prune -o \( -name '*.rt' -o -name '*.antt' \) -print)

.PHONY: library example-c example-rust example-python compare measure robust clean

# A static and a shared library. The proof is made on the way.
library: $(out)/libpekstuvna.so

$(out)/libpekstuvna.a: $(sources)
	cd crates/exports_c && rt lib
	mkdir -p $(out)
	cp crates/exports_c/out/libexports_c.a $@
	cp $(kit)c/liblibc_c.a $(out)/librattle_c.a

$(out)/libpekstuvna.so: $(out)/libpekstuvna.a
	gcc -shared -o $@ -Wl,--whole-archive $< -Wl,--no-whole-archive $(out)/librattle_c.a

example-c: library
	gcc -std=c11 -Wall -Wextra -O2 -Iinclude -o $(out)/example_c examples/bills.c $(out)/libpekstuvna.a $(out)/librattle_c.a
	$(out)/example_c

example-rust: library
	rustc --edition 2021 -O -o $(out)/example_rust examples/bills.rs -L $(out) -l static=pekstuvna -l static=rattle_c
	$(out)/example_rust

example-python: library
	python3 examples/bills.py $(out)/libpekstuvna.so

cargo = cd bench && PEKSTUVNA_LIB=$(abspath $(out)) CARGO_TARGET_DIR=$(abspath $(out))/bench cargo
bench = $(cargo) run --offline --release --quiet

# A million sheets and more through the library and through a plain Rust program, byte for byte.
compare: library
	$(bench) --bin compare

# The time of both on the same input, the whole programs too.
measure: library crates/pekstuvna/out/pekstuvna
	$(cargo) build --offline --release --quiet --bins
	$(bench) --bin measure

# Endless input, no memory and the like.
robust: crates/pekstuvna/out/pekstuvna
	bench/robust.sh crates/pekstuvna/out/pekstuvna

crates/pekstuvna/out/pekstuvna: $(sources)
	cd crates/pekstuvna && rt run < stdin > /dev/null

clean:
	rm -rf $(out)
