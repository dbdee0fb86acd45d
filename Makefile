# What people do here. `make test` is the gate; it needs the Rattle kit (`rt`), cc, rustc and cargo.
.PHONY: run test lib install bindings suite answers compare bench distance

PREFIX ?= /usr/local

# Replays the stored answers of the Rust original against the proved code, then runs what its entry points refuse, then opens
# a line and converts a stored tone (20 ms, a triangle of 500 Hz) through the two programs.
run:
	@tools/made replay refusals open_line convert
	@cd crates/replay/data && ../../../target/bin/replay
	@target/bin/refusals
	@target/bin/open_line encoder 8 16 | cat - samples/tone-8k.raw | target/bin/convert >target/tone-16k
	@echo "samples/tone-8k.raw, 160 samples at 8 kHz, converted to 16 kHz: $$(($$(wc -c <target/tone-16k) / 2 - 256)) samples and a block. The first:"
	@od -An -td2 -v -w48 -N48 target/tone-16k

# The library's bindings and a short run of the suite; then layout, every proof, every must-fail edit and every program. The
# last line is the verdict.
test:
	@$(MAKE) --no-print-directory bindings
	@tools/suite/run
	@tools/gate

# The static library for C and Rust: target/staticlib/libsimmerpatch.a; its header is bindings/c/simmerpatch.h.
lib:
	@tools/made simmerpatch
	@echo target/staticlib/libsimmerpatch.a

# Library, header and pkg-config file, under PREFIX (and DESTDIR before it).
install: lib
	@install -d $(DESTDIR)$(PREFIX)/lib/pkgconfig $(DESTDIR)$(PREFIX)/include
	@install -m 644 target/staticlib/libsimmerpatch.a $(DESTDIR)$(PREFIX)/lib
	@install -m 644 bindings/c/simmerpatch.h $(DESTDIR)$(PREFIX)/include
	@sed 's|@PREFIX@|$(PREFIX)|' bindings/c/simmerpatch.pc.in >target/simmerpatch.pc
	@install -m 644 target/simmerpatch.pc $(DESTDIR)$(PREFIX)/lib/pkgconfig

# The C example and the tests of the Rust crate, with the fixtures of docs/FIXTURES.md, against the library.
bindings: lib
	@$(CC) -std=c11 -Wall -Wextra -Werror -I bindings/c bindings/c/example.c -L target/staticlib -lsimmerpatch -o target/example
	@target/example | cmp - bindings/c/example.out
	@cargo test --offline --quiet --manifest-path bindings/rust/Cargo.toml >target/cargo.log 2>&1 || { cat target/cargo.log; exit 1; }
	@awk '/^test result: ok/ { n += $$4 } END { print "bindings: the C example and " n " tests of the Rust crate pass" }' target/cargo.log

# Sixteen lines on one thread and on sixteen against the Rust original and libopus, outputs compared; then the C face fuzzed.
suite:
	@tools/suite/run --long
	@tools/fuzz/run

# Builds the Rust original and makes its stored answers again. Needs rustc and the original's source: tools/oracle/README.md.
answers:
	@tools/oracle/build
	@target/oracle/bin/answers crates/replay/data/rust.bin

# Compares the stages, sample by sample, with the Rust original and with libopus. Needs what tools/bench/README.md says.
compare:
	@tools/bench/compare

# Measures them beside the two, and prints the tables of docs/BENCHMARKS.md.
bench:
	@tools/bench/bench
	@tools/bench/plot

# Looks for the doubler's largest distance from the exact filter, and prints the table of docs/DISTANCE.md. Needs rustc.
distance:
	@tools/bench/distance
