# make test: the gate: the prover's own, then all that is tested; the last line is 'N passed, 0 failed'.
# make run: prove the program carry and carry the example patch with it.
# make staticlib: prove the entries and write target/staticlib/liblafindry.a for C; include/lafindry.h declares them.
# make bench: time the entries beside the Rust reference, in one run.
# make bench-places: time the entries with the archive at four places in the program, to part the code from the linker.
# make count-places: count the places of which docs/DESIGN-PASS.md tells.
# make check-definitions: have the prover confirm cases on the definitions (by hand: minutes).

CARGO = CARGO_TARGET_DIR=target/cargo cargo
REFERENCE = --manifest-path tests/reference/Cargo.toml

.PHONY: test run staticlib bench bench-places check-definitions reference count-places

test:
	@tools/test

run:
	@tools/run

staticlib:
	@cd crates/lafindry && rt lib
	@mkdir -p target/staticlib
	@cp crates/lafindry/out/liblafindry.a target/staticlib/

bench: staticlib
	@$(CARGO) run --quiet --release --offline --manifest-path bench/Cargo.toml

bench-places: staticlib
	@tools/bench-places

count-places:
	@tools/count-places --short

reference:
	@$(CARGO) build --quiet --release --offline $(REFERENCE)

check-definitions: reference
	@mkdir -p target
	@target/cargo/release/reference generate 1 3000 small > target/generated.txt
	@tools/check-definitions --most 1500 --all tests/data/cases-01.txt --all tests/data/cases-n3.txt --all tests/data/cases-n6.txt --all tests/data/cases-n5.txt tests/data/base.txt tests/data/n3.txt tests/data/n6.txt tests/data/n5.txt target/generated.txt
	@target/cargo/release/reference generate 1 600 clashes > target/generated-clashes.txt
	@tools/check-definitions --most 700 --longest 200 tests/data/n9.txt target/generated-clashes.txt
	@target/cargo/release/reference generate 1 600 operations > target/generated-operations.txt
	@tools/check-definitions --most 900 --longest 300 tests/data/n8.txt target/generated-operations.txt
	@target/cargo/release/reference generate 1 600 edited > target/generated-edited.txt
	@tools/check-definitions --most 900 --longest 300 tests/data/n4.txt target/generated-edited.txt
	@target/cargo/release/reference generate 1 600 counted > target/generated-counted.txt
	@tools/check-definitions --most 900 --longest 300 tests/data/n14.txt target/generated-counted.txt
