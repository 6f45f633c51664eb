# make run        chooses for the quarter in example/quarter, by the proved program
# make test       the whole gate: layout, proofs, must-fail edits, programs, and the comparison with Rust
# make edit       tries one must-fail edit: make edit EDIT=round/both_straight_odds
# make examples   writes the files of the examples again, from their generator
# make bench      times the proved choice and the taking of counts beside plain versions, a bare pass over the sheet and the reference

.PHONY: run test edit examples bench program archive

run: program
	@cd example/quarter && ../../target/bin/choose

test:
	@sh .ci/gate

edit:
	@sh .ci/edit $(EDIT)

examples: archive
	@cd harness && cargo run --quiet --offline --locked --bin example

bench: archive
	@cd harness && cargo run --quiet --offline --locked --release --bin bench

program:
	@mkdir -p target
	@echo 'proving and building the program: some minutes the first time, then at once' >&2
	@(cd crates/choose && rt run) >target/program.log 2>&1 </dev/null || { cat target/program.log; exit 1; }
	@install -D -m 755 crates/choose/out/choose target/bin/choose

archive:
	@mkdir -p target
	@echo 'proving and building the archive: some minutes the first time, then seconds' >&2
	@(cd crates/exports && rt lib) >target/archive.log 2>&1 </dev/null || { cat target/archive.log; exit 1; }
	@cmp -s crates/exports/out/libexports.a target/staticlib/libexports.a || install -D -m 644 crates/exports/out/libexports.a target/staticlib/libexports.a
