# show: the tree of a sample book. test: everything; its last line is 'N passed, M failed'. bench: ratios to C and to other libraries.
# picture: the sample book's tree drawn, as the README shows it. library: the proved code for C and Rust to link. program: the proved program.
.PHONY: show test bench picture library program

show: program
	@target/bin/show < samples/bench.txt

test:
	@sh tests/run.sh

bench:
	@sh bench/run.sh

picture:
	@$(MAKE) -s show | python3 tools/draw.py > docs/tree.svg

library: target/staticlib/libunit.a

program: target/bin/show

sources := $(shell find crates \( -name must-fail -o -name out \) -prune -o -type f -print) crates.txt

target/staticlib/libunit.a: $(sources)
	@mkdir -p $(@D)
	@cd crates/unit && rt lib
	@cp crates/unit/out/libunit.a $@

# What a check says goes to standard error, and what this first run prints nowhere.
target/bin/show: $(sources)
	@mkdir -p $(@D)
	@cd crates/show && rt run <stdin >/dev/null
	@cp crates/show/out/show $@
