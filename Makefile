# Every recipe is one script of bash, and the first command that fails ends it.
SHELL := /bin/bash
.SHELLFLAGS := -euo pipefail -c
.ONESHELL:
.PHONY: test run bench example sheet

office := office/target/release/office
# What the crates are made of, without what rt leaves in their out/.
crates := crates.txt $(shell find crates -name out -prune -o -type f -print)

# Names each of the given tools that is not on the path, with what it is for, and ends the recipe where one is missing.
define need
missing=0
for tool in $(1); do
	if ! command -v "$$tool" > /dev/null; then
		case "$$tool" in
			rt) use="Rattle, which proves and builds the crates" ;;
			cargo) use="Rust, which builds and tests the command" ;;
			cc) use="a C compiler, with which cargo links" ;;
			nm) use="binutils, by which a test reads the archive's names" ;;
			python3) use="Python 3, which runs the model of the tests" ;;
		esac
		echo "make: $$tool is missing: $$use" >&2
		missing=1
	fi
done
if [ "$$missing" = 1 ]; then exit 1; fi
endef

# The stored vectors are the model's; every crate is proved, the must-fail edits are tried and the programs run; then the archive
# is made of what was proved (tools/archive.sh), and the Rust side is built and tested with it and the two programs that ran. An
# edit that no longer fits the text fails too. The last line is rt's verdict.
test:
	@$(call need,rt cargo cc nm python3)
	verdict=$$(mktemp)
	trap 'rm -f "$$verdict"' EXIT
	sh model/check.sh
	own=$$(find crates -path '*/out/rlib' -prune -print -quit)
	rt ci | tee "$$verdict"
	grep -q '^rt: ok' "$$verdict" || { echo "make: rt ci ended without its line 'rt: ok'" >&2; exit 1; }
	if grep -Eq '^rt: ok.*, [1-9][0-9]* bad' "$$verdict"; then echo "make: some must-fail edits no longer fit the text" >&2; exit 1; fi
	bash tools/archive.sh $${own:+anew}
	mkdir -p target/bin
	cp crates/sheet/out/sheet crates/vectors/out/vectors target/bin/
	cargo test --release --offline --manifest-path office/Cargo.toml
	tail -n 1 "$$verdict"

# An example house of twelve sections: its cheapest sizes, its sheet by the sheet program, and its drawing. The sheet program
# has no status to give, so what it wrote is checked.
run: target/built
	@sizes=$$($(office) choose examples/house.txt examples/table.csv | tee target/house.txt | sed -n 's/^sizes *//p')
	cat target/house.txt
	$(office) pack examples/house.txt -o target/house.job
	$(office) pack examples/table.csv -o target/house.cat
	{
		cat target/house.job target/house.cat
		for size in $${sizes//,/ }; do printf "\\x$$(printf %x "$$size")"; done
	} > target/house.order
	echo
	target/bin/sheet < target/house.order > target/house.sheet
	cat target/house.sheet
	sh examples/whole-sheet.sh target/house.sheet
	grep -q '^head ' target/house.sheet
	$(office) draw examples/house.txt examples/table.csv -o target/house.svg
	echo
	echo "target/house.svg is the drawing"

# Flow, rating and choosing against the independent model and searches in Rust, in one run.
bench: target/built
	@$(office) bench

# The proved sheet program, the proved archive and the command over it.
target/built: target/bin/sheet target/staticlib/liborder.a $(shell find office/src office/build.rs office/Cargo.toml -type f)
	@$(call need,rt cargo cc)
	cargo build --release --offline --manifest-path office/Cargo.toml > target/built.log 2>&1 || { tail -n 40 target/built.log; exit 1; }
	touch target/built

# rt leaves a program in its crate's out/ once it has run it, here on no input.
target/bin/sheet: $(crates)
target/bin/vectors: $(crates)
target/bin/sheet target/bin/vectors:
	@$(call need,rt)
	mkdir -p target/bin
	echo "proving the program $(@F), which takes minutes the first time: target/$(@F).log"
	(cd crates/$(@F) && rt run < /dev/null) > target/$(@F).log 2>&1 || { tail -n 40 target/$(@F).log; exit 1; }
	cp crates/$(@F)/out/$(@F) $@

target/staticlib/liborder.a: $(crates) tools/archive.sh
	@$(call need,rt)
	mkdir -p target
	echo "proving the library, which takes minutes the first time: target/archive.log"
	bash tools/archive.sh anew > target/archive.log 2>&1 || { tail -n 40 target/archive.log; exit 1; }

# Document 01's own case: flows, and the cheapest sizes with their rating.
example: target/built
	@$(office) flow examples/own-case.txt
	echo
	$(office) choose examples/own-case.txt examples/own-case.csv

# Prints the sheet of document 01's own case.
sheet: target/bin/sheet
	@target/bin/sheet < examples/own-case.sheet
