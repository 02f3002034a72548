# make demo: the library at work.   make test: everything that is promised, proved and run.   make fuzz: the library against the second
# program, until they differ.   make command: the command cotelark, target/cargo/release/cotelark.   make bench: how fast it is, beside its peers.
.PHONY: demo test fuzz bench command kit archive

# A cargo that rustup put there may not be on the PATH.
export PATH := $(PATH):$(HOME)/.cargo/bin

BUILT := target/cargo/release
ARCHIVE := target/staticlib/libcotelark.a

demo: command
	@$(BUILT)/demo $(BUILT)/cotelark target/demo

command: archive
	@host/tools gcc cargo
	@cd host && cargo build --release --offline --quiet

test: kit
	host/tools gcc g++ valgrind cargo
	runs/gate

# Endless, from a seed that it prints; SEED=N takes another.
fuzz: kit archive
	host/tools cargo
	cd host && cargo run --release --offline --quiet --bin fuzz -- $(SEED)

# A measurement and no test: what is slow fails nothing.
bench: archive
	@bench/run

# The static library that C and Rust link, with the proofs that it needs; made anew when a line of Rattle has changed.
archive: kit $(ARCHIVE)

$(ARCHIVE): crates.txt $(shell find crates -name out -prune -o \( -name '*.rt' -o -name '*.antt' \) -print)
	@mkdir -p $(@D)
	@echo "Proving and building $@ (minutes from nothing) .."
	@(cd crates/cotelark && rt lib) > target/archive.log 2>&1 || { cat target/archive.log; exit 1; }
	@cp crates/cotelark/out/libcotelark.a $@

# The kit that the proofs were last seen to pass with is named in kit.txt; another one may do as well.
kit:
	@command -v rt > /dev/null || { echo "The Rattle kit is missing: there is no command rt on the PATH."; exit 1; }
	@test "$$(rt version)" = "$$(cat kit.txt)" || echo "This kit is $$(rt version); the proofs were last checked with $$(cat kit.txt)."
