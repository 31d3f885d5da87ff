# What `make run` and `make try` answer, and what `make compare` runs: scripts 0 to COUNT - 1 of a seed.
SCRIPT ?= oracle/tests/network_a.script
SEED ?= 1
COUNT ?= 20000

CARGO = --release --offline --manifest-path oracle/Cargo.toml
SOURCES = crates.txt $(shell find crates -name out -prune -o -name '*.rt' -print -o -name '*.antt' -print)
NETRUN = crates/netrun/out/netrun

run: $(NETRUN)
	@make/program.sh netrun < $(SCRIPT)

# In half a minute, by the sources as they are. Nothing is proved by it.
try:
	@make/try.sh $(SCRIPT)

test:
	bash .ci/run

check:
	@make/prove.sh

oracle:
	cargo test $(CARGO) --workspace

# The proved run against graph.rs; the first mismatch comes cut down to its shortest.
compare: target/staticlib/libscript.a
	cargo run $(CARGO) --quiet -p host --features built -- $(SEED) $(COUNT)

# Records anew what graph.rs answers to the list of `replay`.
replay:
	cargo run $(CARGO) --quiet --bin record

# Static libraries for C, Rust and Python; include/waterways.h has their calls.
staticlib:
	@make/staticlib.sh exportrows exportlists exportremovals exportdirectory

# The header's example.
example: staticlib
	tests/header_example.sh

rust: staticlib
	cargo test --release --offline --manifest-path rust/Cargo.toml

# How fast it is beside graph.rs, and petgraph where it is installed: prints, and writes docs/BENCH.md.
bench: staticlib target/staticlib/libscript.a
	@make/staticlib.sh loops dirloops
	bench/run.sh

python: staticlib
	python/build.sh
	python3 -m unittest discover -s python -t python
	python3 python/network_a.py

# Both are proved first, with what they stand on. What has not changed since is not proved again.
$(NETRUN): $(SOURCES)
	@make/prove.sh netrun >&2
	@touch $@

target/staticlib/libscript.a: $(SOURCES)
	@make/staticlib.sh script >&2

.DELETE_ON_ERROR:
.PHONY: run try test check oracle compare replay staticlib example rust bench python
