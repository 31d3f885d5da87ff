#!/usr/bin/env bash
# Builds the bench, with petgraph where Debian's librust-petgraph-dev has put its source, and writes docs/BENCH.md.
# One core does all of it, so that no run pays for a move to another.
set -euo pipefail
cd "$(dirname "${BASH_SOURCE[0]}")"

registry=${PETGRAPH_REGISTRY:-/usr/share/cargo/registry}
cargo=(cargo build --release --offline --quiet)
bench=target/release/bench
if compgen -G "$registry/petgraph-0.6.*" >/dev/null; then
    # The package's own sources stand in for the registry, and no lock can know their checksums.
    rm -f petgraph/Cargo.lock
    cargo+=(--manifest-path petgraph/Cargo.toml)
    cargo+=(--config 'source.crates-io.replace-with="debian"' --config "source.debian.directory=\"$registry\"")
    bench=petgraph/target/release/bench-petgraph
fi
"${cargo[@]}"

pin=()
command -v taskset >/dev/null && pin=(taskset -c "${CORE:-$(($(nproc) - 1))}")
"${pin[@]}" "$bench" ../docs/BENCH.md
