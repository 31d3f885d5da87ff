#!/usr/bin/env bash
# Answers a script by `netrun` with no proof: `rt try` runs the sources on an interpreter and compiled with
# checks, which must agree, and tells what the program wrote.
set -euo pipefail
script=$(realpath "${1:?a script}")
cd "$(dirname "${BASH_SOURCE[0]}")/../crates/netrun"
said=$(mktemp)
trap 'rm -f "$said"' EXIT

echo "netrun with no proof: these answers are what the sources do, and nothing is proved by them" >&2
rt try <"$script" 2>"$said" || { cat "$said" >&2; exit 1; }
# where only one of the two came to an end, why
grep -q ' runners=2 ' "$said" || grep 'no-answer' "$said" >&2
