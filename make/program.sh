#!/usr/bin/env bash
# Runs NAME, a program that `rt` has proved and built as crates/NAME/out/NAME: make/program.sh NAME.
set -euo pipefail
exec "$(dirname "${BASH_SOURCE[0]}")/../crates/$1/out/$1"
