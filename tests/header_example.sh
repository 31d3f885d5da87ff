#!/usr/bin/env bash
# The header's example, include/example.c: compiled by gcc against the static libraries that make/staticlib.sh
# has written (or those of the directory WATERWAYS_LIB), run, and held to include/example.out. The header is
# read by itself, too, as C and where there is g++ as C++.
set -euo pipefail
cd "$(dirname "${BASH_SOURCE[0]}")/.."
lib=${WATERWAYS_LIB:-target/staticlib}
work=$(mktemp -d)
trap 'rm -rf "$work"' EXIT

strict=(-Iinclude -Wall -Wextra -Wpedantic -Werror)
echo '#include "waterways.h"' | gcc -x c "${strict[@]}" -fsyntax-only -
! command -v g++ >/dev/null || echo '#include "waterways.h"' | g++ -x c++ "${strict[@]}" -fsyntax-only -
libraries=("$lib"/lib{exportrows,exportlists,exportremovals,exportdirectory}.a)
gcc -std=c11 -O1 "${strict[@]}" include/example.c "${libraries[@]}" -o "$work/example"
"$work/example" >"$work/out"
if ! diff include/example.out "$work/out"; then
    echo "header example: FAILED ('<' is include/example.out, '>' what the example printed)"
    exit 1
fi
echo "header example: compiled, run, and it printed what include/example.out has"
