#!/usr/bin/env bash
# Proves the calls for C of the named libraries, the crates NAME_c, with what they stand on, and writes each as
# target/staticlib/libNAME.a.
set -euo pipefail
cd "$(dirname "${BASH_SOURCE[0]}")/.."
make/prove.sh "${@/%/_c}"
mkdir -p target/staticlib
for name; do
    cp "crates/${name}_c/out/lib${name}_c.a" "target/staticlib/lib$name.a"
    echo "target/staticlib/lib$name.a written"
done
