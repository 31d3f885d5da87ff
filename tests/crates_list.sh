#!/usr/bin/env bash
# crates.txt: a crate lists just what it uses. A crate is used where a source file calls it, or where a file names its definitions or its laws.
set -euo pipefail
cd "$(dirname "${BASH_SOURCE[0]}")/.."
failed=0

# whether crate $1 uses crate $2
uses() {
    local parts=()
    for part in "crates/$1/src" "crates/$1/specs" "crates/$1/proofs"; do [ ! -d "$part" ] || parts+=("$part"); done
    grep -rqE "Rattle\.$2([^a-z_]|\$)" "${parts[@]}" || grep -rqE "(^|[^a-z_])$2::|^ *use $2;" "crates/$1/src"
}

entries=0
while IFS=: read -r name listed; do
    name=${name% staticlib}
    for entry in $listed; do
        entries=$((entries + 1))
        uses "$name" "$entry" || { echo "crates.txt: $name lists $entry and does not use it"; failed=1; }
    done
done < <(sed 's/#.*//' crates.txt | grep ':')

[ "$failed" -eq 0 ] || { echo "crates list: FAILED"; exit 1; }
echo "crates list: each of the $entries entries is used"
