#!/usr/bin/env bash
# The pages for readers: no line is longer than 110 characters; every file that they name is there;
# docs/CRATES.md has the crates of crates.txt, each once; and docs/DIFFERENCES.md names the tests of
# rust/tests/differences.rs, all of them and no other.
set -euo pipefail
cd "$(dirname "${BASH_SOURCE[0]}")/.."
export LC_ALL=C.UTF-8
pages=(README.md NOTICE oracle/README.md docs/{ANSWERS,COMMANDS,CRATES,DECISIONS,DIFFERENCES,LANGUAGES,PROOFS,TRUST}.md docs/landings/*.md)
failed=0
fail() { echo "pages: $*"; failed=1; }

for file in "${pages[@]}" bench/head.md bench/limits.md include/* python/*.* python/waterways/*.py python/tests/*.py; do
    long=$({ grep -nE '^.{111,}$' "$file" || true; } | cut -d: -f1 | tr '\n' ' ')
    [ -z "$long" ] || fail "$file has lines of more than 110 characters: $long"
done

# A file with its folder and an ending, seen from the root or from the page. The names of other projects'
# files begin otherwise.
folders='crates|docs|include|make|oracle|python|rust|tests|bench'
endings='antt|c|h|md|out|py|rs|rt|script|sh|svg|txt'
named="(^|[^A-Za-z0-9_./])($folders)/[A-Za-z0-9_./-]*\.($endings)"
for page in "${pages[@]}"; do
    for path in $({ grep -oE "$named" "$page" || true; } | sed -E 's,^[^a-z]*,,' | sort -u); do
        [ -e "$path" ] || [ -e "$(dirname "$page")/$path" ] || fail "$page names $path, which is not there"
    done
done

listed() { sed -nE 's/^([a-z_]+)( staticlib)?:.*/\1/p' crates.txt | sort; }
told() { sed -nE 's/^\| `([a-z_]+)` \|.*/\1/p' docs/CRATES.md | sort; }
diff <(listed) <(told) || fail "docs/CRATES.md: '<' is a crate that it lacks, '>' is none"

tests() {
    awk '/^#\[test\]/ { getline; sub(/^fn /, ""); sub(/\(.*/, ""); print }' rust/tests/differences.rs | sort
}
shown() {
    {
        # the last column of a table, and what stands behind 'Test'
        sed -nE 's/^\|.*\| `([a-z_]+)` \|$/\1/p' docs/DIFFERENCES.md
        tr '\n' ' ' <docs/DIFFERENCES.md | grep -oE '[Tt]ests?: +`[a-z_]+`' | sed -E 's/.*`(.*)`/\1/'
    } | sort -u
}
diff <(tests) <(shown) || fail "docs/DIFFERENCES.md: '<' is a test that it does not name, '>' is none"

[ "$failed" -eq 0 ] || { echo "pages: FAILED"; exit 1; }
echo "pages: ${#pages[@]} pages, $(told | wc -l) crates, $(tests | wc -l) tests of differences"
