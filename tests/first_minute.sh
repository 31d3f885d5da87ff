#!/usr/bin/env bash
# What a new reader runs first. `make try` answers network A's script with no proof. make/prove.sh, behind
# `make run`, shows a line a crate and fails where a crate is not proved: tried on a stand-in that says what rt
# says.
set -euo pipefail
cd "$(dirname "${BASH_SOURCE[0]}")/.."
work=$(mktemp -d)
trap 'rm -rf "$work"' EXIT
fail() { echo "first minute: FAILED, $*"; exit 1; }

make/try.sh oracle/tests/network_a.script 2>"$work/said" | diff oracle/tests/network_a.answer - ||
    fail "make try ('>' is what it answered)"
grep -q 'nothing is proved' "$work/said" || fail "make try does not say what it is"

mkdir -p "$work/bin" "$work/make" "$work/crates/"{index,tables,rows,other,program}/src
cp make/prove.sh make/seconds.txt "$work/make"
cat >"$work/crates.txt" <<'END'
# one layer, one crate
index:
tables: index
rows: index tables
other: index
program: rows
END
touch "$work/crates/program/src/main.rt"
echo answered >"$work/crates/program/stdout"
cat >"$work/bin/rt" <<'END'
#!/bin/sh
case "${PWD##*/} $*" in
'index lib') ;;
'tables lib') echo "fn tables::b: proved" ;;
'rows lib')
    if [ "$BREAK" = yes ]; then
        echo "fn rows::c: not proved"
        exit 1
    fi
    echo "fn rows::c: proved"
    ;;
'program run')
    echo "fn program::d: proved" >&2
    echo answered
    ;;
*) exit 9 ;;
esac
END
chmod +x "$work/bin/rt"

# How long it takes, and the time left, are those of this run, so they are not compared.
prove() { PATH=$work/bin:$PATH BREAK=$1 "$work/make/prove.sh" program | sed -E 's/; about .* left$//; s/[0-9]+ s\)$/S s)/'; }
prove no >"$work/served"
diff - "$work/served" <<'END' || fail "a proof that is served"
proving 4 crates; the whole output is in target/log/make.log
1 of 4: index proved (unchanged since it was last proved)
2 of 4: tables proved (S s)
3 of 4: rows proved (S s)
4 of 4: program proved (S s)
program ran, and wrote what its file 'stdout' has
ok, 4 crates proved
END
grep -q '^fn tables::b: proved$' "$work/target/log/make.log" || fail "no whole log"
status=0
prove yes >"$work/refused" || status=$?
[ "$status" -eq 1 ] || fail "a proof that fails ends with $status"
diff - "$work/refused" <<'END' || fail "a proof that fails"
proving 4 crates; the whole output is in target/log/make.log
1 of 4: index proved (unchanged since it was last proved)
2 of 4: tables proved (S s)
fn rows::c: not proved
rt: rows NOT PROVED (exit 1, S s)
rt: program NOT PROVED: its dependency rows is not proved
FAILED: rows program
END
# a program that writes something else
echo "something else" >"$work/crates/program/stdout"
status=0
prove no >"$work/other" || status=$?
[ "$status" -eq 1 ] || fail "a program that writes something else ends with $status"
grep -q "^program ran, and what it wrote, .*, is not what its file 'stdout' has$" "$work/other" ||
    fail "a program that writes something else is not told"
echo "first minute: make try answers network A, and make run tells a line a crate"
