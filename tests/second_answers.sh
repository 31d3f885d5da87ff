#!/usr/bin/env bash
# Every public function of a library stands in the list of second answers (crates/demands/proofs/Settled*.antt), once, by its own name, and
# as one that takes every input unless it is a part. A call for C (crates/*_c, on which no crate can stand) has parameters, result and clauses
# of the function of its name in its library, word for word, and so is settled as that one is.
set -euo pipefail
cd "$(dirname "${BASH_SOURCE[0]}")/.."

# crate, module, type and function of each `pub fn` of a library, as the list names it: tables.parts.fits, index.NodeIndex.is_end
functions() {
    local file crate place
    find crates/*/src -name '*.rt' | while read -r file; do
        crate=${file#crates/} crate=${crate%%/*}
        [ -f "crates/$crate/src/lib.rt" ] || continue
        [ "${crate%_c}" = "$crate" ] || continue
        place=${file#"crates/$crate/src/"} place=${place%.rt} place=${place//\//.}
        [ "$place" = lib ] && place=$crate || place=$crate.$place
        awk -v place="$place" '
            # of an impl of a type what is pub; of `impl From<usize> for EdgeDirection` all, as EdgeDirectionFromUsize
            function plain(word) { sub(/^\(\)$/, "Unit", word); gsub(/[^A-Za-z0-9_]/, "", word); return toupper(substr(word, 1, 1)) substr(word, 2) }
            function pair(word,  both) { return split(word, both, ", ") == 2 ? "Tuple2" plain(both[1]) plain(both[2]) : plain(word) }
            /^impl/ {
                line = $0
                sub(/^impl(<[^>]*>)? /, "", line)
                sub(/ *\{.*$/, "", line)
                all = split(line, sides, " for ") == 2
                split(all ? sides[2] : sides[1], words, "<")
                type = "." (all ? pair(sides[2]) : words[1])
                if (all) { parts = split(sides[1], words, /[<>, ]+/); for (i = 1; i <= parts; i++) type = type plain(words[i]) }
            }
            /^}/ { type = ""; all = 0 }
            match($0, /^ *pub (extern "C" )?fn [a-z0-9_]+/) || (all && match($0, /^ *fn [a-z0-9_]+/)) {
                name = substr($0, RSTART, RLENGTH)
                sub(/.* /, "", name)
                print place type "." name
            }' "$file"
    done | sort
}

# the function of each line of the list; a line that names two, takes less than every input where it is no part, asks for something, goes on behind
# its end, or is of one type or width alone is told whole. A generic function is settled for every type, in a module that has the type and what its
# bounds give (`module _ (T : RattleType) (lt : Laws T) ..`), and one with a width behind `(K : RattleType) (f : Fits w64 (value_of K)) → `.
listed() {
    awk '
        # the names of such a head, which the contract takes in this order, and of these the types; none where it asks for anything else
        function read_head(head,  binder, kind) {
            names = types = ""
            gsub(/^module _ *| *where *$/, "", head)
            while (match(head, /^\([^()]*\) */)) {
                binder = kind = substr(head, 1, RLENGTH)
                head = substr(head, RLENGTH + 1)
                gsub(/^\(| :.*/, "", binder)
                gsub(/.* : |\) *$/, "", kind)
                names = names " " binder
                if (kind == "RattleType") types = types " " binder
                else if (kind !~ /^(Dict|(Laws|IsCopy) [A-Z]|([A-Za-z]+\.)?Ghosts( [A-Z]\.Denot)+)$/) head = "more"
            }
            if (head != "") types = ""
        }
        # what is said of a generic function, without the arguments: its types first, and all that the head has; nothing else may stand there
        function plain(line, types, names) {
            if (types == "" || line !~ "^Settles [(][^ ()]+[.]ended" types "( [^()]*)?[)] [(][^ ()]+[.]Reads[.]Post" names "[)]$") return ""
            sub(/^Settles \(/, "Settles ", line)
            sub(/\.ended [^()]*\) \(/, ".ended ", line)
            sub(/\.Reads\.Post .*\)$/, ".Reads.Post", line)
            return line
        }
        # behind a line stands the definition of its name
        lemma != "" { if ($1 != lemma) print "goes on: " lemma; lemma = "" }
        /^module / { head = ""; within = 1 }
        within { sub(/^ */, " "); head = head $0 }
        within && / where *$/ { sub(/^ /, "", head); read_head(head); within = 0; next }
        within { next }
        /^[^ ]/ || /^ +(private +)?module / || /^   +pub / { types = "" }
        !/^ *pub [^ ]+ : (.* → )?Settles(All)? / { next }
        {
            lemma = $2
            within_module = /^ /
            sub(/^ *pub [^ ]+ : /, "")
            whole = $0
            if (within_module) $0 = plain($0, types, names)
            else if (sub(/^\(K : RattleType\) \(f : Fits w64 \(value_of K\)\) → /, "")) $0 = plain($0, " K", " [(]value_of K[)] f")
            contract = $2
            sub(/\.ended$/, "", contract)
            name = contract
            sub(/_contracts\./, ".", name)
            all = "SettlesAll " contract ".ended " name ".Reads.Pre " name ".Reads.Post"
            part = "Settles " contract ".ended " name ".Reads.Post"
            print ($0 != "" && ($0 == all || ($0 == part && name ~ /\.parts\./))) ? name : whole
        }
        END { if (lemma != "") print "goes on: " lemma }' crates/demands/proofs/Settled*.antt | sort
}

# the promise of each public function of a file, one to a line: its name, parameters, result and clauses
promises() {
    awk '
        /^pub (extern "C" )?fn / { promise = ""; within = 1; sub(/extern "C" /, "") }
        within && /^{/ { print promise; within = 0 }
        within { promise = promise " " $0 }' "$1" | sed 's/  */ /g' | sort
}

for folder in crates/*_c; do
    library=${folder%_c}
    if ! comm -23 <(promises "$folder/src/lib.rt") <(promises "$library/src/lib.rt") | { ! grep .; }; then
        echo "second answers: FAILED (a call for C of $folder promises other than the function of its name in $library, or has none there)"
        exit 1
    fi
done

found=$(functions)
if ! diff <(printf '%s\n' "$found") <(listed); then
    echo "second answers: FAILED ('<' is missing from the list, '>' is no such function)"
    exit 1
fi
echo "second answers: all $(printf '%s\n' "$found" | wc -l) public functions are in the list"
