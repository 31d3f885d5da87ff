#!/usr/bin/env bash
# docs/PROOFS.md: every name behind 'Shown by' is declared in a file behind 'In', and its edits are those of crates/*/must-fail.
set -euo pipefail
cd "$(dirname "${BASH_SOURCE[0]}")/.."
page=docs/PROOFS.md
failed=0

# an item of the page on one line: its first line's number, and its text
items() {
    awk '
        function tell() { if (item) print line "\t" item; item = "" }
        /^- / { tell(); line = NR; item = substr($0, 3); next }
        /^  [^ ]/ && item { item = item " " substr($0, 3); next }
        { tell() }
        END { tell() }' "$page"
}

# line, name and files of each name in backticks; 'the same' stands for the files of the item above, and a path of no crate is of the crate named last
names() {
    items | awk -F'\t' '
        !/ Shown by: .* In: / { next }
        {
            text = $2
            sub(/^.* Shown by: /, "", text)
            where = text
            sub(/^.* In: /, "", where)
            sub(/\.$/, "", where)
            sub(/ In: .*$/, "", text)
            count = split(where, places, /[;,] */)
            files = ""
            for (i = 1; i <= count; i++) {
                place = places[i]
                if (place == "the same") { files = files " " above; continue }
                if (match(place, /^crates\/[a-z]+/)) crate = substr(place, RSTART, RLENGTH)
                else if (place ~ /^(src|specs|proofs)(\/|$)/) place = crate "/" place
                files = files " " place
            }
            above = files
            while (match(text, /`[^`]+`/)) {
                print $1 "\t" substr(text, RSTART + 1, RLENGTH - 2) "\t" files
                text = substr(text, RSTART + RLENGTH)
            }
        }'
}

# a declaration of antt, or of Rattle; elsewhere the name as a word
declared() {
    local name=$1
    shift
    find "$@" -type f \( -name '*.antt' -exec grep -Eqs "^ *((abbrev|unfoldable|pub|record|data) )*$name( |\$)" {} \; -print -quit \
        -o -name '*.rt' -exec grep -Eqs "(fn|struct|enum|const) $name([^a-zA-Z0-9_]|\$)" {} \; -print -quit \
        -o ! -name '*.antt' ! -name '*.rt' -exec grep -Fqsw -e "$name" {} \; -print -quit \) | grep -q .
}

while IFS=$'\t' read -r line name places; do
    files=()
    for file in $places; do
        if [ -e "$file" ]; then files+=("$file"); else echo "$page:$line: no file $file"; failed=1; fi
    done
    declared "${name##*::}" "${files[@]}" || { echo "$page:$line: '$name' is not declared in $places"; failed=1; }
done < <(names)

edits() { for edit in crates/*/must-fail/*.edit; do edit=${edit#crates/} edit=${edit%.edit}; echo "${edit/\/must-fail\///}"; done | sort; }
told() { items | sed -n 's/^.* Edit: \(.*\)\. No longer holds: .*$/\1/p' | tr ',' '\n' | sed 's/^ *//; s/ *$//' | sort; }
diff <(edits) <(told) || { echo "$page: '<' is an edit that is not told, '>' is no edit"; failed=1; }

[ "$failed" -eq 0 ] || { echo "proofs page: FAILED"; exit 1; }
echo "proofs page: $(names | wc -l) names are declared where it says, $(edits | wc -l) edits are told"
