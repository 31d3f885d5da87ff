#!/usr/bin/env bash
# Proves the named crates and what they stand on (none named: all), the lowest first. Each is built where it is
# proved: a library for the crates above it, a static library as out/libNAME.a of its folder, and a program as
# out/NAME, which is run on its file stdin and held to its file stdout. Shows a line for each crate, with how
# many of how many and about how long the rest takes, and all that is said of one that is not proved. The whole
# output is in target/log/make.log. make/seconds.txt has what each crate took once (make/seconds.sh writes it).
set -uo pipefail
cd "$(dirname "${BASH_SOURCE[0]}")/.." || exit 2
log=target/log/make.log
mkdir -p target/log

declare -A took kind needs
while read -r name seconds; do took[$name]=$seconds; done <make/seconds.txt
while IFS=: read -r entry listed; do
    read -r name how <<<"$entry"
    needs[$name]=$listed
    if [ "$how" = staticlib ]; then kind[$name]=static
    elif [ -f "crates/$name/src/main.rt" ]; then kind[$name]=program
    else kind[$name]=library; fi
done < <(sed 's/#.*//' crates.txt | grep ':')

# The crates of crates.txt that the named ones reach, one to a line.
reached() {
    awk -F: -v named="$*" '
        /^#/ || !NF { next }
        { split($1, entry, " "); order[++count] = entry[1]; needs[entry[1]] = $2 }
        END {
            words = split(named, list, " ")
            for (i = 1; i <= words; i++) wanted[list[i]] = 1
            if (!words) for (i = 1; i <= count; i++) wanted[order[i]] = 1
            # a crate stands above what it needs, so once from below is enough
            for (i = count; i >= 1; i--) if (order[i] in wanted) {
                words = split(needs[order[i]], list, " ")
                for (j = 1; j <= words; j++) wanted[list[j]] = 1
            }
            for (i = 1; i <= count; i++) if (order[i] in wanted) print order[i]
        }' crates.txt
}

# Proves and builds a crate. What is said of it is in target/log/NAME.out, and a program's output in
# target/log/NAME.stdout.
proved() {
    local name=$1 out=$PWD/target/log/$1 input=/dev/null
    if [ "${kind[$name]}" = program ]; then
        [ ! -f "crates/$name/stdin" ] || input=stdin
        (cd "crates/$name" && rt run <"$input" 2>"$out.out" >"$out.stdout")
    else
        (cd "crates/$name" && rt lib </dev/null >"$out.out" 2>&1)
    fi
}

# Whether `rt` found it as it was when it was last proved: it then says nothing, or that it checked nothing.
unchanged() {
    local said=target/log/$1.out
    case ${kind[$1]} in
    library) [ ! -s "$said" ] ;;
    static) grep -q "^crate $1: modules loaded=[0-9]* checked=0$" "$said" ;;
    program) grep -q '^rt: nothing has changed since the last proved build' "$said" ;;
    esac
}

# Seconds as they are said.
about() { if [ "$1" -lt 90 ]; then echo "$1 s"; else echo "$((($1 + 30) / 60)) min"; fi; }

# What is told is in the whole output too.
tell() { printf '%s\n' "$@" | tee -a "$log.new"; }

all=0 left=0 seen=0 worked=0 failed=()
for name in $(reached "$@"); do
    [ -n "${kind[$name]:-}" ] || { echo "crates.txt has no $name"; exit 2; }
    all=$((all + 1)) left=$((left + ${took[$name]:-20}))
done
echo "proving $all crates; the whole output is in $log"
: >"$log.new"

for name in $(reached "$@"); do
    seen=$((seen + 1)) share=${took[$name]:-20} rest=
    left=$((left - share))
    lacking=
    for need in ${needs[$name]}; do
        for lost in "${failed[@]}"; do [ "$need" != "$lost" ] || lacking=$need; done
    done
    if [ -n "$lacking" ]; then
        failed+=("$name")
        tell "rt: $name NOT PROVED: its dependency $lacking is not proved"
        continue
    fi
    began=$SECONDS
    proved "$name"
    status=$? said=target/log/$name.out seconds=$((SECONDS - began))
    cat "$said" >>"$log.new"
    wrote=yes
    [ "${kind[$name]}" != program ] || cmp -s "target/log/$name.stdout" "crates/$name/stdout" || wrote=no
    if [ "$status" -ne 0 ] || [ "$wrote" = no ]; then
        failed+=("$name")
        cat "$said"
        if [ "$status" -ne 0 ]; then tell "rt: $name NOT PROVED (exit $status, $seconds s)"
        else tell "$name ran, and what it wrote, target/log/$name.stdout, is not what its file 'stdout' has"; fi
        continue
    fi
    if unchanged "$name"; then
        tell "$seen of $all: $name proved (unchanged since it was last proved)"
    else
        echo "$seconds" >"target/log/$name.seconds"
        worked=$((worked + share))
        [ "$left" -le 0 ] || rest="; about $(about $((left * SECONDS / worked))) left"
        tell "$seen of $all: $name proved ($seconds s)$rest"
    fi
    [ "${kind[$name]}" != program ] || tell "$name ran, and wrote what its file 'stdout' has"
done
if [ "${#failed[@]}" -eq 0 ]; then tell "ok, $all crates proved"; else tell "FAILED: ${failed[*]}"; fi
mv "$log.new" "$log"
[ "${#failed[@]}" -eq 0 ]
