#!/usr/bin/env bash
# Writes make/seconds.txt anew: what each crate of crates.txt took when it was last proved here (target/log),
# or what the file has for one that was not.
set -euo pipefail
cd "$(dirname "${BASH_SOURCE[0]}")/.."
for name in $(sed -nE 's/^([a-z_]+)( staticlib)?:.*/\1/p' crates.txt); do
    took=$(cat "target/log/$name.seconds" 2>/dev/null || true)
    [ -n "$took" ] || took=$(sed -n "s/^$name //p" make/seconds.txt)
    [ -z "$took" ] || echo "$name $took"
done | sort >make/seconds.new
mv make/seconds.new make/seconds.txt
