#!/usr/bin/env bash
# Makes target/libwaterways.so, for Python and its like, from the static libraries that make/staticlib.sh
# has written. WATERWAYS_LIB names another directory of these, WATERWAYS_SO another file.
set -euo pipefail
cd "$(dirname "${BASH_SOURCE[0]}")/.."
lib=${WATERWAYS_LIB:-target/staticlib}
libraries=("$lib"/lib{exportrows,exportlists,exportremovals,exportdirectory}.a)
for library in "${libraries[@]}"; do
    [ -f "$library" ] || { echo "python/build.sh: no $library (make staticlib writes it)" >&2; exit 1; }
done
gcc -shared -o "${WATERWAYS_SO:-target/libwaterways.so}" \
    -Wl,--whole-archive "${libraries[@]}" -Wl,--no-whole-archive
