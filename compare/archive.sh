#!/bin/sh
# The archive of the exported calls, crates/loc_exports/out/libloc_exports.a. One that is younger than every file of the crates is not made again.
set -eu
cd "$(dirname "$0")/.."
archive=crates/loc_exports/out/libloc_exports.a
[ ! -f "$archive" ] || [ -n "$(find crates crates.txt -name out -prune -o -type f -newer "$archive" -print | head -n 1)" ] || exit 0
log=$(mktemp)
trap 'rm -f "$log"' EXIT
(cd crates/loc_exports && rt lib) >"$log" 2>&1 || {
    cat "$log"
    exit 1
}
