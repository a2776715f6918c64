#!/bin/sh
# The archive of the exported calls, the program face_load, and the binaries of the test host that are named, which link the one and run the other.
# What is up to date is not made again: archive and program if they are younger than every file of the crates.
set -eu
cd "$(dirname "$0")/.."
sh compare/archive.sh
program=crates/face_load/out/face_load
if [ ! -f "$program" ] || [ -n "$(find crates crates.txt -name out -prune -o -type f -newer "$program" -print | head -n 1)" ]; then
    log=$(mktemp)
    trap 'rm -f "$log"' EXIT
    # proves and links it, and runs its sample once
    (cd crates/face_load && rt run <stdin) >"$log" 2>&1 || {
        cat "$log"
        exit 1
    }
    # rt leaves a program that is up to date as it is
    touch "$program"
fi
for binary; do
    set -- "$@" --bin "$binary"
    shift
done
cargo build --release --offline --quiet -j1 --manifest-path compare/Cargo.toml "$@"
