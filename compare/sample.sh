#!/bin/sh
# Writes the sample of the original's answers that loc_replay replays, and what loc_replay has to print.
# The sample is the same at every run: its seeds are fixed.
set -eu
cd "$(dirname "$0")/.."
sh compare/build.sh sample
said=$(compare/target/release/sample crates/loc_replay/data/answers)
echo "$said"
answers=$(printf "%s" "$said" | sed -n "s/.* cases, \([0-9]*\) answers.*/\1/p")
echo "$answers answers of the original replayed, 0 differ" >crates/loc_replay/stdout
