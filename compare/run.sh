#!/bin/sh
# The comparison with the original: builds the exported calls, the program face_load and the test host, then runs cases on both.
#   sh compare/run.sh                    what the gate runs: some minutes with the build
#   sh compare/run.sh --seconds 3600 --seed 2      a longer run, with other cases (the gate's seed is 1)
#   sh compare/run.sh --one SEED         one history again, and the listings, addresses, pairs and load of its seed; a difference prints it
# Needs rt, cargo and the original's source at ../shared/docs/src (or where ORIGINAL says, an absolute path).
set -eu
cd "$(dirname "$0")/.."
sh compare/build.sh compare
[ $# -gt 0 ] || set -- --histories 60000
exec compare/target/release/compare "$@"
