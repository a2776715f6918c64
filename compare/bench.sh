#!/bin/sh
# The benchmark: port and original in one process on the same data, both built for release. Prints its result and tables in Markdown.
#   sh compare/bench.sh                    all tables: some minutes, on a quiet machine
#   sh compare/bench.sh --quick            a look, with fewer rounds
#   sh compare/bench.sh reading storing    these tables only (reading, growth, storing, listing, load, span_at, parts, audit, durable, size, numbers)
#   SHIFT=32 sh compare/bench.sh           with the archive's code moved so many bytes in the link: where its loops lie matters (docs/PERFORMANCE.md)
#   sh compare/bench.sh --document         all tables, put into docs/PERFORMANCE.md from its section Result to its last section; its first sentence, on the older kit, is then to be changed by hand
set -eu
cd "$(dirname "$0")/.."
sh compare/build.sh bench load
if [ "${1:-}" != --document ]; then
    exec compare/target/release/bench "$@"
fi
shift
compare/target/release/bench "$@" >compare/target/bench.md
sed '/^## Result$/,$d' docs/PERFORMANCE.md >compare/target/performance.md
cat compare/target/bench.md >>compare/target/performance.md
echo >>compare/target/performance.md
sed -n '/^## What each change did$/,$p' docs/PERFORMANCE.md >>compare/target/performance.md
mv compare/target/performance.md docs/PERFORMANCE.md
