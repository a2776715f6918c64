#!/bin/sh
# Every check of this repository. The last line is rt's: 'N passed, 0 failed'.
# Needs the Rattle kit (`rt`) and a POSIX shell; the header's example also needs cc and c++, the comparison with the original cargo
# and ../shared.
set -eu
cd "$(dirname "$0")"

failed=0
sh docs/check.sh || failed=1

kept=$(mktemp -d)
trap 'rm -rf "$kept"' EXIT
{ rt ci 2>&1 && echo 0 >"$kept/rt" || echo 1 >"$kept/rt"; } | tee "$kept/output"
proved=$(cat "$kept/rt")
[ "$proved" -eq 0 ] || failed=1

# an edit that cannot be tried fails nothing in rt ci, and is told on its line 'rt: ok': here it fails
if grep '^rt: ok' "$kept/output" | grep -qE ', [1-9][0-9]* bad'; then
    echo "must-fail edits that say nothing, see above: mend them"
    failed=1
fi

# then what runs on the crates that it has proved
left=
if [ "$proved" -ne 0 ]; then
    left="the header's example and the comparison with the original were not run: the check of the crates failed"
elif ! sh compare/archive.sh; then
    failed=1
    left="the header's example and the comparison with the original were not run: the archive of the exported calls was not made"
else
    if command -v cc >/dev/null 2>&1 && command -v c++ >/dev/null 2>&1; then
        sh compare/linking/run.sh || failed=1
    else
        left="the header's example was not run: there is no cc and c++. "
    fi
    if ! command -v cargo >/dev/null 2>&1; then
        left="${left}The comparison with the original was not run: there is no cargo"
    elif [ ! -d "${ORIGINAL:-../shared/docs/src}" ]; then
        left="${left}The comparison with the original was not run: its source is not at ../shared/docs/src"
    else
        sh compare/run.sh || failed=1
    fi
fi

[ "$failed" -eq 0 ] || echo "a check failed, see above"
echo "not run: ${left:-nothing}"
tail -n 1 "$kept/output"
exit "$failed"
