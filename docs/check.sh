#!/bin/sh
# The documents against the repository: what docs/CLAIMS.md names is defined there and every edit is cited, the refusals of README
# and header are the table's, no public function asks anything, and no file names a folder of one machine.
set -eu
cd "$(dirname "$0")/.."
bad=0
wrong() {
    echo "$*"
    bad=1
}

# whether a file defines a name: a function, module or type of the code, a definition or theorem of specs/ or proofs/
defines() {
    case $2 in
    *.antt) grep -qE "^ *((unfoldable|abbrev|pub|record|data) +)*$1( +[({].*)? +:" "$2" ;;
    *) grep -qE "(^|[ (])(fn|mod|struct|enum|int) $1([ ;(<:]|\$)" "$2" ;;
    esac
}

# a row of CLAIMS.md: | sentence | `name` | `file` | `CRATE/EDIT`, .. or - |
rows=$(grep -c '^| .* | `' docs/CLAIMS.md) || rows=0
while IFS='|' read -r _ sentence name file edit _; do
    name=$(printf '%s' "$name" | tr -d '` ')
    file=$(printf '%s' "$file" | tr -d '` ')
    [ -f "$file" ] && defines "$name" "$file" || wrong "docs/CLAIMS.md: $file does not define $name"
    case $file in
    compare/* | crates/face_* | */main.rt)
        printf '%s' "$sentence" | grep -q 'run, not proved' || wrong "docs/CLAIMS.md: the row of $name does not say that it is run, not proved"
        ;;
    esac
    for e in $(printf '%s' "$edit" | tr -d '`,'); do
        [ "$e" = - ] || [ -f "crates/${e%%/*}/must-fail/${e#*/}.edit" ] || wrong "docs/CLAIMS.md: there is no edit $e"
    done
done <<EOT
$(grep '^| .* | `' docs/CLAIMS.md)
EOT

edits=0
for path in crates/*/must-fail/*.edit; do
    e=${path#crates/}
    e=${e%%/*}/$(basename "$path" .edit)
    edits=$((edits + 1))
    grep -qF "\`$e\`" docs/CLAIMS.md || wrong "docs/CLAIMS.md: no claim cites the edit $e"
done

# the numbers of refusals, up to the largest that the definitions name
largest=$(sed -n 's/^largest = //p' crates/loc_calls/specs/Guarantees.antt)
n=1
while [ "$n" -le "$largest" ]; do
    grep -q "^| $n |" README.md || wrong "README.md: the table of refusals has no number $n"
    grep -qE "^    GURWYNELL_[A-Z_]+ = $n(,| ).*/\*" include/gurwynell.h || wrong "include/gurwynell.h: no refusal has the number $n"
    n=$((n + 1))
done

# no function that is called from outside asks anything of its caller
asked=$(awk '/^[ ]*pub (extern "C" )?fn /{name=$0} /^[ ]*{/{name=""} /^[ ]*requires/{if (name != "") print FILENAME": "name}' \
    crates/loc_leaf/src/*.rt crates/loc_index/src/*.rt crates/loc_exports/src/*.rt crates/loc_listing/src/*.rt crates/loc_number/src/*.rt \
    crates/loc_load/src/*.rt crates/loc_print/src/calls.rt crates/loc_print/src/listing.rt crates/loc_recovery/src/*.rt)
[ -z "$asked" ] || wrong "a public function has a 'requires': $asked"

folders=$(grep -rnE '/(work|opt|home|root|tmp)/[a-z]' --include='*.md' --include='*.rt' --include='*.antt' --include='*.sh' --include='*.edit' --exclude-dir=out --exclude-dir=target . |
    grep -v -e '^./docs/check.sh') || folders=
[ -z "$folders" ] || wrong "a folder of one machine is named: $folders"

[ "$bad" -eq 0 ] || exit 1
echo "documents: $rows claims, each defined where it is said to be; $edits edits, each cited; refusals 1 to $largest"
