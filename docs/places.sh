#!/bin/sh
# How many places of each point of docs/DESIGN-PASS.md are in src/, counted by text; with --list they are listed.
set -eu
cd "$(dirname "$0")/.."
list=${1:-}
count() {
    name=$1
    shift
    found=$("$@" || true)
    echo "$name: $(printf '%s' "$found" | grep -c . || true)"
    [ "$list" != --list ] || printf '%s\n' "$found" | sed 's/^/    /'
}
src() {
    grep -rnE "$1" crates/*/src
}
functions() {
    src "fn ($1)(<[^(]*>)?\\("
}
count "1 own enums like Option or Result" src '^ *(pub )?enum (Lookup|Number|Line|Row|Step|Sum) '
count "1 structs of a refusal number and a value" src '^ *(pub )?struct (Answer|Checked|CheckedBatch|Decision|End|Taken|Request|Part|SpanAt) \{'
count "1 functions that answer a refusal's number" functions 'break_number|own_number|record_number|start_refusal|fields_refusal|raised_fault|pair_fault|least_fault|first_fault|pairs_refusal|open_refusal|call_refusal|finish_range_batch'
count "1 functions that tell none by a number" functions 'find_row|search_row|one_window|pairs_end|number_before|names_text|line_text|window_text|refused_text'
count "2 functions with a twin" functions '(pair|single)_(plain|rows|blocks|records|words)|(put|read)_(few|many)|put_(six|three)|(first_)?(two|four|eight)|u(16|32|64)_at|(zero|empty)_nibble|none_(zero|empty)|(even_)?full|(first|strides)_total|fitting(_words|_counts)?|first_(bytes|words|counts)|part(_words)?'
count "2 public functions of the single kind beside those of the paired" sh -c "grep -rnE 'pub (extern \"C\" )?fn ' crates/loc_index/src crates/loc_recovery/src crates/loc_exports/src | grep delta_loc"
count "3 loops by while" src "^ *('[a-z]+: )?while "
count "4 by hand what the library or a derive has" functions 'lesser|larger|least|saturating_add|one_if|row_bit|comes_before|copy_keys|copy_words|copy_slots|put_bytes|begins|same|copied|moved|told|is_end|number_of|in_range|in_order|block_end'
count "5 functions that take three areas one by one" src 'slots: &(mut )?\[u8\],?'
count "5 functions that take the four lists one by one" src 'span_starts: &(mut )?\[u64'
count "6 arrays with a length beside them, lists filled side by side" src 'list: &(mut )?\[u64; 1040\]|(starts|lens|span_counts): &mut \[u(32|64)'
count "7 switches on the step to run" src 'place == [0-9]|Storing::[A-Z]|whole: bool|letter == b'
count "8 answers" sh -c "grep -rhE '^pub [^ ]+ : goal\\.' crates/*/proofs --include=Answers.antt"
count "8 proof files of functions" sh -c "find crates -path '*/proofs/*' \\( -name Answers.antt -o -name Invariants.antt \\) -not -path '*/out/*'"
