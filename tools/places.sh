#!/usr/bin/env bash
# Counts the places of docs/DESIGN-PASS.md in the sources, a line a command: run it at the top of a checkout.
set -eu
cd "$(dirname "$0")/.."
src() { find crates -path '*/src/*.rt' -not -path '*/out/*' | sort; }
count() { # LABEL PATTERN
    printf '%5d  %s\n' "$(src | xargs grep -hE "$2" | wc -l)" "$1"
}

count '1 enums' '^(pub )?enum'
count '1 tests on the number of an answer' 'number(\(\))? != 0'
count '1 refusals given as numbers' 'refuse\(emission, [0-9]'
count '1 tests for the number of an unset cell' '[!=]= UNSET'
count '3 loops' '^ *(while|for) '
count '3 loops that count an index' '^ *(while .*<|for [a-z_]+ in [^{]*\.\.)'
count '4 comparisons of the number in a wrapper' '\.0 [!=]= [a-z_.():]*\.0'
count '4 fields copied from a value of the same type' '^ *([a-z_]+): (self|walk|session|g|x)\.\1,$'
count '4 functions for the number, place or reason of an answer' 'fn (number|place|reason)\(self'
count '6 arrays with a count beside them' '\[u[0-9]+; [0-9A-Z_]+\], (n|count|used)\b|^ *numbers: \[u32; 6\],'
count '6 a struct written as an array, by its index' '\[(OBJECTS|RAWS|NEXT|WRITTEN|REFUSAL)\]'
count '7 parameters that say which of two steps to run' 'create: bool'

# 5: clauses with one text in three functions or more, and functions that take four or more of the stores one by one.
printf '%5d  5 requires clauses of one text in three or more functions\n' \
    "$(src | xargs grep -hoE 'requires( [a-z_0-9]+)? \{ .* \}$' | sed -E 's/requires( [a-z_0-9]+)? //' | sort | uniq -c | awk '$1 > 2 { s += $1 } END { print s + 0 }')"
printf '%5d  5 functions with four or more of the stores as parameters\n' \
    "$(src | xargs awk '/fn [a-z_]+[(<]/ { f = 1; n = 0 } f && /(^|[ (])(kinds|objects|messages|named|certificates|terms|rows): &/ { n += gsub(/(^|[ (])(kinds|objects|messages|named|certificates|terms|rows): &/, "") } f && /\)( ->|$| *\{)/ { if (n > 3) s++; f = 0 } END { print s + 0 }')"
# 8: what proofs there are.
printf '%5d  8 files of answers and invariants\n' "$(find crates -path '*/proofs/*' \( -name Answers.antt -o -name Invariants.antt \) -not -path '*/out/*' | wc -l)"
printf '%5d  8 answers\n' "$(find crates -path '*/proofs/*' -name Answers.antt -not -path '*/out/*' | xargs grep -hE '^pub [^:]* : goal\.' | wc -l)"
printf '%5d  8 lines of proofs\n' "$(find crates -path '*/proofs/*' -name '*.antt' -not -path '*/out/*' | xargs cat | wc -l)"
