#!/usr/bin/env bash
# Counts older forms in each crate's sources, by lines that a pattern finds: `tools/design/count.sh [FOLDER]`, where
# FOLDER is a checkout and this one if none is named. docs/DESIGN-PASS.md says what the rows are.
set -euo pipefail
cd "${1:-$(dirname "$0")/../..}"
crates='lists rules leaflet compose slot sheet gelumbrio demo'

# row POINT NAME COUNTS..
row() { printf '%-2s %-38s' "$1" "$2"; shift 2; printf ' %5d' "$@"; printf '\n'; }
code() { sed 's,//.*,,' crates/"$1"/src/*.rt; }
lines() { row "$1" "$2" $(for c in $crates; do code "$c" | grep -cE "$3" || true; done); }
files() { row 8 "$1" $(for c in $crates; do find "crates/$c/proofs" -name "$2" 2>/dev/null | wc -l; done); }
text() {
    row 8 "$1" $(for c in $crates; do find "crates/$c/$2" -name '*.antt' -exec cat {} + 2>/dev/null | wc -l; done)
}

printf '%-41s' ''
for c in $crates; do printf ' %5.5s' "$c"; done
printf '\n'
lines 1 'enums' '^ *(pub(\(crate\))? )?enum '
lines 1 'numbers for refusals' '\b(says|refusal|answer_at|damaged)\(|\.number (==|!=) 0|number: [0-9]+,'
lines 1 'small numbers as constants' '^(pub(\(crate\))? )?const [A-Z_0-9]+: u(8|32) = [0-9]+;'
lines 1 'a value that means none' '\.first == i|\.end == i|\.place < |^ *return n;|^    n$|let none = '
lines 3 'loops by hand' '^ *(.[a-z]+: )?while [^l]|^ *loop \{'
lines 3 'while let' '^ *while let '
lines 4 'derive(Clone, Copy) alone' 'derive\(Clone, Copy\)'
lines 4 'casts' '\bas (u8|u32|u64|usize)\b'
lines 4 'field: field' '^ +([a-z_0-9]+): \1,$'
lines 5 'the three metrics lent' '(advances|gaps|offsets): &'
lines 5 'the three tables lent' 'classes: &|spacing: &|words: &\[\[u64'
lines 5 'record words as a parameter' 'ws: &\[u32\]'
lines 5 'record count by hand' 'len\(\) / RECORD_WORDS'
lines 5 'slot start by hand' 'SLOT_WORDS \*'
lines 7 'flags and switches' 'last: bool|shrinks|fn in_turn|match (number|kind|call|q|t) '
files 'files of answers' Answers.antt
files 'files of invariants' Invariants.antt
row 8 'answers' $(for c in $crates; do
    find "crates/$c/proofs" -name Answers.antt -exec cat {} + 2>/dev/null | grep -cE '^[a-z][^ :]* (.* )?=( |$)' || true
done)
text 'lines of specs' specs
text 'lines of proofs' proofs
row '' 'lines of src' $(for c in $crates; do cat crates/"$c"/src/*.rt | wc -l; done)
