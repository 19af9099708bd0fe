#!/usr/bin/env bash
# Counts the places that docs/DESIGN-PASS.md speaks of, by point. Takes the folder that has crates/ (else this repository), such as what
# `git archive a78a93a crates | tar x -C FOLDER` lays down.
cd "${1:-$(dirname "$0")/..}" || exit 1
S=$(ls crates/*/src/*.rt)
count() { printf '%-58s %s\n' "$1" "$(grep -hE "$2" $S | wc -l)"; }
count '1 enums, all read' '^ *(pub(\([a-z]+\))? )?enum '
count '1 arms for None, all read' '^ *None =>'
count '1 arms from a variant to a number' '=> [0-9]+,$'
count '1 Err(anyhow!(..))' 'Err\(anyhow!'
count '2 a length beside an array' '^ *(pub(\([a-z]+\))? )?len: usize,'
count '2 loops that fill rows' 'rows\[a\] = '
count '2 loops that gather bits' '\|= '
count '2 words read by a function each' 'words::[a-z]+\(.*self\.word\(\)\?\)'
count '2 statements read by a function each' 'fn (load|store|exchange|add|fence)\(&mut self\)'
count '2 parts of a text read by a function each' 'fn (statements_after|thread|lines_after|program)\(cursor'
count '2 name functions of enums' 'fn name\(self\)'
count '3 while' '^ *while '
count '3 for over a range' 'for [a-z_]+ in .*\.\.'
count '4 functions that convert or compare' 'fn (agree|compare|named|kind|register|location|operand|index)\('
count '7 a match on which test, base or layer' 'match (property|pairs|base|\*layer|at) \{'
echo '5 clauses that stand in three or more contracts:'
grep -hoE '(requires|ensures)[^{]*\{.*\}' $S | sed -E 's/^(requires|ensures)[^{]*//' | sort | uniq -c | awk '$1 > 2' | sort -rn
echo '6 arrays in structs:'
grep -nE '^    (pub(\([a-z]+\))? )?[a-z]+: \[.*; .*\],' $S
proofs() { find crates -path '*/proofs/*' -name "$1" -not -path '*/out/*'; }
echo "8 lines of proofs $(proofs '*.antt' | xargs cat | wc -l), answers $(proofs Answers.antt | wc -l), invariants $(proofs Invariants.antt | wc -l)"
