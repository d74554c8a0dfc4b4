#!/usr/bin/env bash
# Counts, in src/ of all crates at a commit, the lines where code may read like an older Rattle: usage: tools/places.sh COMMIT [-v]
# With -v the lines are printed too. docs/DESIGN-PASS.md has the counts and what became of them; the numbers are its points.
commit=${1:?usage: tools/places.sh COMMIT [-v]}
count() {
  local found
  found=$(git grep -nE "$2" "$commit" -- ':(glob)crates/*/src/**' | sed "s/^$commit:crates.//")
  printf '%-58s %3d\n' "$1" "$(printf '%s' "$found" | grep -c '')"
  [ "$3" = -v ] && printf '%s\n' "$found" | sed 's/^/    /'
}
count '1a numbers for kinds of frame' 'kind: u8|\(slot, [1-7], head|^ +[1-7]( \| [1-7])* =>|\((7|3 \| 6), [0-9]+\)|\(u8, usize\)' "$2"
count '1b numbers told by a match' '[A-Z][A-Za-z]+::[A-Z][A-Za-z]+ => [0-9]+,' "$2"
count '1c nothing and fault as cases of an own enum' 'Request::(Comment|Unknown)' "$2"
count '1d flags passed along' ': bool[,)]' "$2"
count '2  parsers and tests that repeat one another' 'fn (quote|curve|numbers|all_numbers|quote_bytes|frame|refused|fault)[(<]|fn (plain|with_copy|update).*(kind|slot)' "$2"
count '3a loops' '^ *(for|while|loop)\b' "$2"
count '3b counts and flags kept by hand' '(count|rest|sum|more|all) (\+=|/=|=) |let mut (count|rest|sum|more|all)\b|0\.\.LARGEST_GROUP' "$2"
count '4a printing and numbers' 'fn (number|words|name_of)\(|impl .*Display' "$2"
count '4b conversions and comparisons by hand' 'Rate \{ value|\.value;|assert.*; (head|operation|count|members|content),?( ==|$| )' "$2"
count '5a the length of a slot in a requires' 'requires .*slot_size' "$2"
count '5b slot and place' 'slot: &(mut |.a )?\[u8(; SLOT)?\], at: usize' "$2"
count '6  a count beside what it counts' 'count: u8|size: u8,$' "$2"
count '7  a switch on what to do' 'match (first|name) \{|winning: bool' "$2"
files() { git ls-tree -r --name-only "$commit" crates | grep -E "$1"; }
printf '%-58s %3d\n' '8  files of answers and invariants' "$(files 'proofs/.+/(Answers|Invariants)\.antt$' | wc -l)"
printf '%-58s %5d\n' '   lines of proofs (proofs/ and laws in specs/)' "$(files '/proofs/|specs/(.*Laws|Meeting|Weights)\.antt$' | while read -r f; do git show "$commit:$f"; done | wc -l)"
