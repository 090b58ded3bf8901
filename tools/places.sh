#!/bin/sh
# Counts, in the src/ of a commit (HEAD where none is named), the places that docs/DESIGN-PASS.md speaks of: one line for each
# kind of place, its count, or with `-l` the places themselves. Tests are left out.
set -u
list=0
[ "${1:-}" = -l ] && { list=1; shift; }
commit=${1:-HEAD}
cd "$(dirname "$0")/.." || exit 2

# Lines of src/ that a pattern matches.
lines() { # PATTERN
    git grep -nE -e "$1" "$commit" -- 'crates/*/src/*.rt' | grep -v '/tests\.rt:' | sed "s|^$commit:||"
}

count() { # NAME PATTERN
    if [ $list = 1 ]; then
        echo "== $1"
        lines "$2"
    else
        printf '%4d  %s\n' "$(lines "$2" | wc -l)" "$1"
    fi
}

count '1  checks that answer an Option of a refusal or of a stop' '-> Option<(Refusal|Stop)>'
count '1  refusals passed on or made by a match' 'Err\((why|_)\) => (return )?Err\(|None => (return )?Err\(|return Err\(\(?(self, )?why\)|let .* else \{$'
count '1  a case of an enum that stands for none' '^    (Stray|Wrong),'
count '1  refusals numbered by a match' 'Refusal::[A-Z][a-z]+ => [0-9]+,'
count '2  operations on two values by their numbers, each with its look-ups' 'let u = scale\.value\(i\)'
count '2  ranges of a maker' 'if [nk] >= [0-9]+ && [nk] <= [0-9]+'
count '2  where a cut stands in two parts; the size of two parts' 'if j < h \{|size\(\) as u64 \*'
count '2  a test tried on values, pairs, triples' 'fn holds_on_(values|pairs|triples)'
count '2  the last number that passes a test' 'found = [a-z]+;'
count '2  a value to be entered, or why not' 'fn (arrow|mark)_value'
count '2  a step by an until or by its dual' '^fn (until|dual)\('
count '2  printing the entries, formulas, lines of a list' 'fn (enter_entries|enter_formulas|read_formulas|read_lines)'
count '3  loops: while, loop, and for over a range' "while |loop \{|for [a-z_]+ in [^{]*\.\."
count '3  numbers counted by hand' '(at|mark|n|len|count|i) \+= '
count '4  conversions, equality and printing by hand' 'fn (numbered|text_refusal|alike|path_operator)\(|fn equal<|fn (of|arrow|mark|size|ask)\(word: u32|fn word\(a: u8|refusal \{(number|why)|fn number\(rt|fn print_(refusal|value)'
count '5  a logic by its three ghost members' 'L\.Scale\.model logic\.now\) \(L\.Logic\.opposes'
count '5  two facts in one requires' 'requires .* × '
count '5  a number below 16, as a premise' '(u|v|w|c) < 16 →'
count '5  the logic and the lent memory as parameters' '^ +(stretch|s): &(mut )?\[L::Value\],'
count '6  arrays of a fixed size' '\[u(8|16|32); (16|256|64)\]|\[0u(8|16|32); '
count '7  a match on which step to run' 'match (which|operation|source|step|\(self, kind\)) '
if [ $list = 0 ]; then
    printf '%4d  8  lines of proofs/\n' "$(git ls-tree -r --name-only "$commit" crates | grep '/proofs/.*\.antt$' | while read -r f; do git show "$commit:$f"; done | wc -l)"
fi
