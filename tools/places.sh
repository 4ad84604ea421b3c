#!/bin/sh
# Counts in the sources of a commit (HEAD where none is named) the places that docs/DESIGN-PASS.md speaks of, point by
# point; with `list` behind the commit it prints them too.
commit=${1:-HEAD}
mode=${2:-count}

# Lines of .rt files that match, without comments.
lines() {
    git grep -nE "$1" "$commit" -- 'crates/*/src/*.rt' | sed 's/^[^:]*://' | grep -vE ':[0-9]+: *//'
}

show() {
    printf '%s: %s\n' "$1" "$(grep -c . "$2")"
    if [ "$mode" = list ]; then sed 's/^/    /' "$2"; fi
}

found=$(mktemp)
trap 'rm -f "$found"' EXIT

lines '^ +(Refused\(Refusal\)|Broken\(usize\)|Done\(u64\)),' >"$found"
show '1a variants that make an enum a Result' "$found"
lines 'Count\((u16|[0-9])|^ +(pub )?is_mark: bool|fn verdict\(.*\(u64, u64\)|fn reply\(.*\(u64, u64, u64\)' >"$found"
show '1b numbers for kinds, flags with a value beside' "$found"
git grep -hoE '^ *(pub(\(crate\))? )?fn [a-z_]+' "$commit" -- 'crates/*/src/*.rt' | sed 's/.*fn //' | sort | uniq -c |
    awk '$1 > 1 { print $2, $1 }' >"$found"
show '2  names of functions that stand more than once' "$found"
lines 'for [a-z_]+ in .*\.\.|while ' | grep -v 'for _ in' >"$found"
show '3  loops over a range, and while loops' "$found"
lines 'fn (is_same|is_named|is_named_as|before|is_named_before|of|number|value|line|names_text|itineraries_text|answer_lines|refusal_line|word_line|lines_of|text_of|gap_before)\(' >"$found"
show '4  equality, order, conversion and printing in functions of their own' "$found"
git grep -hoE '(requires|ensures) [a-z_]* ?\{ [^}]*\}' "$commit" -- 'crates/*/src/*.rt' | sed 's/^[a-z]* //' | sort | uniq -c |
    awk '$1 >= 3' >"$found"
show '5  facts that stand in three contracts or more' "$found"
lines '_row: \[|^ +(pub )?count: usize,|^ +(pub )?[a-z_]+: \[[A-Za-z0-9]+; [A-Za-z_0-9]+\],|let mut [a-z_]+ = \[(0|0u8|0u16|0u64|false|BLANK_[A-Z]+); ' >"$found"
show '6  rows of a fixed length, with a length beside them' "$found"
lines 'match (sought|kind|step) \{' >"$found"
show '7  switches on which step to run' "$found"
for part in Answers Invariants; do
    git grep -cE '^(abbrev )?pub .* : goal\.' "$commit" -- "crates/*/proofs/*/$part.antt" | awk -F: '{ n += $NF } END { print n + 0 }' >"$found"
    printf '8  in %s files: %s\n' "$part" "$(cat "$found")"
done
printf '8  lines of proofs: %s\n' "$(git grep -c '' "$commit" -- 'crates/*/proofs/*.antt' | awk -F: '{ n += $NF } END { print n }')"
