#!/bin/sh
# Lists the places in src/ where an old form may stand, point by point as docs/DESIGN-PASS.md counts them, at a commit.
# What is listed is read by eye: an `enum` may be just what is wanted. Points 2 and 5 also list what is declared and required more than once.
# usage: tools/places.sh [COMMIT]        at the top of the repository; HEAD if no commit is given
set -u
at=${1:-HEAD}

places() { # a title, and a pattern
    echo "== $1"
    git grep -nE "$2" "$at" -- 'crates/*/src/*.rt' | sed "s/^$at://"
}

places '1 enums' '^ *(pub |pub\(crate\) )?enum '
places '1 numbers for kinds and refusals' '^ +[A-Z][A-Za-z]*\(u64\)|^ *(pub )?const BAD_[A-Z]+:'
places '2 and 6 arrays with a length beside, and local ones that are filled' '^ +(pub |pub\(crate\) )?[a-z]+: \[|let (mut )?[a-z]+ = \['
places '2 constants' '^(pub )?const [A-Z_0-9]+: '
places '3 loops' '^ *(for|while|loop) '
places '4 impls of the traits of the library' '^impl.* for '
places '4 functions from one type to another' 'fn (of|[a-z]+_of|judge|found_in|digit_of)\('
echo '== 5 clauses that stand in three contracts or more of a crate'
for crate in $(git ls-tree -d --name-only "$at" crates/ | sed 's,crates/,,'); do
    git grep -hE '^ +(requires|ensures) ' "$at" -- "crates/$crate/src/*.rt" |
        sed -E 's/^ +//; s/^(requires|ensures) [a-z]+ \{/\1 {/' | sort | uniq -c | awk -v crate="$crate" '$1 >= 3 { print crate ": " $0 }'
done
places '7 functions and boxed values that are called' 'dyn |: fn\(|\[fn\(|Box<|impl Fn|: Fn'
echo '== 8 lines and files of proofs'
for crate in $(git ls-tree -d --name-only "$at" crates/ | sed 's,crates/,,'); do
    files=$(git ls-tree -r --name-only "$at" "crates/$crate/proofs" | grep -c '\.antt$')
    lines=$(git ls-tree -r --name-only "$at" "crates/$crate/proofs" | while read -r file; do git show "$at:$file"; done | wc -l)
    echo "$crate: $lines lines in $files files"
done
