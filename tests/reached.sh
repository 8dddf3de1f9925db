#!/bin/sh
# Finds files of the crates that serve nothing. The checker itself refuses a file of src/, specs/ or proofs/ to which no
# `mod` line or function leads. It passes a file of another kind, and a module that is declared and that nothing uses:
# those are found here. A module whose theorems are there to be read is named by its path in README.md or docs/. Prints
# what is wrong, and fails if anything is.
set -eu
cd "$(dirname "$0")/.."

work=$(mktemp -d)
trap 'rm -rf "$work"' EXIT
: >"$work/wrong"

# What rt makes stands in out/.
find crates -type f ! -path 'crates/*/out/*' ! -path 'crates/*/src/*.rt' ! -path 'crates/*/specs/*.antt' \
    ! -path 'crates/*/proofs/*.antt' ! -path 'crates/*/must-fail/*.edit' |
    grep -vxE 'crates/[a-z0-9_]+/(stdin|stdout)' | sed 's/$/: no file of a crate/' >>"$work/wrong" || :

# Each file that declares nothing but itself: Lib.antt is a root, and in a folder of a function's name, or of a cycle's
# with a `+`, stands the proof of that function. An Answers.antt elsewhere is a module like others.
find crates/*/specs crates/*/proofs -name '*.antt' ! -name Lib.antt | sort >"$work/files"
proof='/proofs/(.*/)?\+?[a-z_][a-z0-9_]*/(Invariants|Answers|Proof)\.antt$'
grep -vE "$proof" "$work/files" >"$work/modules" || echo "no module was found" >>"$work/wrong"
grep -E "$proof" "$work/files" >"$work/proofs" || :
while read -r file; do
    function=$(basename "$(dirname "$file")" | tr -d +)
    grep -rqE "(^|[ (])(fn $function[<(]|#\[cycle\($function\)\])" "${file%%/proofs/*}/src" ||
        echo "$file: the crate has no function $function" >>"$work/wrong"
done <"$work/proofs"

while read -r file; do
    crate=${file#crates/}
    crate=${crate%%/*}
    path=$(echo "${file#crates/*/}" | sed 's|\.antt$||; s|/|\\.|g')
    {
        grep -rlE --include='*.rt' --include='*.antt' "Rattle\.$crate\.$path([. ]|\$)" \
            crates/*/src crates/*/specs crates/*/proofs || :
        # by `using(..)` and `unfolding(..)` in the crate's own code
        grep -rlE --include='*.rt' "crate::$(echo "$path" | sed 's|\\\.|::|g')::" "crates/$crate/src" || :
    } | grep -qvxF "$file" && continue
    grep -qF "\`$file\`" README.md docs/*.md ||
        echo "$file: nothing uses this module, and no page names it" >>"$work/wrong"
done <"$work/modules"

if [ -s "$work/wrong" ]; then
    sed 's|^|tests/reached.sh: |' "$work/wrong" >&2
    exit 1
fi
echo "tests/reached.sh: each of the $(($(wc -l <"$work/modules"))) modules of specs/ and proofs/ is used or named," \
    "and each of the $(($(wc -l <"$work/proofs"))) files of functions' proofs has its function"
