#!/bin/sh
# What include/lemoncolumn.h says and computes by itself: constants, the numbers of the refusals, the decoders of a
# returned word, lengths and k of files. tests/c/header.c prints it, for words, counts, lists and files at their edges
# and at random; its lines must be those of the second implementation (rust/inputs/src/bin/header.rs), which knows the
# documents and not the header. Needs no library.
set -eu
cd "$(dirname "$0")/.."

work=$(mktemp -d)
trap 'rm -rf "$work"' EXIT

fail() {
    echo "tests/header.sh: $*" >&2
    exit 1
}

# ---- nothing of the header is left out: whatever name it has is a call of the library or stands in the program
sed -nE 's/^(lemoncolumn_code|uint64_t) (lemoncolumn_[a-z_]+)\(.*/\2/p' include/lemoncolumn.h >"$work/calls"
printf '%s\n' LEMONCOLUMN_H lemoncolumn_refusal >>"$work/calls"
grep -oiE 'lemoncolumn_[a-z0-9_]+' include/lemoncolumn.h | sort -u | grep -vxFf "$work/calls" >"$work/names"
while read -r name; do
    grep -qw "$name" tests/c/header.c || fail "$name of the header is not in tests/c/header.c"
done <"$work/names"

# ---- the lines. What stands before a colon is a question.
(cd rust && cargo run --quiet --offline -p inputs --bin header) >"$work/expected"
sed -n 's/: .*//p' "$work/expected" >"$work/questions"

# of the program compiled with the flags $*; with the second ones anything undefined ends it
same_lines() {
    cc -std=c11 -Wall -Wextra -Werror -pedantic "$@" -Iinclude tests/c/header.c -o "$work/header"
    "$work/header" <"$work/questions" >"$work/lines" || fail "compiled with $*, tests/c/header.c ends with status $?"
    diff "$work/expected" "$work/lines" >"$work/diff" || {
        head -n 20 "$work/diff" >&2
        fail "compiled with $*, the header has the lines marked >, and the second implementation those marked <"
    }
}
same_lines -O2
same_lines -O0 -fsanitize=undefined -fsanitize-undefined-trap-on-error

echo "tests/header.sh: $(($(wc -l <"$work/names"))) names of the header, in $(($(wc -l <"$work/expected"))) lines" \
    "as the second implementation has them"
