#!/bin/sh
# A season at full size (document 02, U9), with the library that tests/library.sh built. The library's memory beside
# what is lent: it asks nobody for any, and has none of its own that can be written. Then rust/bench builds, checks,
# edits, reads off, packs and unpacks 262144 batches, compares the answers, and measures stack and time of each: the
# stack is that of a single batch. Prints its table; fails where something is missing or wrong, or where a batch takes
# twice what it takes at k = 1024. The goal of 1.1 is the benchmark's: here others may use the machine.
set -eu
cd "$(dirname "$0")/.."

work=$(mktemp -d)
trap 'rm -rf "$work"' EXIT
library=target/staticlib/liblemoncolumn.a
. tests/common/archive.sh

fail() {
    echo "tests/season.sh: $*" >&2
    exit 1
}

# ---- what the library asks for, and what memory it has
alone "$library"

# ---- full size
(cd rust && cargo run --quiet --release --offline -p bench season) >"$work/table"
cat "$work/table"
cat >"$work/rows" <<'END'
build
check
edit, last tap
edit, tap 0
read-off
pack, short, all small
unpack, short, all small
pack, short, all large
unpack, short, all large
pack, short, alternating
unpack, short, alternating
END
sed -n 's/^| \(.*\), k = 262144 |.*/\1/p' "$work/table" | diff "$work/rows" - || fail "other rows than expected"
awk -F '|' 'NR > 2 && !($4 > 0 && $4 < 2) { print $2; bad = 1 } END { exit bad }' "$work/table" >"$work/slow" ||
    fail "a batch of 262144 takes twice as long as one of 1024:$(tr '\n' ';' <"$work/slow")"
echo "tests/season.sh: a season of 262144 batches, in a stack that does not grow"
