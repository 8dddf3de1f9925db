#!/bin/sh
# Runs all Rust tests and holds those that passed to tests/rust-tests.txt, which has a line `CRATE TARGET TEST` for
# each: a test that is dropped, renamed, ignored, filtered out or new fails, and is named. Needs the static libraries,
# which tests/library.sh builds, and the program.
set -eu
cd "$(dirname "$0")/.."

work=$(mktemp -d)
trap 'rm -rf "$work"' EXIT

# built together, on all cores, and then a run for each crate, since cargo does not say whose test it runs
(cd rust && cargo test --offline --color never --workspace --no-run) >"$work/out" 2>&1 ||
    { cat "$work/out" >&2 && exit 1; }
for manifest in rust/*/Cargo.toml; do
    crate=$(basename "$(dirname "$manifest")")
    (cd rust && cargo test --offline --color never -p "$crate") >"$work/out" 2>&1 || { cat "$work/out" >&2 && exit 1; }
    awk -v crate="$crate" '
        $1 == "Running" { target = $2 == "unittests" ? $3 : $2; sub(/^tests\//, "", target); sub(/\.rs$/, "", target) }
        $1 == "Doc-tests" { target = "doc" }
        # where an example of the documentation stands is no part of its name
        /^test .* \.\.\. ok$/ {
            sub(/^test /, ""); sub(/ \.\.\. ok$/, ""); sub(/ \(line [0-9]+\)$/, ""); print crate, target, $0
        }
    ' "$work/out" >>"$work/ran"
    grep '^test result: ' "$work/out" >>"$work/results" || :
done

LC_ALL=C sort "$work/ran" >"$work/sorted"
if ! diff tests/rust-tests.txt "$work/sorted" >"$work/diff"; then
    sed -n 's|^< |tests/rust.sh: did not run: |p; s|^> |tests/rust.sh: is not in tests/rust-tests.txt: |p' \
        "$work/diff" >&2
    exit 1
fi
if grep -vE '^test result: ok\. [0-9]+ passed; 0 failed; 0 ignored; 0 measured; 0 filtered out; ' \
    "$work/results" >&2; then
    echo "tests/rust.sh: not every test ran" >&2
    exit 1
fi
listed=$(($(wc -l <tests/rust-tests.txt)))
passed=$(awk '{ n += $4 } END { print n + 0 }' "$work/results")
[ "$passed" -eq "$listed" ] || { echo "tests/rust.sh: $passed tests passed, and $listed are listed" >&2 && exit 1; }
echo "tests/rust.sh: all $listed Rust tests passed"
