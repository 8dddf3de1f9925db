#!/bin/sh
# The library for other languages: builds the two static libraries, compiles and runs the example for C, whose lines
# must be document 01's known days, and compiles it for another interface, which it must notice; then runs the Rust
# example.
set -eu
cd "$(dirname "$0")/.."

tools/build lemoncolumn
tools/build speed_probes

room=$(mktemp -d)
trap 'rm -rf "$room"' EXIT
compile() { # FOLDER-OF-THE-HEADER
    cc -std=c11 -Wall -Wextra -Werror -pedantic -O2 "-I$1" examples/c/known_days.c target/staticlib/liblemoncolumn.a \
        -o "$room/known_days"
}
compile include
"$room/known_days" >"$room/lines"
diff "$room/lines" examples/c/known_days.expected
echo "examples/c/known_days.c: as expected"

# The header of a later interface, whose number is the only thing that a caller can go by.
sed 's/^#define LEMONCOLUMN_INTERFACE .*/#define LEMONCOLUMN_INTERFACE 99/' include/lemoncolumn.h >"$room/lemoncolumn.h"
compile "$room"
status=0
"$room/known_days" >"$room/lines" 2>&1 || status=$?
if [ "$status" != 1 ] || [ "$(wc -l <"$room/lines")" != 1 ] ||
    ! grep -qx 'compiled for interface 99, and the linked library has [0-9]*' "$room/lines"; then
    echo "tests/library.sh: compiled for interface 99, the example for C goes on" >&2
    exit 1
fi
echo "examples/c/known_days.c: stops at a library of another interface"

cd rust
cargo run --quiet --offline -p lemoncolumn --example day >"$room/day"
diff "$room/day" ../examples/rust/day.expected
echo "examples/rust/day.rs: as expected"
