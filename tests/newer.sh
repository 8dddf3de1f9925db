#!/bin/sh
# The library for processors of x86-64-v3, which tools/staticlib-for has the kit build: its hot loops are vector code of
# that level, it asks for no more than the plain one may, and the example for C and tests of the Rust side pass with it.
# Runs nothing where the processor is of a lower level. Needs the plain library, which tests/library.sh builds and which
# must stay as it is.
set -eu
cd "$(dirname "$0")/.."

root=$PWD
work=$(mktemp -d)
trap 'rm -rf "$work"' EXIT
plain=target/staticlib/liblemoncolumn.a
folder=target/staticlib/x86-64-v3
. tests/common/archive.sh

fail() {
    echo "tests/newer.sh: $*" >&2
    exit 1
}

# ---- what x86-64-v3 asks for beyond the levels below it, by the kernel's names, of which abm stands for lzcnt and avx2
# for avx and for a system that keeps its registers
flags=" $(sed -n 's/^flags[[:space:]]*: //p' /proc/cpuinfo | head -n 1) "
[ "$flags" != '  ' ] || fail "/proc/cpuinfo does not say what the processor has"
missing=
for flag in abm avx2 bmi1 bmi2 f16c fma movbe; do
    case $flags in *" $flag "*) ;; *) missing="$missing $flag" ;; esac
done
if [ -n "$missing" ]; then
    echo "tests/newer.sh: this processor is none of x86-64-v3, nothing was run: it lacks$missing"
    exit 0
fi

# ---- the archive. The plain one was built again beside it, and must be the same, byte by byte.
[ -f "$plain" ] || fail "there is no $plain"
cp "$plain" "$work/plain.a"
tools/staticlib-for x86-64-v3
cmp "$work/plain.a" "$plain" || fail "$plain is another than before"
alone "$folder/liblemoncolumn.a"

# The hot loops of the file $1 make four products at once (vpmuludq in registers of 256 bits), and those of the plain
# library two.
wide() {
    objdump -d --no-show-raw-insn "$1" >"$work/code"
    for function in matrix_ready::mix field_roots::joined; do
        awk -v head="<$function>:" '/^[0-9a-f]+ <.*>:$/ { on = $2 == head }
            on && $2 == "vpmuludq" && /%ymm/ { found = 1 } END { exit !found }' "$work/code" ||
            fail "$function of $1 has no vector multiplication of 256 bits"
    done
}
wide "$folder/liblemoncolumn.a"

# ---- C
cc -std=c11 -Wall -Wextra -Werror -pedantic -O2 -Iinclude examples/c/known_days.c "$folder/liblemoncolumn.a" \
    -o "$work/known_days"
"$work/known_days" >"$work/lines"
diff "$work/lines" examples/c/known_days.expected || fail "examples/c/known_days.c prints something else"

# ---- Rust: the known days, and the differential tests but for `edits` and `counts`, which take as long as all of these
# together and make no call that `operations` does not, and `program`, which makes none. In a target folder of their
# own, so that the tests of the plain library need not be built again.
set -- known_days calls_board calls_convert calls_hash calls_trace converters larger operations short_files states \
    traces unhash
count=$#
for test; do set -- "$@" --test "$test"; done
shift "$count"
(
    cd rust
    LEMONCOLUMN_LIB_DIR=$root/$folder CARGO_TARGET_DIR=target/x86-64-v3 \
        cargo test --offline --color never -p lemoncolumn -p differential "$@"
) >"$work/out" 2>&1 || {
    cat "$work/out" >&2
    fail "a Rust test failed"
}
sed -n 's/^test result: ok\. \([1-9][0-9]*\) passed; 0 failed; 0 ignored; 0 measured; 0 filtered out; .*/\1/p' \
    "$work/out" >"$work/passed"
sed -n 's|^ *Running tests/[a-z_]*\.rs (\(.*\))$|\1|p' "$work/out" >"$work/binaries"
[ "$(grep -c '^test result: ' "$work/out")" -eq "$count" ] && [ "$(($(wc -l <"$work/passed")))" -eq "$count" ] &&
    [ "$(($(wc -l <"$work/binaries")))" -eq "$count" ] || {
    cat "$work/out" >&2
    fail "not every Rust test ran"
}
# The tests pass with either library, and would with the plain one where the build script overlooks the variable. That
# it was this one is seen in the code that ran. Four of them make no product, so that the linker leaves out the loops.
while read -r binary; do
    case $binary in
    */calls_board-* | */calls_convert-* | */converters-* | */short_files-*) ;;
    *) wide "rust/$binary" ;;
    esac
done <"$work/binaries"

echo "tests/newer.sh: with the library for x86-64-v3 the example for C is as expected, and" \
    "$(awk '{ n += $1 } END { print n }' "$work/passed") Rust tests passed"
