#!/bin/sh
# Reads the machine code of the library that tests/library.sh built, where the products are computed: the hot loops are
# still vector code, which a later edit could lose unseen, since the compiler decides it; and none of these functions
# makes a product of 128 bits (document 02, U2), nor in the library for x86-64-v3, where tests/newer.sh has built that.
# Prints what is wrong, and fails if anything is.
set -eu
cd "$(dirname "$0")/.."

# FUNCTION COUNT: a function of the archive with such loops, and how many vector multiplications (pmuludq, two of 32
# bits each) it has with the kit of kit.txt. More is as good; an edit that needs fewer says so here.
loops='
hash::montgomery_cubes 11
matrix_inverse::add_row 6
lemoncolumn_prepare 6
matrix_ready::mix 10
matrix_ready::make_ready 20
field_roots::joined 11
field_roots::scaled_roots 6
'
# FUNCTION COUNT: a function that multiplies words, and how many multiplications it has that leave 128 bits (`mul` and
# `imul` with one operand, `mulx`). Prepare has one, which divides an index by 24; the other functions of the archive
# have it only where they divide a length or a number of a row, hash or tap by a constant.
products='
hash::first_step 0
hash::montgomery_cubes 0
hash::second_step 0
matrix_inverse::add_row 0
lemoncolumn_prepare 1
matrix_ready::mix 0
matrix_ready::make_ready 0
field_roots::joined 0
field_roots::scaled_roots 0
'

work=$(mktemp -d)
trap 'rm -rf "$work"' EXIT

read_code() { # ARCHIVE LOOPS
    objdump -d --no-show-raw-insn "$1" >"$work/code"
    awk -v archive="$1" -v loops="$2" -v products="$products" '
        function bad(text) { print "tests/vectors.sh: " archive ": " text; failed = 1 }
        /^[0-9a-f]+ <.*>:$/ { name = $2; gsub(/[<>:]+$|^</, "", name); there[name] = 1 }
        $2 == "pmuludq" { vector[name]++ }
        $2 == "mul" || $2 == "mulx" || ($2 == "imul" && NF == 3 && $3 !~ /,/) { whole[name]++ }
        END {
            n = split(loops, word)
            for (i = 1; i < n; i += 2) {
                name = word[i]
                if (!there[name]) bad(name " is no function of the archive")
                else if (vector[name] < word[i + 1])
                    bad(name " has " vector[name] + 0 " vector multiplications, and had " word[i + 1])
            }
            n = split(products, word)
            for (i = 1; i < n; i += 2) {
                name = word[i]
                if (!there[name]) bad(name " is no function of the archive")
                else if (whole[name] > word[i + 1])
                    bad(name " has " whole[name] " multiplications that leave 128 bits, and had " word[i + 1])
            }
            exit failed
        }' "$work/code" >&2
}
read_code target/staticlib/liblemoncolumn.a "$loops"
# That its loops are vector code, of twice the width, tests/newer.sh has seen.
newer=target/staticlib/x86-64-v3/liblemoncolumn.a
[ ! -f "$newer" ] || read_code "$newer" ''
echo "tests/vectors.sh: the hot loops are vector code, and no product of words has 128 bits"
