#!/bin/sh
# Runs the built program on inputs made here, and compares each line that it prints with the one that document 01 gives
# ("The board file", "What is turned back", "Known days"; docs/DECISIONS.md, 9), standard error staying empty; then has
# its reads and writes fail, where it prints no line. Stops at the first difference, which it names. Needs the program,
# which tools/build builds.
set -eu
cd "$(dirname "$0")/.."

program=target/bin/clear
work=$(mktemp -d)
trap 'rm -rf "$work"' EXIT
count=0

. tests/common/bytes.sh

# ---- the comparison

# the program on standard input
run() {
    "$program" >"$work/output" 2>"$work/error"
}

# $1 says which input it was, $2 is the line, and standard error gets none
compare() {
    count=$((count + 1))
    printf '%s\n' "$2" | cmp -s - "$work/output" || {
        echo "tests/clear.sh: $1: the line is '$2', and the program wrote '$(cat "$work/output")'" >&2
        exit 1
    }
    [ ! -s "$work/error" ] || {
        echo "tests/clear.sh: $1: there is an answer, and standard error got '$(cat "$work/error")'" >&2
        exit 1
    }
}

# the input is what the commands $3 write
expect() {
    eval "$3" >"$work/input"
    run <"$work/input"
    compare "$1" "$2"
}

# The program, started with the redirections $3, prints nothing; standard error gets the line $2. The exit status is 0
# here too.
no_answer() {
    count=$((count + 1))
    status=0
    : >"$work/output"
    eval "\"\$program\" $3" 2>"$work/error" || status=$?
    [ ! -s "$work/output" ] || {
        echo "tests/clear.sh: $1: there is no answer, and the program wrote '$(cat "$work/output")'" >&2
        exit 1
    }
    printf '%s\n' "$2" | cmp -s - "$work/error" || {
        echo "tests/clear.sh: $1: standard error should get '$2', and got '$(cat "$work/error")'" >&2
        exit 1
    }
    [ "$status" -eq 0 ] || {
        echo "tests/clear.sh: $1: the exit status is $status" >&2
        exit 1
    }
}

# ---- known days: the program's two lines, and the starred ones that an input can show
expect 'Z, the file of zeros' 'accepted 1 372' 'Z; zero_file 1'
expect 'Z, claim (1,0,0,0)' 'refused 11 31 49' 'Z; word 1; elements 1; repeat 19 "elements 0"'
expect 'A, four zero taps, claim (3,0,0,0)' 'accepted 1 372' 'A; word 1; elements 3; repeat 19 "elements 0"'
expect 'A, four zero taps, zero claim' 'refused 11 31 49' 'A; zero_file 1'
expect 'S, last tap and claim (5,6,7,9)' 'accepted 1 372' \
    'S; word 1; elements 5 6 7 9; repeat 12 "elements 8"; elements 5 6 7 9'
expect 'Z, first tap and claim (8,27,1,0)' 'accepted 1 372' \
    'Z; word 1; elements 8 27 1 0 8 27 1 0; repeat 12 "elements 0"'
expect 'Zero M' 'refused 3' 'zeros 3168; zero_file 1'
expect 'p - 1 in a tap and the claim' 'accepted 1 372' \
    'Z; word 1; elements $((P - 1)) 0 0 0 $((P - 1)) 0 0 0; repeat 12 "elements 0"'
expect 'p - 1 in M' 'accepted 1 372' 'with "Z; zero_file 1" 0 "bytes 8 $((P - 1))"'

# ---- the claim: one constraint for each of its words
expect 'claim (0,7,0,0)' 'refused 11 31 50' 'Z; word 1; elements 0 7; repeat 18 "elements 0"'
expect 'claim (0,0,0,7)' 'refused 11 31 52' 'Z; word 1; elements 0 0 0 7; repeat 16 "elements 0"'
expect 'two batches, claim (1,0,0,0)' 'refused 11 63 49' 'Z; word 2; elements 1; repeat 31 "elements 0"'
# it is about all taps, c = k: under A each of the six hashes adds 1, and the first three are those of the first batch
expect 'A, two batches, the output of all' 'accepted 2 744' 'A; word 2; elements 6; repeat 31 "elements 0"'
expect 'A, two batches, the output of the first' 'refused 11 63 49' 'A; word 2; elements 3; repeat 31 "elements 0"'

# ---- the lengths come before anything else
expect 'no byte' 'refused 1' ':'
expect '3167 zero bytes' 'refused 1' 'zeros 3167'
expect '3167 bytes of no canonical word' 'refused 1' 'fill 3167 377'
expect '3168 zero bytes' 'refused 3' 'zeros 3168'
expect '5572 zero bytes' 'refused 3' 'zeros 5572'
expect '5573 zero bytes' 'too long' 'zeros 5573'
expect '5573 bytes of no canonical word' 'too long' 'fill 5573 377'
expect 'Z and a file of 32 batches' 'too long' 'Z; zero_file 32'
expect '200000 bytes' 'too long' 'zeros 200000'

# ---- the table comes before the file
expect 'table word 17 is p' 'refused 2 17' 'with "Z; zero_file 1" $(table_word 17) "bytes 8 $P"'
expect 'table words 17 and 20 are p' 'refused 2 17' \
    'with "with Z $(table_word 20) \"bytes 8 \$P\"; zero_file 1" $(table_word 17) "bytes 8 $P"'
expect 'the last table word is p' 'refused 2 395' 'with "Z; zero_file 1" $(table_word 395) "bytes 8 $P"'
expect 'a table word of 2^64 - 1, and no file' 'refused 2 0' 'fill 8 377; zeros 3160'
expect 'zero M with p among the constants' 'refused 2 200' 'with "zeros 3168" $(table_word 200) "bytes 8 $P"'
expect 'byte order: 2^61 + 21 * 2^32' 'refused 2 5' \
    'with "Z; zero_file 1" $(table_word 5) "bytes 8 $((1 << 61 | 21 << 32))"'
expect 'byte order: 255' 'accepted 1 372' 'with "Z; zero_file 1" $(table_word 5) "bytes 8 255"'
expect 'two equal rows of M, and half a file' 'refused 3' 'with Z $(table_word 0) "zeros 8; bytes 8 1"; zeros 50'

# ---- the file: its length, word 0, and the length that word 0 gives
expect 'Z alone' 'refused 12' 'Z'
expect 'one byte of a file' 'refused 12' 'Z; zeros 1'
expect 'two bytes of a file' 'refused 12' 'Z; zeros 2'
expect 'three bytes of a file' 'refused 12' 'Z; zeros 3'
expect 'word 0 = 1 alone' 'refused 12' 'Z; word 1'
expect 'word 0 = 0 alone' 'refused 14 0' 'Z; word 0'
expect 'word 0 of kind 1' 'refused 13 0' 'with "Z; zero_file 1" $(file_word 0) "word 0x40000001"'
expect 'word 0 of kind 1, with a spare bit' 'refused 13 0' 'Z; word 0x40010001'
expect 'lowest spare bit' 'refused 14 0' 'with "Z; zero_file 1" $(file_word 0) "word 0x00010001"'
expect 'highest spare bit' 'refused 14 0' 'with "Z; zero_file 1" $(file_word 0) "word 0x20000001"'
expect 'k = 3' 'refused 14 0' 'Z; zero_file 3'
expect 'k = 2048' 'refused 14 0' 'Z; word 2048'
expect 'k = 32 in 5572 bytes' 'refused 12' 'Z; word 32; repeat 200 "elements 0"'
expect 'k = 1024 in 5572 bytes' 'refused 12' 'Z; word 1024; repeat 200 "elements 0"'
expect 'k = 16 with the length of k = 8' 'refused 12' 'with "Z; zero_file 8" $(file_word 0) "word 16"'
expect 'a byte short' 'refused 12' 'Z; zero_file 1 | dd bs=1 count=243 2>"$work/dd"'
expect 'a byte more' 'refused 12' 'Z; zero_file 1; zeros 1'

# ---- the elements: three kinds, then the value, element by element
expect 'word 1 of kind 2' 'refused 13 1' 'with "Z; zero_file 1" $(file_word 1) "word 0x80000000"'
expect 'word 2 of kind 1' 'refused 13 2' 'with "Z; zero_file 1" $(file_word 2) "word 0x40000000"'
expect 'word 5 of kind 3' 'refused 13 5' 'with "Z; zero_file 1" $(file_word 5) "word 0xc0000000"'
expect 'the last word of kind 0' 'refused 13 60' 'with "Z; zero_file 1" $(file_word 60) "word 0"'
expect 'element 0 is p' 'refused 14 1' 'with "Z; zero_file 1" $(file_word 1) "elements $P"'
expect 'the last element is p' 'refused 14 58' 'with "Z; zero_file 1" $(file_word 58) "elements $P"'
expect 'an element of 2^64' 'refused 14 4' 'with "Z; zero_file 1" $(file_word 4) "word 0x40000010"'
expect 'element 0 is p, element 1 of wrong kind' 'refused 14 1' \
    'with "Z; zero_file 1" $(file_word 1) "elements $P; word 0"'
expect 'element 0 is too large and of wrong kind' 'refused 13 3' \
    'with "Z; zero_file 1" $(file_word 1) "word 0x7fffffff; word 0x80000000; word 0"'

# ---- the permitted counts up to 16
expect 'k = 2' 'accepted 2 744' 'Z; zero_file 2'
expect 'k = 4' 'accepted 4 1488' 'Z; zero_file 4'
expect 'k = 8' 'accepted 8 2976' 'Z; zero_file 8'
expect 'k = 16, 5572 bytes' 'accepted 16 5952' 'Z; zero_file 16'

# ---- input that comes in pieces
{ Z; zero_file 1; } >"$work/input"
dd bs=1 if="$work/input" 2>"$work/dd" | run
compare 'byte by byte' 'accepted 1 372'
{ Z; sleep 1; zero_file 1; } | run
compare 'with a pause' 'accepted 1 372'

# ---- input that cannot be read, or not to its end
unread='clear: standard input cannot be read'
no_answer 'standard input is closed' "$unread" '<&- >"$work/output"'
no_answer 'standard input is a directory' "$unread" '<"$work" >"$work/output"'
# A pipe that does not wait: a read fails as soon as it is empty. Only some dd can set that.
mkfifo "$work/pipe"
exec 3<>"$work/pipe"
if dd iflag=nonblock count=0 <&3 2>"$work/dd"; then
    no_answer 'a pipe that fails at once' "$unread" '<&3 >"$work/output"'
    { Z; word 1; } >&3
    no_answer 'a pipe that fails after 3172 bytes' "$unread" '<&3 >"$work/output"'
    { Z; zero_file 1; } >&3
    no_answer 'a pipe that fails after a table and a file' "$unread" '<&3 >"$work/output"'
    { Z; zero_file 32; } >&3
    run <&3
    compare 'a pipe that fails after 7876 bytes, of which 5573 are read' 'too long'
fi
exec 3>&-

# ---- a line that cannot be written
unwritten='clear: standard output cannot be written'
no_answer 'standard output is closed' "$unwritten" '<"$work/input" >&-'
[ ! -c /dev/full ] || no_answer 'standard output is full' "$unwritten" '<"$work/input" >/dev/full'
no_answer 'standard input and output are closed' "$unread" '<&- >&-'
exec 3<>"$work/pipe" 4>"$work/pipe" 3>&-
no_answer 'a pipe that nobody reads' "$unwritten" '<"$work/input" >&4'
exec 4>&-

echo "tests/clear.sh: $count inputs, each answered with its line, or with none where a read or a write fails"
