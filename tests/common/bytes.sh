# Bytes, tables and board files of document 01, for the scripts of tests/ to read in. No test by itself.
# $work is a folder of the script's own.

# ---- bytes

# $1 bytes of the octal value $2
fill() {
    [ "$1" -eq 0 ] || printf "%0$1d" 0 | tr 0 "\\$2"
}

zeros() {
    fill "$1" 000
}

# the number $2 as $1 bytes, low byte first
bytes() {
    left=$1
    rest=$2
    while [ "$left" -gt 0 ]; do
        printf "\\$(printf '%03o' $((rest & 255)))"
        rest=$((rest >> 8))
        left=$((left - 1))
    done
}

# what the commands $2 write, $1 times
repeat() (
    once=$(mktemp "$work/once.XXXXXX")
    eval "$2" >"$once"
    turn=0
    while [ "$turn" -lt "$1" ]; do
        cat "$once"
        turn=$((turn + 1))
    done
)

# what the commands $1 write, with what the commands $3 write in place of its bytes from $2 on
with() (
    whole=$(mktemp "$work/whole.XXXXXX")
    eval "$1" >"$whole"
    eval "$3" | dd of="$whole" bs=1 seek="$2" conv=notrunc 2>"$work/dd"
    cat "$whole"
)

# ---- tables, raw: M row by row, then K_0 to K_20

P=2305843095113039873

# where word $1 of the table stands in the input
table_word() {
    echo $((8 * $1))
}

# Z: M identity, K zero
Z() {
    repeat 11 'bytes 8 1; zeros 96'
    bytes 8 1
    zeros 2016
}

# A: Z with K_0[0] = 1
A() {
    with Z "$(table_word 144)" 'bytes 8 1'
}

# S: M[i,j] = 1 when j = (i + 11) mod 12, else 0; K zero
S() {
    zeros 88
    bytes 8 1
    repeat 10 'bytes 8 1; zeros 96'
    bytes 8 1
    zeros 2024
}

# ---- board files

# where word $1 of the file stands in the input
file_word() {
    echo $((3168 + 4 * $1))
}

word() {
    bytes 4 "$1"
}

# elements: kind 1 with element div 2^60, kind 2 with the next 30 bits, kind 3 with the low 30
elements() {
    for value; do
        word $((0x40000000 + (value >> 60)))
        word $((0x80000000 + (value >> 30 & 0x3fffffff)))
        word $((0xc0000000 + (value & 0x3fffffff)))
    done
}

# the file of $1 batches whose elements are all zero
zero_file() {
    word "$1"
    repeat $((12 * $1 + 8)) 'elements 0'
}
