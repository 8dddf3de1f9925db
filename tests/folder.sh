#!/bin/sh
# Clears folders of boards made here in the two ways of docs/OPERATING.md, "Many boards": with examples/rust/folder.rs,
# and with the program under xargs, by that page's own command. Each line must be document 01's, so that both say the
# same of each board. Also sums, exit statuses, and what is said where something cannot be read. Stops at the first
# difference. Needs the static library, which tests/library.sh builds, and the program.
set -eu
cd "$(dirname "$0")/.."

root=$PWD
work=$(mktemp -d)
trap 'rm -rf "$work"' EXIT
. tests/common/bytes.sh

fail() {
    echo "tests/folder.sh: $*" >&2
    exit 1
}

# the page's block of commands that has the text $1
page() {
    awk -v text="$1" '
        /^```/ { if (index(block, text)) printf "%s", block; block = ""; next }
        { block = block $0 "\n" }' "$root/docs/OPERATING.md"
}

folder() {
    cargo run --quiet --offline --manifest-path "$root/rust/Cargo.toml" -p lemoncolumn --example folder -- "$@"
}

# board $1 is what the commands $3 write; of it the example says $2, the program $4 where that is something else
board() {
    eval "$3" >"$1"
    printf '%s: %s\n' "$1" "$2" >>"${1%%/*}.expected"
    printf '%s: %s\n' "$1" "${4:-$2}" >>"${1%%/*}.program"
}

# the example on the folder $1: the lines of its boards, the sum $2, the exit status $3, and no word on standard error
clears() {
    status=0
    folder table.raw "$1" >output 2>errors || status=$?
    [ ! -s errors ] || fail "$1: on standard error: $(cat errors)"
    sed '$d' output | diff "$1.expected" - || fail "$1: the lines of the example are not those expected"
    sed -n '$p' output | grep -qxE "$2; [0-9]+ boards a second" || fail "$1: the sum is '$(sed -n '$p' output)'"
    [ "$status" -eq "$3" ] || fail "$1: exit status $status"
}

# the example called with the arguments from $2 on says on standard error what $1 is, nothing else, and has status 2
says() {
    status=0
    expected=$1
    shift
    folder "$@" >output 2>errors || status=$?
    printf '%s\n' "$expected" | diff - errors || fail "folder $*: standard error is not what is expected"
    [ "$status" -eq 2 ] && [ ! -s output ] || fail "folder $*: exit status $status, or something was printed"
}

# ---- the page, from its first command on, as in a fresh clone
mkdir "$work/fresh" && cd "$work/fresh"
ln -s "$root/crates" "$root/target" .
page 'mkdir boards' >try.sh
page xargs >many.sh
sh -eu try.sh
sh -eu many.sh
echo 'boards/duty 7: accepted 1 372' | diff - lines ||
    fail 'the command of docs/OPERATING.md printed another line for its board'

# ---- boards of all kinds, the last entries none. The order is that of the names.
mkdir "$work/all" && cd "$work/all"
mkdir boards accepted refused
Z >table.raw
board 'boards/a claim that is another' 'refused 11 31 49' 'word 1; elements 1; repeat 19 "elements 0"'
board 'boards/claim, two batches' 'refused 11 63 50' 'word 2; elements 0 7; repeat 30 "elements 0"'
board boards/cut 'refused 12' 'zero_file 1 | dd bs=1 count=243 2>dd'
board boards/empty 'refused 12' ':'
board boards/k1 'accepted 1 372' 'word 1; elements 8 27 1 0 8 27 1 0; repeat 12 "elements 0"'
board boards/k1024 'accepted 1024 380928' 'word 1024; repeat 8 "repeat 1537 \"elements 0\""' 'too long'
board boards/k1024more 'refused 12' 'cat boards/k1024; zeros 1' 'too long'
board boards/k16 'accepted 16 5952' 'zero_file 16'
board boards/k2 'accepted 2 744' 'zero_file 2'
board boards/k2048 'refused 14 0' 'word 2048; repeat 8 "repeat 3073 \"elements 0\""' 'too long'
board boards/k3 'refused 14 0' 'zero_file 3'
board boards/k32 'accepted 32 11904' 'zero_file 32' 'too long'
board boards/kind 'refused 13 5' 'with "zero_file 1" 20 "word 0xc0000000"'
board boards/more 'refused 12' 'zero_file 1; zeros 1'
board boards/p 'refused 14 58' 'with "zero_file 1" 232 "elements $P"'
mkdir boards/y
echo 'boards/y: not read: not a regular file' >>boards.expected
ln -s nowhere boards/z
echo 'boards/z: not read: No such file or directory (os error 2)' >>boards.expected
clears boards '5 accepted, 10 refused, 2 not read' 2

board refused/1 'accepted 1 372' 'zero_file 1'
board refused/2 'refused 12' 'zeros 2'
clears refused '1 accepted, 1 refused, 0 not read' 1

# a name of two lines gets one all the same
zero_file 1 >"$(printf 'accepted/two\nlines')"
echo 'accepted/two?lines: accepted 1 372' >accepted.expected
clears accepted '1 accepted, 0 refused, 0 not read' 0

# ---- what cannot be begun
says 'usage: folder TABLE FOLDER'
says 'usage: folder TABLE FOLDER' table.raw
says 'nowhere: No such file or directory (os error 2)' nowhere boards
says 'nowhere: No such file or directory (os error 2)' table.raw nowhere
zeros 3168 >zero.raw
says 'zero.raw: refused 3' zero.raw boards
{ Z; zeros 1; } >long.raw
says 'long.raw: refused 1' long.raw boards

# ---- the same folder by the page's command, whose lines must be those of $1; $2 says what is tried
by_page() {
    sh -eu "$work/fresh/many.sh" 2>errors
    sort "$1" | diff - lines || fail "$2: the lines of the page's command are not those expected"
}

mkdir -p target/bin
cp "$root/target/bin/clear" target/bin/clear
by_page boards.program 'all boards'
[ ! -s errors ] || fail "the page's command, on standard error: $(cat errors)"

# Every board has its line, also where there is no verdict on it: the table is not there, the board cannot be read (a
# cat that fails after the table stands for that, since every file can be read as root), or the program is stopped.
sed 's/: .*/: no answer/' boards.program >boards.unanswered
mv table.raw away.raw
by_page boards.unanswered 'no table'
mv away.raw table.raw
mkdir failing
printf '#!/bin/sh\n%s\nexit 1\n' "$(command -v cat)" >failing/cat
chmod +x failing/cat
(PATH=$PWD/failing:$PATH by_page boards.unanswered 'boards that cannot be read')
printf '#!/bin/sh\nkill -9 $$\n' >target/bin/clear
by_page boards.unanswered 'a program that is stopped'

echo "tests/folder.sh: $(($(wc -l <boards.program))) boards, of which the example and the program say what they must"
