#!/bin/sh
# Reads target/ci.log, which is what the gate's `rt ci` printed: that every crate has passed, with a verdict of the
# installed kit which rests on nothing but the three C functions of the program that docs/REVIEW.md names, and that
# every must-fail edit was refused because a fact no longer holds, and not for its shape. Prints what is wrong, and
# fails if anything is.
set -eu
cd "$(dirname "$0")/.."

log=target/ci.log
[ -f "$log" ] || { echo "tests/evidence.sh: there is no $log, which .ci/run leaves" >&2 && exit 1; }
work=$(mktemp -d)
trap 'rm -rf "$work"' EXIT
: >"$work/wrong"

# ---- the whole: every crate and every edit counts, none of them is bad, and none is refused only by a limit
crates=$(awk '{ sub(/#.*/, "") } /:/ { sub(/:.*/, ""); print $1 }' crates.txt)
libraries=$(awk '{ sub(/#.*/, "") } /:/ { sub(/:.*/, ""); if ($2 == "staticlib") print $1 }' crates.txt)
set -- crates/*/must-fail/*.edit
edits=$#
set -- $crates "$@"
[ "$(tail -n 1 "$log")" = "$# passed, 0 failed" ] || echo "$log does not end in '$# passed, 0 failed'" >>"$work/wrong"
[ "$(grep '^rt: ok; ' "$log" | sed 's/ refused; .*/ refused/')" = \
    "rt: ok; handles allowed: none; must-fail edits: $edits refused" ] ||
    echo "$log has no line 'rt: ok' with $edits edits refused, none of them bad or only by a limit" >>"$work/wrong"

# ---- verdicts: one to a crate, and no word in it (`foreign=`, `may-abort=`, `bugs=`, `pinned=`) beyond those below.
# The sum is the installed kit's own, so that what another kit said is refused
found=$(rt version)
sum=$(echo "$found" | sed -n 's/.* logic //p')
[ -n "$sum" ] || { echo "tests/evidence.sh: the kit '$found' names no logic" >&2 && exit 1; }
trusted="sum=$sum native=nat,char,string logic-built=trusted libraries-built=trusted statements=trusted"

verdict() { # CRATE WORDS-AFTER-THE-FUNCTIONS AXIOMS: of what was said of the crate, in $work/said
    grep '^logic=' "$work/said" | sed 's/ functions=[0-9][0-9]*//; s/ incremental=trusted$//' >"$work/verdict"
    [ "$(cat "$work/verdict")" = "logic=proved $2$trusted" ] ||
        echo "$1 has another verdict: $(cat "$work/verdict")" >>"$work/wrong"
    sed -n 's/^axioms \(.*\) of the [0-9]* declared\()\{0,1\}\)$/\1\2/p' "$work/said" >"$work/axioms"
    [ "$(cat "$work/axioms")" = "$3" ] && [ "$(grep -c '^axioms ' "$work/said")" = "$(grep -c . "$work/axioms")" ] ||
        echo "$1 rests on other axioms: $(grep '^axioms ' "$work/said" | tr '\n' ';')" >>"$work/wrong"
}
built="target=x86_64-unknown-linux-gnu cpu=x86-64-v2 "
none='libc: none reached
os: none reached
std: none reached'
three='libc: libc::read, libc::write (2)
os: os::c::rattle_errno (1)
std: none reached'

for crate in $crates; do
    awk -v begins="== $crate" -v ends="rt: $crate proved" '
        $0 == begins { on = 1 } on { print } $0 == ends { on = 0 }' "$log" >"$work/said"
    kept="rt: $crate is kept: an earlier run on this machine proved the same files over the same libraries"
    kept=$(grep -cxF "$kept" "$log") || :
    proved=$(grep -cxF "rt: $crate proved" "$work/said") || :
    # What an earlier run proved has no verdict in the log. rt keeps it by the sums of the kit and of all that it read.
    case $proved,$kept in
    1,0 | 0,1) ;;
    *) echo "$log does not say once that $crate was proved, or is kept" >>"$work/wrong" && continue ;;
    esac
    case " clear $(echo $libraries) " in
    *" $crate "*)
        # What it rests on is asked again.
        [ "$kept" = 0 ] || (cd "crates/$crate" && rt check) >"$work/said" 2>&1 ||
            echo "rt check does not prove $crate" >>"$work/wrong"
        case $crate in
        clear) verdict "$crate" "axioms=3 $built" "$three" ;;
        *) verdict "$crate" "$built" "$none" ;;
        esac
        ;;
    *) [ "$kept" = 1 ] || verdict "$crate" "" "" ;;
    esac
done

# Only the verdicts of the program and of a static library count axioms, those of all that it reaches. So that none
# hides in a crate that neither reaches, such a crate has no function. No crate names a library of the kit, beside std,
# which all have.
awk -v tops="clear $(echo $libraries)" '
    { sub(/#.*/, "") }
    /:/ { name = $1; sub(/:.*/, "", name); sub(/^[^:]*:/, ""); listed[name] = 1; needs[name] = $0 }
    function reach(name, word, i, n) {
        if (name in reached) return
        reached[name] = 1
        n = split(needs[name], word, " ")
        for (i = 1; i <= n; i++) reach(word[i])
    }
    END {
        for (name in needs) {
            n = split(needs[name], word, " ")
            for (i = 1; i <= n; i++)
                if (!(word[i] in listed)) print "wrong crates.txt: " name " needs " word[i] ", a library of the kit"
        }
        n = split(tops, top, " ")
        for (i = 1; i <= n; i++) reach(top[i])
        for (name in needs) if (!(name in reached)) print "apart " name
    }' crates.txt >"$work/needs"
sed -n 's/^wrong //p' "$work/needs" >>"$work/wrong"
for crate in $(sed -n 's/^apart //p' "$work/needs"); do
    ! grep -rnE '(^|[ (])fn ' "crates/$crate/src" >"$work/functions" ||
        echo "no program and no static library reaches $crate, which has functions: $(head -n 1 "$work/functions")" \
            >>"$work/wrong"
done

# ---- edits: rt prints the first of what the prover said of each, cut off at 160 letters, and passes over errors that
# only say that a name is gone, if there is another. That first one shows a fact that fails: a goal that is left open,
# or an error in a proof. What an edit changes is itself in order: an error in src/ or specs/ shows no fact. An error in
# the closing `.._spec` of a proof says that the goals are others than they were
grep -l '^file: proofs/' crates/*/must-fail/*.edit | sed 's/$/ alters a proof, which shows nothing/' >>"$work/wrong"
printf '%s\n' crates/*/must-fail/*.edit | sed 's|^crates/||; s|/must-fail/|/|' |
    awk '
        # whether the text is this head and then this tail, as far as rt has printed it
        function is_of(text, head, tail, rest) {
            if (index(text, head) != 1) return 0
            rest = substr(text, length(head) + 1)
            return rest == "" || index(tail, rest) == 1 || index(rest, tail) == 1
        }
        function shows_fact(said, wanted, part) {
            # a goal that no proof file answers, and that the tactics leave open
            if (said ~ /^note: (\.\/)?src\/[^ :]*\.rt:[0-9]+:[0-9]+: it is not proved that /) return 1
            # or that is false at values which the facts known there allow
            if (said ~ /^note: (\.\/)?src\/[^ :]*\.rt:[0-9]+:[0-9]+: `search` found no proof \(`[^`]*`\); the facts /)
                return 1
            if (said !~ /^(\.\/)?proofs\/[^ :]*\.antt:[0-9]+:[0-9]+: error: `[^`]*`: /) return 0
            if (said ~ /^[^`]*`[^`]*[_-]spec`: /) return 0
            sub(/^[^`]*`[^`]*`: /, "", said)
            if (said ~ /^(as printed|computed as far as they go), the two (types|sides) /) return 1
            # an equation that `cc` does not find, a goal that `grind` does not
            if (said ~ /^list the missing equation with its arguments, or rewrite by `rw` or `simp`/) return 1
            if (said ~ /^`grind` found no proof\. /) return 1
            wanted = said
            if (sub(/^expected type `/, "", wanted)) {
                sub(/`.*/, "", wanted)
                # what is wanted is a statement, not the type of a term
                return wanted ~ / / && wanted !~ /^(List|Type) /
            }
            if (said ~ /^give a proof of that as the last argument, `(rw|simp) L t`/) return 1
            if (said ~ /^`search`: no proof of `/) return 1
            # values at which a goal fails, or a part of it
            sub(/^`omega`: the part `[^`]*` of the goal /, "`omega`: the goal ", said)
            wanted = "`omega`: the goal does not follow from what it read."
            return is_of(said, wanted, " All of that holds, and the goal fails, at ") || \
                is_of(said, wanted, " All of that holds, and the part fails, at ")
        }
        FNR == NR { listed[$0] = 1; next }
        /^rt: must-fail / {
            edit = $3; sub(/:$/, "", edit)
            if (!(edit in listed)) { print edit ": rt tried it, and there is no such edit"; next }
            if (tried[edit]++) print edit ": tried twice"
            said = substr($0, length("rt: must-fail " $3 " ") + 1)
            if (!sub(/^refused, as it must be: /, "", said) || !shows_fact(said))
                print edit ": not refused at a fact: " said
        }
        END { for (edit in listed) if (!tried[edit]) print edit ": not tried" }' - "$log" >>"$work/wrong"

if [ -s "$work/wrong" ]; then
    sed 's|^|tests/evidence.sh: |' "$work/wrong" >&2
    # another kit may word a verdict or a message otherwise
    [ "$found" = "$(cat kit.txt)" ] ||
        echo "tests/evidence.sh: this is the kit '$found'; the words known here are those of '$(cat kit.txt)'" >&2
    exit 1
fi
echo "tests/evidence.sh: $(echo "$crates" | wc -l) crates passed; three axioms in the program, none in the libraries;" \
    "$edits edits refused at a fact"
