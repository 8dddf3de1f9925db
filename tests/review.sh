#!/bin/sh
# Holds docs/REVIEW.md and docs/THEOREMS.md to the repository: that the table of public functions is complete, that each
# of them has a contract which equates its result and what it writes with a definition, and asks nothing at an entry
# point; that both have every statement; that what they and the other documents name exists; that the counts are right,
# and that the index of docs/DECISIONS.md has each entry. Prints what is wrong, and fails if anything is.
set -eu
cd "$(dirname "$0")/.."

page=docs/REVIEW.md
theorems=docs/THEOREMS.md
work=$(mktemp -d)
trap 'rm -rf "$work"' EXIT

wrong() {
    echo "tests/review.sh: $*" >>"$work/wrong"
}
: >"$work/wrong"

# ---- the public functions: name, tab, signature and contract on one line. `main` of a program is not public: no
# function calls it, and its type has nothing to hand back.
find crates/*/src -name '*.rt' | sort | while read -r file; do
    at=$(echo "$file" | sed 's|^crates/||; s|/src/|/|; s|\.rt$||; s|/lib$||; s|/main$||; s|/|::|g')
    awk -v at="$at" '
        /^impl[ <]/ { type = $0; sub(/^impl(<[^>]*>)? /, "", type); sub(/[ <].*/, "::", type) }
        /^}/ { type = "" }
        /^ *pub .*fn / { open = 1; head = ""; name = $0; sub(/.*fn /, "", name); sub(/[^a-z0-9_].*/, "", name) }
        open { line = $0; sub(/^ +/, " ", line); head = head line }
        open && /\{$/ { print at "::" type name "\t" head; open = 0 }' "$file"
done >"$work/functions"
[ -s "$work/functions" ] || wrong "no public function was found"
# The functions of a trait that a type implements need no `pub`. So there are none, but what std writes for Clone, Copy,
# PartialEq and Eq, and the one of this list: IMPL | GHOST MEMBER, which says all that the impl's function answers.
traits='
impl From<Refusal> for Unclear {|    ghost from_gives = { λ r u. u ≡ Refused r };
'
echo "$traits" | grep . >"$work/traits"
grep -nE '^ *(unsafe )?impl[ <].* for |#\[derive\(' crates/*/src/*.rt |
    grep -vE '#\[derive\(Clone, Copy(, PartialEq, Eq)?\)\]$' | while IFS=: read -r file line text; do
    said=$(sed -n "$((line + 1))p" "$file")
    grep -qxF -e "$text|$said" "$work/traits" || wrong "$file:$line:$text: a trait beside Clone, Copy, PartialEq and Eq"
done

# ---- what a contract may name in the place of an equation. RELATION THEOREM: the theorem says that the relation allows
# one answer; with `=` the relation is a record of equations, or of such relations. `divided` stands for an equation of
# the element that a word below p stands for, `number_of` for one of the number of a kind
relations='
Prepares prepares_unique
PrepareCall prepare_call_unique
Inverts inverts_unique
Clears clears_unique
divided divided_unique
number_of number_unique
IsCompared compared_unique
HandsOver =
BuildCall =
ReadOffCall =
EditCall =
UnhashCall =
PackCall =
UnpackCall =
PackShortCall =
UnpackShortCall =
ToShortCall =
ToFullCall =
'
named=" $(echo "$relations" | awk '{ print $1 }' | tr '\n' ' ') "
echo "$relations" | grep . | while read -r relation theorem; do
    cut -f 2 "$work/functions" | grep -q " ensures.*[( ]$relation " || wrong "no contract names the relation $relation"
    if [ "$theorem" = = ]; then
        awk -v relation="$relation" -v named="$named" '
            index($0, "pub record " relation " (") == 1 { on = 1; head = "" }
            /^$/ { on = 0 }
            on && /^  pub / {
                split($0, word, " ")
                if (!(word[5] == "≡" && head ~ "[( ]" word[4] " ") && !index(named, " " word[4] " "))
                    print "tests/review.sh: the field " word[2] " of " relation " is no equation"
                fields++
                next
            }
            on && !fields { head = head $0 }
            END { if (!fields) print "tests/review.sh: there is no record " relation }' crates/*/specs/*.antt
    else
        stated=$(cat crates/*/proofs/*.antt | awk -v begins="pub $theorem : " '
            on && !/^ / { exit } index($0, begins) == 1 { on = 1 } on' | tr '\n' ' ')
        case $stated in
        *"$relation "*"$relation "*"→"*" ≡ "*) ;;
        *) echo "tests/review.sh: $theorem does not say that $relation allows one answer" ;;
        esac
    fi
done >>"$work/wrong"

# ---- the structs, by their fields
find crates/*/src -name '*.rt' | sort | xargs awk '
    /^pub struct [A-Za-z]+\(/ {
        line = $3; sub(/\(.*/, "", line); n = split($0, part, ",")
        for (i = 0; i < n; i++) line = line " " i
        print line
    }
    /^pub struct .*\{$/ { line = $3; sub(/<.*/, "", line); open = 1; next }
    open && /^}/ { print line; open = 0 }
    open && / ghost / { next }
    open { field = $0; sub(/^ *(pub )?/, "", field); if (sub(/:.*/, "", field)) line = line " " field }' >"$work/structs"

# ---- the table of section 6 beside them. Entry points are the operations of documents 01 and 02, the table test, and
# whatever other languages link
operations="table::test table_prepare::prepare hash::hash hash_chain::chain trace::build check_trace::check"
operations="$operations trace_read_off::read_off trace_edit::edit hash_undo::unhash board::pack board::unpack"
operations="$operations board_short::pack_short board_short::unpack_short board_to_short::to_short"
operations="$operations board_to_full::to_full clear_answer::clear"
awk -F '\t' -v operations=" $operations " -v named="$named" -v structs="$work/structs" '
    function bad(text) { print "tests/review.sh: " name ": " text }
    function apart(text) { text = " " text " "; gsub(/[() ]+/, " ", text); return text }
    # whether the text has the word, or a field of what it names
    function speaks(text, word) { text = apart(text); return index(text, " " word " ") || index(text, " " word ".") }
    function deeper(text) { return gsub(/\(/, "", text) - gsub(/\)/, "", text) }
    # a part of an ensures, without brackets around the whole
    function bare(text, i, depth) {
        while (text ~ /^\(.*\)$/) {
            depth = 1
            for (i = 2; depth && i < length(text); i++) depth += deeper(substr(text, i, 1))
            if (!depth) break
            text = substr(text, 2, length(text) - 2)
        }
        return text
    }
    # what a part of an ensures equates with a definition: the result, a field of it, or what is left in a buffer
    function part_says(text, flat, left, right, word, buffer) {
        split(text, word, " ")
        flat = flattened(text)
        if (flat ~ / (→|⊎|×) /) return
        if (index(named, " " word[1] " ")) {
            if (word[1] == "divided" && !index(apart(promise), " Canonical result ")) return
            if (speaks(text, "result")) said["result"] = 1
            for (buffer in written) if (speaks(text, buffer ".new")) said["&" buffer] = 1
            return
        }
        if (word[1] ~ /^Match(Option|Result)$/ && word[2] == "result") { by_test(text); return }
        if (gsub(/ ≡ /, "", flat) != 1) return
        left = substr(text, 1, index(text, " ≡ ") - 1)
        right = substr(text, length(left " ≡ ") + 1)
        if (right ~ /\.(new|exit)/) return
        for (buffer in written)
            if (left == buffer ".new" || left == buffer ".new." only_field(written[buffer])) said["&" buffer] = 1
        if (right ~ /^[A-Z][A-Za-z]*\.[A-Z][A-Za-z]* result$/ && !speaks(left, "result")) said["result"] = 1
        if (speaks(right, "result")) return
        if (left == "result" || left == "result.now") said["result"] = 1
        if (left ~ /^result\.[a-z0-9_]+$/) said[substr(left, length("result") + 1)] = 1
    }
    # a result by a test: nothing to tell where it says yes, and where it says no one value, or what the function that
    # was passed answers for one
    function by_test(text, test) {
        test = text
        if (!sub(/^Match(Option|Result) result \((λ _\. )?/, "", test) || !sub(/ ≡ true\) .*/, "", test)) return
        if (index(text, ". (" test " ≡ false) × (i ≡ ") || index(text, ". (" test " ≡ false) × F.post "))
            said["result"] = 1
    }
    # the field of a struct that has no other
    function only_field(type, field) { return split(fields[type], field, " ") == 2 ? field[2] : "" }
    function flattened(text) { while (gsub(/\([^()]*\)/, "_", text)) continue; return text }
    function clause_says(clause, j, m, text, piece) {
        if (flattened(clause) ~ / (→|⊎) /) return
        m = split(clause, piece, / × /)
        text = ""
        for (j = 1; j <= m; j++) {
            text = text (text == "" ? "" : " × ") piece[j]
            if (deeper(text)) continue
            part_says(bare(text))
            text = ""
        }
    }
    # the texts of the ensures of a function, named or not, and of all of them together
    function ensures_of(text, i, depth) {
        promise = ""; clauses = 0
        while (match(text, / ensures( [a-z0-9_]+)? \{ /)) {
            text = substr(text, RSTART + RLENGTH)
            depth = 1
            for (i = 1; depth && i <= length(text); i++) {
                if (substr(text, i, 1) == "{") depth++
                if (substr(text, i, 1) == "}") depth--
            }
            clause[++clauses] = substr(text, 1, i - length(" } "))
            promise = promise (promise == "" ? "" : " × ") clause[clauses]
            text = substr(text, i)
        }
        return clauses
    }
    BEGIN { while ((getline line < structs) > 0) { type = line; sub(/ .*/, "", type); fields[type] = line } }
    FNR == NR { head[$1] = $2; next }
    /^\| `[a-z_]+::/ {
        split($0, part, / \| /)
        name = part[1]; gsub(/[`| ]/, "", name)
        row[name]++
        if (!(name in head)) { bad("in the table, but there is no such public function"); next }
        if (row[name] > 1) bad("twice in the table")
        if (part[2] != "yes" && part[2] != "no") bad("neither entry point nor not")
        if (part[2] == "no" && (index(operations, " " name " ") || head[name] ~ /pub extern/))
            bad("an entry point that the table does not call one")
        if (part[2] == "yes" && head[name] ~ /requires/) bad("an entry point with a requires")
        ensures_of(head[name])
        n = split(part[3], word, "`")
        if (n < 3) bad("the table quotes nothing from its contract")
        for (i = 2; i <= n; i += 2)
            if (!index(apart(promise), apart(word[i]))) bad("its ensures does not say `" word[i] "`")
    }
    END {
        for (name in head) {
            if (!(name in row)) bad("a public function that is not in the table")
            if (!ensures_of(head[name])) { bad("no ensures"); continue }
            asked = head[name]
            sub(/ (requires|ensures|ghost)[ *].*/, "", asked)
            split("", written); split("", said)
            type = asked; if (!sub(/.* -> /, "", type)) said["result"] = 1
            sub(/[ <].*/, "", type)
            while (match(asked, /[a-z_0-9]+: &(.[a-z]+ )?mut /)) {
                buffer = substr(asked, RSTART); sub(/:.*/, "", buffer)
                held = substr(asked, RSTART + RLENGTH); sub(/[^A-Za-z].*/, "", held)
                written[buffer] = held
                asked = substr(asked, RSTART + RLENGTH)
            }
            for (i = 1; i <= clauses; i++) clause_says(clause[i])
            n = split(fields[type], field, " ")
            for (i = 2; i <= n && said["." field[i]]; i++) continue
            if (!said["result"] && !(n && i > n)) bad("its ensures does not equate the result with a definition")
            for (buffer in written)
                if (!said["&" buffer]) bad("its ensures does not equate what it leaves in " buffer " with a definition")
        }
    }' "$work/functions" "$page" >>"$work/wrong"

# ---- what the documents name in backquotes: files, and edits as CRATE/EDIT; not what the gate leaves in target/, and
# rt in a crate's out/
awk 'FNR == 1 { fence = 0 } /^```/ { fence = !fence; next }
    !fence { n = split($0, word, "`"); for (i = 2; i <= n; i += 2) print FILENAME "\t" word[i] }' README.md docs/*.md |
    grep -E '	[A-Za-z0-9_.-]+/[A-Za-z0-9_./-]*$' | grep -vE '	(target|(crates/[a-z0-9_]+/)?out)/' | sort -u |
    while IFS='	' read -r where name; do
        [ -e "$name" ] || [ -e "crates/${name%%/*}/must-fail/${name#*/}.edit" ] && continue
        found=no
        for crate in crates/*/; do [ -e "$crate$name" ] && found=yes && break; done
        [ "$found" = yes ] || wrong "$where names $name, which is no file and no edit"
    done

# ---- theorems: the fields that section 1 names, and where a row of a table ends in the file that has them
declared='^ *((pub|unfoldable|abbrev) )*'
awk 'function each(file, cell) { m = split(cell, word, "`"); for (i = 2; i <= m; i += 2) print file, word[i] }
    /^\| (U?[0-9]+(, U[0-9]+)*|TurnedBack|Program|Stored) \| .* \| .* \| / {
        split($0, part, / \| /)
        stated = part[1]; sub(/^\| /, "", stated); sub(/,.*/, "", stated)
        sub(/^U/, "Request", stated); sub(/^[0-9]/, "Demand&", stated)
        each("crates/demands/specs/" stated ".antt", part[3])
    }
    /^\|.*\| `crates\/[^`]*\.antt` \|$/ {
        n = split($0, part, / \| /)
        file = part[n]; gsub(/[`| ]/, "", file)
        each(file, part[n - 1])
    }' "$theorems" "$page" |
    while read -r file name; do
        [ ! -e "$file" ] || grep -qE "$declared$name :" "$file" || wrong "$file has no $name"
    done

# ---- every statement of crate `demands`, to the letter: it is closed and stands in specs/, and its theorem is of that
# type, with no parameter and in no section
statements=$(cd crates/demands/specs && echo *.antt | sed 's/\.antt//g; s/ Lib / /')
for n in 1 2 3; do
    case " $statements " in *" Demand$n "*) ;; *) wrong "crates/demands/specs has no Demand$n" ;; esac
done
for statement in $statements; do
    stated=crates/demands/specs/$statement.antt
    proved=crates/demands/proofs/$statement.antt
    theorem=$(echo "$statement" | sed 's/[A-Z0-9]/_&/g; s/^_//' | tr A-Z a-z)
    [ "$(grep -cx "pub record $statement : Type 0 where" "$stated")" = 1 ] ||
        wrong "$stated does not declare 'pub record $statement : Type 0 where'"
    [ "$(grep -cx "pub $theorem : $statement" "$proved")" = 1 ] ||
        wrong "$proved does not declare 'pub $theorem : $statement'"
    grep -qE "^use Rattle\.demands\.specs\.$statement\.\{(.*, )?$statement(, .*)?\}$" "$proved" ||
        wrong "$proved does not take $statement from $stated"
    ! grep -nE "^ *(pub |abbrev |unfoldable |opaque |record |data )*$statement( |\$)" "$proved" ||
        wrong "$proved declares a $statement of its own"
    grep -qF "| \`$theorem\` | \`$proved\` |" "$theorems" || wrong "$theorems has no row for $theorem of $proved"
    row=$(echo "$statement" | sed 's/^Demand//; s/^Request/U/')
    grep -qE "^\| $row(, U[0-9]+)* \| " "$page" || wrong "section 1 has no row for $statement"
done

# ---- section 4, a line for each edit: the edit, the fact and where it stands, then the theorems
awk '/^## / { on = /^## 4/ }
    on && /^\|.*`[a-z_]+\/[a-z0-9_]+`/ {
        split($0, part, / \| /); split(part[3], word, "`")
        print part[2], word[2], word[4], part[4]
    }' "$page" |
    tr -d '`,|' >"$work/edits"
[ -s "$work/edits" ] || wrong "section 4 has no edits"

# What the prover said first of each edit, after the gate's `rt ci`: the edit, the goal or lemma, and the function or
# the file that it belongs to. rt cuts the line off, and then perhaps the goal's name too, which so ends in `*`.
log=target/ci.log
[ ! -e "$log" ] || awk '
    function function_at(file, line, at, text, type, name) {
        while (at < line && (getline text <file) > 0) {
            at++
            if (text ~ /^impl[ <]/) { type = text; sub(/^impl(<[^>]*>)? /, "", type); sub(/[ <].*/, "::", type) }
            if (text ~ /^}/) type = ""
            if (text ~ /^ *(pub |const |extern "C" )*fn /) {
                name = text; sub(/.*fn /, "", name); sub(/[^a-z0-9_].*/, "", name); name = type name
            }
        }
        close(file)
        return name
    }
    function place_of(crate, file, line) {
        if (file ~ /^src\//) return function_at("crates/" crate "/" file, line)
        sub(/^proofs\//, "", file)
        if (file ~ /(^|\/)[a-z_+][^\/]*\/(Answers|Invariants|Proof)\.antt$/) {
            sub(/\/[^\/]*$/, "", file); sub(/\+/, "", file); gsub(/\//, "::", file)
            return file
        }
        sub(/\.antt$/, "", file); gsub(/\//, ".", file)
        return file
    }
    /^rt: must-fail [^ ]*\.edit: refused, as it must be: (note: )?(\.\/)?(src|proofs)\/[^ :]*:[0-9]+:[0-9]+: / {
        edit = $3; sub(/\.edit:$/, "", edit)
        at = $0; sub(/^.*refused, as it must be: (note: )?(\.\/)?/, "", at)
        goal = at; sub(/ .*/, "", at); split(at, part, ":")
        sub(/^[^`]*`/, "", goal); sub(/^search`[^`]*`/, "", goal)
        if (!sub(/`.*/, "", goal)) goal = goal "*"
        print edit, goal, place_of(substr(edit, 1, index(edit, "/") - 1), part[1], part[2])
    }' "$log" >"$work/said"

while read -r edit need name ruling; do
    for theorem in $ruling; do
        grep -rqE "$declared$theorem :" crates/*/specs crates/*/proofs ||
            wrong "section 4 names the theorem $theorem, which nothing declares"
    done
    [ -e "$log" ] || continue
    awk -v edit="$edit" '$1 == edit { print $2, $3 }' "$work/said" | while read -r goal place; do
        case $need,::$place in
        $goal,*::"$name") ;;
        *) wrong "$edit is refused at $goal of $place, and not at $need of $name" ;;
        esac
    done
done <"$work/edits"

# ---- section 3: every file of definitions, with its lines; those to be believed rest on no helper; nothing rests on
# proofs (`sets` is a definition, which the kit hands out with its lemmas), or gives a symbol of the kit's library, or
# another name that is taken from it, another meaning
awk '/^## / { on = /^## 3/ }
    /^Helpers/ { kind = "helper" }
    on && /^\| `crates/ {
        split($0, part, / \| /); gsub(/[`| ]/, "", part[1])
        print part[1], part[2], kind
    }' "$page" >"$work/listed"
for file in crates/*/specs/*.antt; do
    case $file in */Lib.antt) continue ;; esac
    grep -q "^$file " "$work/listed" || wrong "$file is not in section 3"
done
while read -r file lines kind; do
    [ -e "$file" ] || continue
    [ "$(($(wc -l <"$file")))" = "$lines" ] || wrong "$file has not $lines lines"
    [ "$kind" = helper ] || continue
    module=$(basename "$file" .antt)
    crate=${file#crates/}
    crate=${crate%%/*}
    while read -r other _ kind; do
        [ "$kind" = helper ] || ! grep -qE "Rattle\.$crate\.specs\.$module([. ]|\$)" "$other" ||
            wrong "$other rests on $file, which section 3 calls a helper"
    done <"$work/listed"
done <"$work/listed"
sets='Rattle\.std\.proofs\.lemmas\.List\.Edits\.{sets}'
grep -nE '\.proofs\.|::proofs::' crates/*/src/*.rt crates/*/specs/*.antt |
    grep -vE '\.rt:[0-9]+: *#\[tactic\(' | sed "s/$sets//" | grep -E '\.proofs\.|::proofs::' >>"$work/wrong" || :
kit='use (Rattle\.std|mathlib|lib)\.'
names=$(grep -hE "$kit" crates/*/src/*.rt crates/*/specs/*.antt | sed -n 's/.*{\(.*\)}.*/\1/p' | sed 's/ as [^,]*//g' |
    tr -d ' ' | tr ',' '\n' | grep -v '[]◌[]' | sort -u | tr '\n' '|')
names="($names[^ ]*◌[^ ]*|now)"
grep -nE "^ *((pub|abbrev|unfoldable|opaque) )*$names( \{[^}]*\})*( :|\$)|^ *(pub )?(record|data) $names( |\$)" \
    crates/*/specs/*.antt >>"$work/wrong" || :

# ---- the index of the decisions has each entry, and no other
awk '/^## / { on = /^## Index/ } on && /^\| .* \| [0-9, ]+ \|$/ { sub(/ \|$/, ""); sub(/.*\| /, ""); print }' \
    docs/DECISIONS.md | tr -d ' ' | tr ',' '\n' | sort -u >"$work/indexed"
sed -n 's/^\([0-9][0-9]*\)\. \*\*.*/\1/p' docs/DECISIONS.md | sort >"$work/decided"
[ -s "$work/decided" ] || wrong "docs/DECISIONS.md has no entry"
diff "$work/indexed" "$work/decided" | sed -n 's|^< |tests/review.sh: the index has an entry that is not there: |p
    s|^> |tests/review.sh: the index of docs/DECISIONS.md lacks |p' >>"$work/wrong"

if [ -s "$work/wrong" ]; then
    cat "$work/wrong" >&2
    exit 1
fi
echo "tests/review.sh: docs/REVIEW.md agrees with the repository: $(($(wc -l <"$work/functions"))) public functions," \
    "$(($(wc -l <"$work/listed"))) files of definitions"
