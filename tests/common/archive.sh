# What an archive of the library may ask for and have, for the scripts of tests/ to read in. No test by itself.
# $work is a folder of the script's own, and its `fail` says what is wrong and ends it.

# Of the archive $1: it asks nobody for memory, and has none of its own that can be written.
alone() {
    nm "$1" >"$work/symbols"
    # a line of nm is address, type and name, and has no address where the name is asked for
    awk 'NF == 3 { defined[$3] = 1 } NF == 2 { asked[$2] = 1 }
        END { for (name in asked) if (!(name in defined)) print name }' "$work/symbols" | sort >"$work/asked"
    grep -q ' lemoncolumn_build$' "$work/symbols" || fail "$1 has no lemoncolumn_build"
    # to fill, copy and compare memory that is there, and nothing else
    others=$(grep -vxE 'mem(set|cpy|move|cmp)' "$work/asked" | tr '\n' ' ')
    [ -z "$others" ] || fail "the library asks for $others"
    # b, c and d: memory that can be written
    written=$(awk '$2 ~ /^[BbCcDd]$/ { print $3 }' "$work/symbols" | tr '\n' ' ')
    [ -z "$written" ] || fail "the library has memory of its own: $written"
}
