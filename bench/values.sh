#!/bin/sh
# Instructions an item of arrays of integers, and a byte of a long text, call by call.
# usage: bench/values.sh
. "$(dirname "$0")/common.sh"
build_replay

# What the line, whose call is named, costs behind the lines of $work/base, over $size parts.
costs() {
    cp "$work/base" "$work/more"
    echo "$2" >>"$work/more"
    more=$(instructions "$program" <"$work/more")
    cell "\`$1\`" "$kind" "$(each "$((more - before))" "$size")"
}

measure() {
    printf 'set b %s\nset a %s\n' "$literal" "$literal" >"$work/base"
    before=$(instructions "$program" <"$work/base")
    for line in 'eq a b' 'cmp a b' 'get a -> c' 'get a' 'print a' 'escape a' 'len a'; do
        costs "$line" "$line"
    done
    printf 'set b 0\n' >"$work/base"
    before=$(instructions "$program" <"$work/base")
    costs 'set a LITERAL' "set a $literal"
}

for size in 10000 100000; do
    kind="an item of $size"
    literal="[$(seq -s ', ' 1 "$size")]"
    measure
done
size=1000000
kind="a byte of the text"
literal="\"$(head -c 1000000 /dev/zero | tr '\0' 'a')\""
measure
show line
