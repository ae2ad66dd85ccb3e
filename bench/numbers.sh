#!/bin/sh
# Instructions of a line on numbers, beside a line `eq` of the same length.
# usage: bench/numbers.sh   (builds the program first)
. "$(dirname "$0")/common.sh"
build_replay

# What one such line costs behind the lines of $work/base.
costs() {
    yes "$1" | head -n 1000 | cat "$work/base" - >"$work/more"
    before=$(instructions "$program" <"$work/base")
    more=$(instructions "$program" <"$work/more")
    echo $(((more - before) / 1000))
}

{
    printf 'set a 1234567u64\nset b 89i128\nset one 1\nset two 2\nset not -1\nset nil 0\n'
    printf 'set far 4294967295\nset low -170141183460469231731687303715884105728\nset abc "x"\n'
} >"$work/base"
for line in 'eq  a b' 'add a b' 'sub a b' 'mul a b' 'rem a b' 'pow b two' 'eq        a b' 'floor_div a b' 'negate a' \
    'read u8 b' 'get a' 'add a b -> c' 'get a -> c' 'pow one far' 'pow not far' 'pow nil far' 'pow two far' \
    'floor_div low not' 'add abc a' 'read u8 a'; do
    cell "\`$line\`" instructions "$(costs "$line")"
done
show line
