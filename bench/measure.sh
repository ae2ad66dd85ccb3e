#!/bin/sh
# Instructions a line of the program on short lines, and its memory at two lengths.
# usage: bench/measure.sh
. "$(dirname "$0")/common.sh"
build_replay

memory() {
    valgrind --tool=massif --massif-out-file="$work/massif" "$program" <"$1" >/dev/null 2>&1
    grep -h '^mem_heap_B=' "$work/massif" | cut -d= -f2 | sort -n | tail -n 1
}

for lines in 40000 400000; do
    python3 "$top/bench/scalars.py" "$lines" >"$work/$lines"
    all=$(instructions "$program" <"$work/$lines")
    cell "$lines short lines, a line" instructions $((all / lines))
    cell "$lines short lines, a line" "bytes of heap at most" "$(memory "$work/$lines")"
done
for kind in set eq cmp print; do
    python3 "$top/bench/scalars.py" 40000 | awk -v kind="$kind" '
        NR <= 32 && $1 == "set" { print } $1 == kind { for (i = 0; i < 4; i++) print }' >"$work/$kind"
    lines=$(wc -l <"$work/$kind")
    cell "\`$kind\` alone, a line" instructions $(($(instructions "$program" <"$work/$kind") / lines))
done
printf 'set t "' >"$work/long"
head -c 1000000 /dev/zero | tr '\0' 'a' >>"$work/long"
printf '"\n' >>"$work/long"
cell "\`set\` of one text of 1,000,000 bytes, a byte" instructions $(($(instructions "$program" <"$work/long") / 1000000))
show script
