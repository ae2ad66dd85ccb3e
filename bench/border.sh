#!/bin/sh
# Instructions that the library for C takes within its own calls: for a line of a session and the copy of its reply, on the
# lines of bench/measure.sh; and for an escaped text.
# usage: bench/border.sh
. "$(dirname "$0")/common.sh"
"$top/bindings/build"
cc -O2 -Wall -Wextra "-I$top/out" "$top/bench/border/main.c" "$top/out/libtera.a" -o "$work/border"

# The instructions within these calls.
within() {
    calls=$1
    shift
    # shellcheck disable=SC2086
    valgrind --tool=callgrind --callgrind-out-file=/dev/null $calls "$@" 2>&1 >/dev/null |
        sed -n 's/.*Collected : \([0-9]*\).*/\1/p'
}

both="--toggle-collect=tera_line --toggle-collect=tera_reply"
python3 "$top/bench/scalars.py" 40000 >"$work/script"
python3 "$top/bench/scalars.py" 40000 --answers >"$work/wanted"
"$work/border" lines <"$work/script" | cmp - "$work/wanted"
cell "40,000 short lines, a line" "from C" $(($(within "$both" "$work/border" lines <"$work/script") / 40000))
for kind in set eq cmp print; do
    awk -v kind="$kind" 'NR <= 32 && $1 == "set" { print } $1 == kind { for (i = 0; i < 4; i++) print }' "$work/script" >"$work/$kind"
    cell "\`$kind\` alone, a line" "from C" $(($(within "$both" "$work/border" lines <"$work/$kind") / $(wc -l <"$work/$kind")))
done
# What one more call takes, of so many letters.
escape() {
    once=$(within --toggle-collect=tera_escape "$work/border" escape "$1" "$2" 1)
    more=$(within --toggle-collect=tera_escape "$work/border" escape "$1" "$2" 21)
    echo "$(((more - once) / 20))"
}
for letter in a '<'; do
    cell "escaping 10 \`$letter\`" "from C" "$(escape "$letter" 10)"
    cell "escaping 1,000,000 \`$letter\`, a byte" "from C" "$(each "$(escape "$letter" 1000000)" 1000000)"
done
show instructions
