#!/bin/sh
# Instructions a byte of slices and of reversal, on texts of one letter: of one byte, of two and of three.
# usage: bench/slices.sh   (in a folder of its own; what is not proved of the libraries is proved first)
. "$(dirname "$0")/common.sh"
build_over slices tera_report tera_meaning tera_scalars tera_values

# One round takes what two more take beside one, by halves. usage: measure LETTER BYTES WORD..
measure() {
    letter=$1
    bytes=$2
    shift 2
    once=$(instructions "$program" "$letter" 1 "$@")
    more=$(instructions "$program" "$letter" 3 "$@")
    cell "\`$*\`" "\`$letter\`" "$(each $((more - once)) $((2000000 * bytes)))"
}

for letter in 'a 1' 'é 2' '€ 3'; do
    # shellcheck disable=SC2086
    set -- $letter
    measure "$1" "$2" reverse
    for bounds in '_ _ _' '_ _ -1' '_ _ 2' '_ _ -2' '999990 _ _' '-10 _ _' '10 -10 _' \
        '10 -10 2' '-10 10 -1' '-10 10 -2'; do
        # shellcheck disable=SC2086
        measure "$1" "$2" slice $bounds
    done
done
show "instructions a byte"
