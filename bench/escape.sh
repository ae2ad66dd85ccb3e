#!/bin/sh
# Instructions a byte of escape_text, on letters alone and on `<` alone.
# usage: bench/escape.sh   (proves tera_report first, in a folder of its own)
. "$(dirname "$0")/common.sh"
build_over escape tera_report

# Rounds over a text of a million bytes; what one round takes beside the others.
for letter in a '<'; do
    once=$(instructions "$program" "$letter" 1)
    more=$(instructions "$program" "$letter" 21)
    cell "\`$letter\` alone" "instructions a byte" "$(each $((more - once)) 20000000)"
done
show text
