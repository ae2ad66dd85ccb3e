#!/bin/sh
# Instructions of a page of 1,000 items: by `render`, and by the same look-ups, prints and escapes of the layer.
# usage: bench/pages.sh   (in a folder of its own; what is not proved of the libraries is proved first)
. "$(dirname "$0")/common.sh"
build_over pages tera_report tera_meaning tera_scalars tera_values tera_conversions tera_arguments tera_context tera tera_filters tera_page

# The instructions of a page, by that way.
taken() {
    once=$(instructions "$program" "$1" "$2" 1)
    more=$(instructions "$program" "$1" "$2" 5)
    echo $(((more - once) / 4))
}

for page in short long; do
    [ "$("$program" calls "$page" 1)" = "$("$program" render "$page" 1)" ] || { echo "the pages differ" >&2; exit 1; }
    calls=$(taken calls "$page")
    render=$(taken render "$page")
    cell "$page" calls "$calls"
    cell "$page" render "$render"
    cell "$page" ratio "$(each "$render" "$calls")"
done
show "instructions a page"
