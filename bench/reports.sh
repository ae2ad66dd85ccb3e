#!/bin/sh
# Instructions of a report's text: on the first line of a source of a million bytes and on its last, on a line of a
# million letters, and with a thousand notes.
# usage: bench/reports.sh   (proves tera_report first, in a folder of its own)
. "$(dirname "$0")/common.sh"
build_over reports tera_report

# What one report of a shape takes. usage: costs SHAPE ROW
costs() {
    once=$(instructions "$program" "$1" 1)
    more=$(instructions "$program" "$1" 11)
    cell "$2" instructions $(((more - once) / 10))
}

costs near 'on the first of 50,000 lines of 20 bytes'
costs far 'on the last of them'
costs long 'on one line of 1,000,000 letters, all underlined'
costs notes 'on the first line, with 1,000 notes'
show report
