#!/bin/sh
# Instructions a key of comparing, cloning, looking up, printing and building maps of text keys, and of cloning an array.
# usage: bench/maps.sh   (in a folder of its own; what is not proved of the libraries is proved first)
. "$(dirname "$0")/common.sh"
build_over maps tera_report tera_meaning tera_scalars tera_values

# What the program does, in words.
said() {
    case $1 in
        eq) echo '`==` of two equal maps, in the same order' ;;
        cmp) echo '`cmp` of two equal maps, in the same order' ;;
        opposite) echo '`cmp` of two equal maps, in opposite orders' ;;
        near) echo '`cmp` of two that differ at the greatest key' ;;
        clone) echo '`clone`, and its end' ;;
        get) echo '`Map::get` by a text' ;;
        print) echo '`to_text`' ;;
        keys) echo 'making the keys alone, and their end' ;;
        build) echo 'building by `insert`, and its end' ;;
        array) echo '`clone` of an array of as many numbers, an item' ;;
    esac
}

for does in eq cmp opposite near clone get print keys build array; do
    for keys in 10 100 1000 10000; do
        once=$(instructions "$program" "$does" "$keys" 1)
        more=$(instructions "$program" "$does" "$keys" 3)
        cell "$(said "$does")" "$keys keys" $(((more - once) / 2 / keys))
    done
done
show "instructions a key"
