#!/bin/sh
# Instructions of a line that reaches into a value: into maps and arrays of 10 and of 10,000 parts, along paths, and into
# texts of 1,000,000 bytes.
# usage: bench/look_ups.sh   (builds the program first)
. "$(dirname "$0")/common.sh"
build_replay

# What one such line costs behind the lines of $work/base, over so many of them.
costs() {
    yes "$2" | head -n "$1" | cat "$work/base" - >"$work/more"
    before=$(instructions "$program" <"$work/base")
    more=$(instructions "$program" <"$work/more")
    echo $(((more - before) / $1))
}

# So many parts of the form that sed is told, between commas.
parts() {
    seq 0 $(($1 - 1)) | sed "$2" | paste -sd , | tr -d '\n'
}

for size in 10 10000; do
    {
        printf 'set m {%s}\n' "$(parts "$size" 's/.*/"k&": &/')"
        printf 'set n {%s}\n' "$(parts "$size" 's/.*/&: &/')"
        printf 'set a [%s]\n' "$(parts "$size" '')"
        printf 'set k "k5"\nset i 5i128\n'
    } >"$work/base"
    for line in 'attr m "k5"' 'item m k' 'item n i' 'item a i' 'path m "k5"' 'path a "5"' 'contains m k'; do
        cell "\`$line\`" "$size parts" "$(costs 100 "$line")"
    done
done
show instructions

printf 'set p [[[[[[[[[[7]]]]]]]]]]\n' >"$work/base"
echo "path of 1 element: $(costs 100 'path p "1"'), of 10: $(costs 100 'path p "0.0.0.0.0.0.0.0.0.1"')"

for size in 100 1000 10000; do
    printf 'set m {%s}\n' "$(parts "$size" 's/.*/"k&": &/')" >"$work/base"
    echo "fields of $size keys: $(($(costs 2 'fields m') / size)) a key"
done

{
    printf 'set t "%s"\n' "$(head -c 1000000 /dev/zero | tr '\0' a)"
    printf 'set p "%sb"\n' "$(head -c 500000 /dev/zero | tr '\0' a)"
} >"$work/base"
for line in 'contains t p' 'reverse t -> u' 'slice t 1 -1 _ -> u' 'slice t _ _ -1 -> u' 'slice t _ _ 2 -> u' \
    'slice t -1 _ _ -> u'; do
    echo "$line, of 1,000,000 letters: $(($(costs 2 "$line") / 100000)) tenths a byte"
done
