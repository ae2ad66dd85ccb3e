# What the benchmarks share; each sources it first. It needs valgrind, and installs Debian's package where it is missing.
set -eu
top=$(cd "$(dirname "$0")/.." && pwd)
command -v valgrind >/dev/null || { apt-get update && apt-get install -y valgrind; } >&2
work=$(mktemp -d)
trap 'rm -rf "$work"' EXIT

# The instructions that a program takes, with its arguments.
instructions() {
    valgrind --tool=callgrind --callgrind-out-file=/dev/null "$@" 2>&1 >/dev/null |
        sed -n 's/.*Collected : \([0-9]*\).*/\1/p'
}

# A figure of so many parts: with a decimal below 100 a part, and with two below 1.
each() {
    awk -v all="$1" -v parts="$2" 'BEGIN { it = all / parts; printf((it >= 100 ? "%d" : it >= 1 ? "%.1f" : "%.2f"), it) }'
}

# Keeps a figure for the table. usage: cell ROW COLUMN FIGURE
cell() {
    printf '%s\t%s\t%s\n' "$1" "$2" "$3" >>"$work/cells"
}

# Prints the table of all cells, as bench/README.md has it, rows and columns as they came. usage: show HEAD
show() {
    awk -F '\t' -v head="$1" '
        function told(it) { while (it ~ /^[0-9]+[0-9][0-9][0-9](,|$)/) sub(/[0-9][0-9][0-9](,|$)/, ",&", it); return it }
        !($1 in rows) { rows[$1]; row[++height] = $1 }
        !($2 in columns) { columns[$2]; column[++width] = $2 }
        { figure[$1, $2] = told($3) }
        END {
            line = "| " head " |"; rule = "|---|"
            for (at = 1; at <= width; at++) { line = line " " column[at] " |"; rule = rule "---|" }
            print line; print rule
            for (down = 1; down <= height; down++) {
                line = "| " row[down] " |"
                for (at = 1; at <= width; at++) line = line " " figure[row[down], column[at]] " |"
                print line
            }
        }' "$work/cells"
}

# Builds the program itself.
build_replay() {
    "$top/replay" --prove
    program=$top/crates/tera_replay/out/tera_replay
}

# Builds bench/NAME/main.rt.in over these libraries, in a folder of its own: what `./replay --prove` has proved of them is
# taken as it is, and the rest is proved first.
build_over() {
    name=bench_$1
    source=$top/bench/$1/main.rt.in
    shift
    mkdir -p "$work/crates/$name/src"
    git -C "$work" init -q
    for crate in "$@"; do
        mkdir -p "$work/crates/$crate/out"
        for part in src specs proofs out/rlib; do
            [ ! -d "$top/crates/$crate/$part" ] || cp -r "$top/crates/$crate/$part" "$work/crates/$crate/$part"
        done
        grep "^$crate:" "$top/crates.txt" >>"$work/crates.txt"
    done
    echo "$name: $*" >>"$work/crates.txt"
    cp "$source" "$work/crates/$name/src/main.rt"
    (cd "$work/crates/$name" && rt run) >&2
    program=$work/crates/$name/out/$name
}
