# Whether a program or an archive stands that is newer than all that it is built from, and no file
# of it has come or gone since. Read by `./replay` and tools/prove.py; `top` is the repository.
# shellcheck shell=sh disable=SC2154
is_fresh() {
    [ -f "$1" ] && [ -z "$(find "$top/crates" "$top/crates.txt" -path '*/out' -prune -o \
        \( -name '*.rt' -o -name '*.antt' -o -name crates.txt \
        -o -type d -regex '.*/\(src\|specs\|proofs\).*' \) -newer "$1" -print -quit)" ]
}
