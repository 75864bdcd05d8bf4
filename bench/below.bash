# Copies for a program of bench: the crates that it stands on, which crates.txt tells.

# Makes a folder with a crate of the program, and copies of the crates that it names, that these name, and so on, as crates.txt says.
# What stands there of an earlier run but the copies stays, with what was proved and built.
lay_out() { # FOLDER NAME LIBRARY..
    local top left=("${@:3}") crate more line
    local -A seen=()
    top=$(cd "$(dirname "${BASH_SOURCE[0]}")/.." && pwd)
    while [ ${#left[@]} -gt 0 ]; do
        crate=${left[0]} left=("${left[@]:1}")
        [ -d "$top/crates/$crate" ] && [ -z "${seen[$crate]-}" ] || continue
        seen[$crate]=1
        read -ra more < <(sed -n "s/^$crate: *//p" "$top/crates.txt")
        left+=("${more[@]}")
    done
    mkdir -p "$1/crates/$2/src"
    : >"$1/crates.txt"
    while IFS= read -r line; do
        crate=${line%%:*}
        [ -n "$crate" ] && [ -n "${seen[$crate]-}" ] || continue
        rm -rf "$1/crates/$crate"
        cp -a "$top/crates/$crate" "$1/crates/$crate"
        echo "$line" >>"$1/crates.txt"
    done <"$top/crates.txt"
    echo "$2: ${*:3}" >>"$1/crates.txt"
    cp "$top/HANDLES" "$1/"
}
