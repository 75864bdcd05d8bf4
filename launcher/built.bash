# What is known of the program that stands where it is run from. Its file `built` has a line for each of these: whether it was
# proved on this machine, the sum over the sources that it was built from, its own sum, and how the sources and it looked then.

made=$top/crates/bureau_main/out
program=$made/bureau_main

declare -A built=()

say() { echo "bureau: $*" >&2; }

# The names, sizes and times of all that the program may be made of: as long as they stay, nothing was written.
looks_of_sources() {
    (cd "$top" && find HANDLES crates.txt crates/*/src crates/*/specs crates/*/proofs -type f \
        ! -regex 'crates/\([a-z]*_tests\|\(content\|desk\|input\|store\)_rows\)/.*' -printf '%p %s %T@\n') 2>/dev/null | sha256sum
}

looks_of_program() { stat -c '%s %.Y' -- "$program" 2>/dev/null; }

# One sum over the names and the bytes of what the program is made of, in a folder.
sum_of_sources() { # FOLDER
    (
        . "$top/launcher/crates.bash" && read_crates "$1" && lines_of_crates && cd "$1/crates" || exit
        printf '%s\n' "${crates[@]}" | sed 's/.*/&\/src\n&\/specs\n&\/proofs/' | xargs -d '\n' sh -c 'find "$@" -type f -print0 2>/dev/null' sh |
            LC_ALL=C sort -z | xargs -0 sha256sum ../HANDLES
    ) 2>/dev/null | sha256sum
}

sum_of_program() { sha256sum <"$program" 2>/dev/null; }

# Takes in what `built` says.
read_built() {
    local word rest
    built=()
    while read -r word rest; do [ -z "$word" ] || built[$word]=$rest; done 2>/dev/null <"$made/built"
}

# Says of the program in its place whether it was proved, and from which sources it was built, by their sum and their looks.
write_built() { # yes|no SUM LOOKS
    printf '%s\n' "proved $1" "sources $2" "looks $3" "program $(sum_of_program)" "program_looks $(looks_of_program)" >"$made/built.new" &&
        mv -- "$made/built.new" "$made/built"
}

# Whether the program was built from the sources as they are, and proved where that is wanted. Only where something has another name,
# size or time is all of it read.
is_current() { # any|proved
    local looks
    [ -x "$program" ] && [ -e "$made/built" ] || return 1
    read_built
    [ "$1" = any ] || [ "${built[proved]-}" = yes ] || return 1
    looks=$(looks_of_sources)
    [ "${built[looks]-}" != "$looks" ] || [ "${built[program_looks]-}" != "$(looks_of_program)" ] || return 0
    [ "${built[program]-}" = "$(sum_of_program)" ] && [ "${built[sources]-}" = "$(sum_of_sources "$top")" ] || return 1
    write_built "${built[proved]}" "${built[sources]}" "$looks" 2>/dev/null
    return 0
}

# Says of a program that was built here without a proof that it was.
say_if_unproved() {
    read_built
    [ "${built[proved]-yes}" = yes ] || say 'this program was not proved on this machine; "./bureau --prove" proves it'
}
