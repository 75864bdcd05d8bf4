# The crates of this repository that the program is made of, by crates.txt: bureau_main, those that it names, those that these name, and
# so on.

declare -A listed=()
crates=()

read_crates() { # FOLDER
    local line name
    local -A seen=()
    local -a left=(bureau_main) more
    listed=() crates=()
    while IFS= read -r line; do
        [[ $line =~ ^([a-z0-9_]+):( |$) ]] && listed[${BASH_REMATCH[1]}]=$line
    done <"$1/crates.txt"
    while [ ${#left[@]} -gt 0 ]; do
        name=${left[0]}
        left=("${left[@]:1}")
        [ -n "${listed[$name]-}" ] && [ -z "${seen[$name]-}" ] || continue
        seen[$name]=1
        crates+=("$name")
        read -ra more <<<"${listed[$name]#*:}"
        left+=("${more[@]}")
    done
    [ ${#crates[@]} -gt 0 ]
}

# Their lines of crates.txt.
lines_of_crates() {
    local name
    for name in "${crates[@]}"; do echo "${listed[$name]}"; done
}
