# Runs the program where someone looks on. What a FAULT means stands on a line after it, as `bureau-client fault` tells it; all else is
# as the program tells it.

run_in_words() { # WORD..
    local said status
    { said=$("$program" "$@" 2>&1 >&3 3>&-); status=$?; } 3>&1
    [ -z "$said" ] || printf '%s\n' "$said" >&2
    if [[ $said =~ ^FAULT\ ([0-9]+) ]]; then
        said=$("$top/clients/bureau-client" fault "${BASH_REMATCH[1]}" 2>/dev/null) && say "FAULT ${BASH_REMATCH[1]}: $said"
    fi
    exit "$status"
}
