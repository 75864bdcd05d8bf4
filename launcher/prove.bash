# Proves the crates and builds the program of them, by one run of `rt ci` over a copy of the crates that the program is made of. What it
# proves, rt keeps beside itself, by the sums of all that was read. So nothing is proved twice on a machine, also where a build is broken
# off, or where `run-tests` proved it.

# How many crates rt has said to be proved, or kept from an earlier run.
progress_of_proofs() {
    echo "proved $(grep -cE '^rt: [a-z0-9_]+ (proved$|is kept)' "$log") of ${#crates[@]}"
}

# Says what rt said of the crates that are not proved, or, where it said nothing of them, its last lines.
tell_failed_proof() {
    end_if_stopped
    tell "not all was proved or built; rt said:"
    { grep -E 'error|no proof|not proved|NOT PROVED|FAILED' "$log" || tail -n 5 "$log"; } | head -n 20 >&2
    say "all of it stands in $log"
    return 1
}

prove_all() {
    tell "the program is proved and built, which takes some 50 minutes on four processors, once"
    doing=
    progress() { progress_of_proofs; }
    TMPDIR=$room/tmp run_beside env -C "$room/sources" rt ci || tell_failed_proof
}
