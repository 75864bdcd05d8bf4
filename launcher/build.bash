# Builds the program from a copy of its sources as they were when the build began: the quick way, without a proof, or proved.

. "$top/launcher/crates.bash" && . "$top/launcher/quick.bash" && . "$top/launcher/prove.bash" || return

# the folder of the build, what runs in it, what waits for another use, and with which status a signal ends the launcher
room=
worker=
waiting=
signalled=

# Ends what runs.
end_all() {
    local pid
    for pid in $worker $waiting; do
        kill -TERM -- "-$pid" 2>/dev/null
        wait "$pid" 2>/dev/null
    done
    worker='' waiting=''
}

# Leaves nothing of the build but what rt keeps of proofs. To remove the rest takes a while, for which nobody waits. What was begun
# ends a moment later, and may have written meanwhile.
clear_up() {
    end_all
    [ -z "$room" ] || setsid sh -c 'rm -rf "$1" || { sleep 1 && rm -rf "$1"; }' sh "$room" </dev/null >/dev/null 2>&1 9>&- &
    room=
}

# Ends the launcher where a signal came. Until this looks, a signal is only noted, so that nothing is left half begun.
end_if_stopped() {
    [ -n "$signalled" ] || return 0
    trap '' INT TERM HUP PIPE
    clear_up
    tell "stopped"
    exit "$signalled"
}

# Ends a build that cannot go on, and says why.
give_up() { # WHY..
    end_if_stopped
    clear_up
    tell "$@"
    return 1
}

# Runs a command as a group of its own, which a signal to the launcher does not reach, to its end. It ends where the launcher does,
# however that ends. Its input is empty, and what it says goes to the log.
run_beside() { # COMMAND..
    set -m
    setpriv --pdeathsig TERM "$@" </dev/null >"$log" 2>&1 9>&- &
    worker=$!
    set +m
    local tick
    for ((tick = 0; ; tick++)); do
        kill -0 "$worker" 2>/dev/null || break
        end_if_stopped
        show_progress "$tick"
        sleep "${BUREAU_TICK:-1}"
    done
    end_if_stopped
    wait "$worker"
    local status=$?
    worker=
    return "$status"
}

# What is shown on a terminal while something runs: one line, which is written over, with the minutes and what `progress` says. On
# other streams it is a line of its own, where `progress` says something new.
shown=
last_told=
progress() { :; }

show_progress() { # TICK
    local now columns
    if [ -t 2 ] && [ "${TERM:-dumb}" != dumb ]; then
        columns=$(stty size <&2 2>/dev/null)
        columns=${columns#* }
        [ "${columns:-0}" -gt 0 ] || columns=80
        now="bureau: minute $(((SECONDS - began) / 60)): $doing$(progress)"
        printf '\r\033[K%s' "${now:0:columns-1}" >&2
        shown=1
    elif [ $(($1 % 15)) -eq 0 ]; then
        now=$(progress)
        [ -z "$now" ] || [ "$now" = "$last_told" ] || say "minute $(((SECONDS - began) / 60)): $doing$now"
        last_told=$now
    fi
}

# Says a line in place of the one that is shown.
tell() { # WORD..
    [ -z "$shown" ] || printf '\r\033[K' >&2
    shown=
    say "$@"
}

minutes() {
    local all=$(((SECONDS - began) / 60 + 1))
    echo "$all minute$([ "$all" -eq 1 ] || echo s)"
}

# Makes the room: the crates of the program as a repository of their own, and a folder for what is written meanwhile. As root, rt runs
# the program as nobody, who must come to it. The room's name has the launcher's process: where that was killed, the next one clears up.
make_room() {
    local name part old
    for old in "${TMPDIR:-/var/tmp}"/bureau.*.??????; do
        name=${old%.*}
        kill -0 "${name##*.}" 2>/dev/null || rm -rf "$old" 2>/dev/null
    done
    room=$(mktemp -d -p "${TMPDIR:-/var/tmp}" "bureau.$$.XXXXXX" 2>/dev/null) && chmod 711 "$room" && mkdir -m 711 "$room/tmp" &&
        mkdir -p "$room/sources/crates" && cp -- "$top/HANDLES" "$room/sources/" && lines_of_crates >"$room/sources/crates.txt" || return 1
    for name in "${crates[@]}"; do
        mkdir "$room/sources/crates/$name" || return 1
        for part in src specs proofs args stdin stdout; do
            [ ! -e "$top/crates/$name/$part" ] || cp -a -- "$top/crates/$name/$part" "$room/sources/crates/$name/" || return 1
        done
    done
}

# Puts a program where it is run from.
put_program() { # PROGRAM yes|no SUM LOOKS: whether it was proved, and from which sources it was made
    rm -f "$made/built" "$program.new" && cp -- "$1" "$program.new" && mv -- "$program.new" "$program" && write_built "${@:2}"
}

# Whether there is all that a build needs.
can_build() {
    if ! command -v rt >/dev/null 2>&1; then
        say "the program is not built yet, and the command rt of the Rattle toolchain, which builds it, is not there"
    elif ! [ -e "$top/crates.txt" ]; then
        say "$top is not the repository of the bureau"
    elif ! mkdir -p "$made" 2>/dev/null || ! [ -w "$made" ]; then
        say "$made cannot be written, so the program cannot be built there"
    else
        return 0
    fi
    return 1
}

# Takes the lock under which one use at a time builds.
take_lock() {
    exec 9>"$made/lock"
    flock -n 9 && return
    say "another use builds the program now; this one waits for it"
    set -m
    flock 9 &
    waiting=$!
    set +m
    wait "$waiting"
    end_if_stopped
    waiting=
}

# Builds the program from the sources as they are now: without a proof where that is enough and can be done here, else proved.
build_from_sources() { # any|proved
    local looks sum status=1
    looks=$(looks_of_sources)
    sum=$(sum_of_sources "$top")
    read_crates "$top" || give_up "crates.txt has no line of bureau_main" || return 1
    make_room || give_up "the sources cannot be copied to ${TMPDIR:-/var/tmp} for the build" || return 1
    [ "$sum" = "$(sum_of_sources "$room/sources")" ] || give_up "the sources changed while they were copied; try again" || return 1
    if [ "$1" = any ]; then
        build_quickly
        status=$?
    fi
    case $status in
    0) put_program "$room/program" no "$sum" "$looks" ;;
    1) prove_all && put_program "$room/sources/crates/bureau_main/out/bureau_main" yes "$sum" "$looks" ;;
    2) return 1 ;;
    esac || give_up "the program was not built" || return 1
    clear_up
    if [ "$status" -eq 0 ]; then
        tell "built from these sources in $(minutes), not proved on this machine; \"./bureau --prove\" proves them and builds again (about an hour)"
    else
        tell "proved and built in $(minutes)"
    fi
    [ "$sum" = "$(sum_of_sources "$top")" ] || say "the sources have changed since the build began; the next use builds again"
}

# Waits until no other use builds, and builds then, unless that one has.
build_program() { # any|proved
    log=$made/log
    can_build || return 1
    trap 'signalled=130' INT
    trap 'signalled=143' TERM
    trap 'signalled=129' HUP
    trap 'signalled=141' PIPE
    take_lock
    if ! is_current "$1"; then
        began=$SECONDS
        build_from_sources "$1" || return 1
        end_if_stopped
    fi
    trap - INT TERM HUP PIPE
    # what was begun beside, and has not closed it yet, keeps no other use waiting
    flock -u 9
    exec 9>&-
}
