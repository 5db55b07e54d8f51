# How the launcher runs the program if it has something to say besides: how far a run is, and what the answer means. Sourced by it.
# The program is then a process below the launcher. A signal that ends the launcher ends the program too: TERM, INT, HUP and QUIT are handed
# on, and the launcher ends by the same signal. KILL can't be handed on; there the system itself ends the program, if `setpriv` can ask for it.

child=
handed=

# Hands this signal on to the program, or keeps it until there is one.
hand_on() {
    handed=$1
    [[ -z $child ]] || kill "-$1" "$child" 2>/dev/null
}

# Runs the program with the words given as a process below, until it ends. `status` is its own.
run_below() {
    local signal end_with=()
    ! setpriv --pdeathsig keep true 2>/dev/null || end_with=(setpriv --pdeathsig KILL --)
    for signal in TERM INT HUP QUIT; do trap "hand_on $signal" "$signal"; done
    # (the shell gives a process that it does not wait for no input and no interrupt, so both are given here)
    if { true <&0; } 2>/dev/null; then
        (trap - TERM INT HUP QUIT && exec ${end_with[@]+"${end_with[@]}"} "$program" "$@") <&0 &
    else
        (trap - TERM INT HUP QUIT && exec ${end_with[@]+"${end_with[@]}"} "$program" "$@" <&-) &
    fi
    child=$!
    [[ -z $handed ]] || kill "-$handed" "$child" 2>/dev/null
    # (a signal ends the waiting, and not the program)
    while wait "$child"; status=$?; kill -0 "$child" 2>/dev/null; do :; done
    trap - TERM INT HUP QUIT
}

# Begins to show how far a run is. `watcher` is the process that does it.
begin_progress() { "$root/scripts/watch_journal" "$$" </dev/null >/dev/null & watcher=$!; }

# Ends that, and wipes what it showed.
end_progress() {
    [[ -n $watcher ]] || return
    { kill "$watcher"; wait "$watcher"; } 2>/dev/null
    printf '\r\033[K' >&2
    watcher=
}

# Shows how far a run is until its report begins, and then the report, which comes on the standard input.
show_report() {
    local watcher line ended=0
    begin_progress
    # (a signal ends the program, and so its report)
    trap '' TERM INT HUP QUIT
    IFS= read -r line || ended=1
    end_progress
    if ((ended)); then printf '%s' "$line"; else printf '%s\n' "$line" && exec cat; fi
}

# The same as run_below, with progress. If the report goes to the terminal too, it waits until the progress is wiped.
run_with_progress() {
    local watcher= report shown
    if [[ -t 1 ]]; then
        exec {report}> >(show_report)
        shown=$!
        run_below "$@" >&"$report"
        exec {report}>&-
        wait "$shown"
    else
        begin_progress
        run_below "$@"
        end_progress
    fi
}

# Runs the program, says what its answer means, and ends as it ended. That is looked up afterwards, from its status, so nothing comes between
# the program and its output.
run_and_explain() {
    local status
    case $1 in
        run | resume | make) if [[ -t 2 ]]; then run_with_progress "$@"; else run_below "$@"; fi ;;
        *) run_below "$@" ;;
    esac
    if [[ -n $handed && $status -gt 128 ]]; then kill "-$handed" "$$"; fi
    # (a reader that closes the pipe, as `head` does, is no fault to speak of)
    [[ $status == 5 && -p /dev/stdout ]] || "$root/scripts/explain" "$program" "$status" "$@" >&2
    exit "$status"
}

# Whether the program that was chosen is the proved one.
is_proved_program() { if is_release; then is_built; else [[ $program != "$unproved" ]]; fi; }

# Runs the program and prints its answer as JSON.
run_as_json() {
    local status answer proved=true
    is_proved_program || proved=false
    answer=$(mktemp) || exit 12
    run_below "$@" >"$answer"
    if [[ -n $handed && $status -gt 128 ]]; then rm -f -- "$answer"; kill "-$handed" "$$"; fi
    "$root/scripts/verdict_json" "$program" "$status" "$answer" "$proved" "$@" || status=5
    rm -f -- "$answer"
    exit "$status"
}
