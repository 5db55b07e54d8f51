# How the launcher has the program proved and built, or compiled without its proofs. Sourced by it, after program.sh, if one of these is
# still to be done. It ends with 70 if that fails. scripts/build_library takes from it how progress is shown.

# How long the first proof takes: calculated from the processor time of each crate (docs/dev/GATE.md).
first_time='20 to 50 minutes on four processors'

# Shows how far a proof of $1 crates is, from the lines that the tool writes, and what it refused.
show_progress() {
    local line done=0
    while IFS= read -r line; do
        case $line in
            'rt: '*' tests are '*) ;;
            'rt: '*' proved' | 'rt: '*' is kept: '*)
                done=$((done + 1))
                line=${line#rt: }
                say "  $done of $1: ${line%% *}"
                ;;
            'rt: '*'NOT PROVED'*) say "  ${line#rt: }" ;;
        esac
    done
}

# How many checks run side by side: one a processor, if there are 3 GB of memory for each.
side_by_side() {
    local most fit
    most=$(nproc 2>/dev/null) || most=1
    fit=$(awk '/^MemAvailable:/ { print int($2 / (3 * 1024 * 1024)) }' /proc/meminfo 2>/dev/null)
    ((${fit:-1} < most)) && most=${fit:-1}
    printf '%d' "$((most > 0 ? most : 1))"
}

# At the end of a build, also of one that is stopped: ends the tool, whose process is noted in its folder, and removes the folder `work`.
clear_up() {
    local tool
    [[ ! -s $work/tool.pid ]] || { read -r tool <"$work/tool.pid" && kill "$tool" 2>/dev/null; }
    # (what ends just now may still write there)
    rm -rf -- "$work" 2>/dev/null || { sleep 0.5; rm -rf -- "$work"; }
}

# A build that gets a signal ends, and `clear_up` ends the tool.
end_by_signals() {
    trap clear_up EXIT
    trap 'exit 129' HUP
    trap 'exit 130' INT
    trap 'exit 131' QUIT
    trap 'exit 143' TERM
}

# A build that is done.
end_build() {
    clear_up
    trap - EXIT HUP INT QUIT TERM
}

# Runs the tool in the folder $1 with the words that follow, and notes its process for `clear_up`.
run_tool() {
    local status
    (cd "$1" && shift && exec "$@") </dev/null &
    printf '%s\n' "$!" >"$work/tool.pid"
    wait "$!"
    status=$?
    : >"$work/tool.pid"
    return "$status"
}

# Proves and builds the program: the gate of the tool, over a copy of the program's crates. It proves as many crates side by side
# as there are processors and memory for. If the toolchain keeps what it has proved on this machine, a build that is interrupted goes on
# from there, and a later one proves only what changed and what uses it. Else each begins anew.
prove() {
    local tool log made begun=$SECONDS status
    tool=$(find_tool) || no_tool
    mkdir -p "$crate/out"
    log=$crate/out/build.log
    work=$(mktemp -d "$crate/out/build.XXXXXX") || exit 70
    end_by_signals
    sum_program >"$work/start"
    if [[ -e $program ]]; then
        say "a source or the toolchain has changed since the program was proved; it is proved and built again, which takes minutes if the toolchain keeps what it proved, and else $first_time"
    else
        say "the program and all below it is proved and built, which takes $first_time; later calls use what was proved"
    fi
    rm -f "$program.built"
    copy_sources "$work/copy" || { complain "the sources could not be copied to $work"; exit 70; }
    # (a signal ends a `wait`, and not what runs in the foreground)
    { RT_JOBS=${RT_JOBS:-$(side_by_side)} run_tool "$work/copy" "$tool" ci 2>&1; echo "$?" >"$work/status"; } | tee "$log" |
        show_progress "$(wc -l <"$work/copy/crates.txt")" &
    wait "$!"
    read -r status <"$work/status"
    made=$work/copy/crates/twin_lathe/out/twin_lathe
    if [[ $status != 0 || ! -x $made ]]; then
        complain "the program was not proved or not built; what the tool says is in $log"
        exit 70
    fi
    cp -- "$made" "$program.new" && mv -- "$program.new" "$program" || exit 70
    note_built "$work/start"
    end_build
    say "proved and built in $((SECONDS - begun)) seconds"
}

# Says at a terminal every second how long this has taken, until it is ended or the launcher has gone.
show_seconds() {
    local begun=$SECONDS
    while sleep 1 && kill -0 "$$" 2>/dev/null; do printf '\r\033[Ktwin_lathe: compiling, %d seconds so far' "$((SECONDS - begun))" >&2; done
}

# Ends that, and wipes what it said.
end_seconds() {
    [[ -n $ticker ]] || return
    { kill "$ticker"; wait "$ticker"; } 2>/dev/null
    printf '\r\033[K' >&2
    ticker=
}

# Compiles the program without proofs and keeps it. If another call is compiling it, that one's is waited for.
compile() {
    mkdir -p "$crate/out" || exit 70
    if command -v flock >/dev/null && exec {compiling}>"$crate/out/compile.lock"; then
        if ! flock -n "$compiling"; then
            say 'another call is compiling the program; this one waits for it'
            flock "$compiling"
        fi
        is_compiled || compile_anew {compiling}>&-
        exec {compiling}>&-
    else
        compile_anew
    fi
}

# The tool has such a program only while it runs, in a folder below TMPDIR. So it is run on a tape that is a pipe: while it waits for that
# tape it is copied. If the tool ends before that, the pipe is opened in its place.
compile_anew() {
    local tool log found begun=$SECONDS ticker=
    tool=$(find_tool) || no_tool
    log=$crate/out/try.log
    work=$(mktemp -d) || exit 70
    end_by_signals
    mkdir "$work/tool"
    mkfifo "$work/tape"
    sum_program >"$work/start"
    say 'the program is compiled first, without its proofs, which takes two minutes or so; later calls start at once'
    if [[ -t 2 ]]; then show_seconds & ticker=$!; fi
    {
        TMPDIR=$work/tool run_tool "$crate" "$tool" try -- verify "$work/tape" /dev/null /dev/null
        : <>"$work/tape"
    } >"$log" 2>&1 &
    exec 9>"$work/tape"
    found=$(find "$work/tool" -type f -name program -perm -u+x -print -quit)
    if [[ -n $found ]]; then cp -- "$found" "$unproved.new" && chmod 755 "$unproved.new" && mv -- "$unproved.new" "$unproved"; fi
    exec 9>&-
    end_seconds
    if [[ -z $found || ! -x $unproved ]]; then
        wait
        tail -n 5 "$log" >&2
        complain "the program was not compiled; what the tool says is in $log"
        exit 70
    fi
    note_built "$work/start" "$unproved"
    wait
    end_build
    say "compiled in $((SECONDS - begun)) seconds"
}
