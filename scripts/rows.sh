# Rows that call the program as a user does, on real files and a real journal, and compare what it prints and its exit status.
# Sourced by the suites that call the program from the shell. Whoever sources it has set `root`, the repository's folder, `suite`, what its
# rows are called, and has sourced program.sh. `work` is a folder that goes at the end; each room, in which rows run, is a folder of it.

work=$(mktemp -d) || exit 1
trap 'rm -rf -- "$work"' EXIT

passed=0
failed=0

pass() { passed=$((passed + 1)); }

fail() {
    failed=$((failed + 1))
    printf '%s FAILED: %s: %s\n' "${suite% rows} row" "$1" "$2"
}

# Judges what stands in the files `said` and `complained` of a call that ended with the status $3: the row's name, the status and
# the output that are due.
judge() {
    local name=$1 due_status=$2 status=$3 due=$4 said
    # (the x keeps the line feeds at the end)
    said=$(cat "$work/said"; printf x)
    if has_hung "$status" && ! has_hung "$due_status"; then
        fail "$name" "it did not end"
    elif [[ $status != "$due_status" ]]; then
        fail "$name" "status $status, and $due_status is due; it printed: $(tail -n 1 "$work/said")"
    elif [[ $said != "${due}x" ]]; then
        fail "$name" "this is what it printed, and not what is due: ${said//$'\n'/ | }"
    elif [[ -s $work/complained ]]; then
        fail "$name" "it complained: $(head -n 1 "$work/complained")"
    else
        pass
    fi
}

# The command through which the program is called, where there is one: taskset or env with its words.
through=()

# Runs a command, which is given a minute, or so many seconds, and no input: one that hangs has a status that is never due.
limited() { timeout -s KILL "${seconds:-60}" "$@" </dev/null; }

# Calls the program so.
call() { limited "${through[@]}" "$program" "$@"; }

# The calls that follow have one processor, where that can be asked for.
pin() {
    command -v taskset >/dev/null || return 0
    local processors
    processors=$(taskset -cp $$)
    processors=${processors##*: }
    through=(taskset -c "${processors%%[-,]*}")
}

# The calls that follow have all processors.
unpin() { through=(); }

# Says that rows are left out, and why.
leave_out() { printf '%s: left out: %s\n' "$suite" "$1"; }

# The first of these tools that is not there, if one isn't.
lacks() {
    local tool
    for tool; do command -v "$tool" >/dev/null || { printf '%s' "$tool"; return; }; done
    false
}

# Whether a call with this status hung, and was killed.
has_hung() { [[ $1 == 137 || $1 == 124 ]]; }

# What the row is called, the status and the output that are due, and the words of the command.
row() {
    local name=$1 due_status=$2 due=$3
    shift 3
    call "$@" >"$work/said" 2>"$work/complained"
    judge "$name" "$due_status" $? "$due"
}

# The same, where one of two outputs is due: which path has its turn first is settled by nothing.
either() {
    local name=$1 due_status=$2 due=$3 other=$4 status
    shift 4
    call "$@" >"$work/said" 2>"$work/complained"
    status=$?
    if [[ $(cat "$work/said"; printf x) == "${other}x" ]]; then due=$other; fi
    judge "$name" "$due_status" "$status" "$due"
}

# The same, where only the last line of the output is due.
last_line() {
    local name=$1 due_status=$2 due=$3
    shift 3
    call "$@" >"$work/all" 2>"$work/complained"
    local status=$?
    tail -n 1 "$work/all" >"$work/said"
    judge "$name" "$due_status" "$status" "$due"
}

# A line of what was printed last, or one of two.
has_line() {
    if grep -qxF -e "$2" -e "${3-$2}" "$work/said"; then pass; else fail "$1" "it did not print the line: $2"; fi
}

# A line of all that was printed last, behind `last_line` or what else keeps it in `all`.
has_line_in_all() {
    if grep -qxF -e "$2" "$work/all"; then pass; else fail "$1" "it did not print the line: $2"; fi
}

# How many recorded moves were not made, as the lines of the file $1 say: `COUNT of PATH` for each path. And the file without them.
beside='(, besides those that the reader of its pipe has not read)?'
missed_in() {
    sed -nE -e "s/^path ([12]): (1) recorded move was not made$beside$/\2 of \1/p" \
        -e "s/^path ([12]): ([2-9]|[1-9][0-9]+) recorded moves were not made$beside$/\2 of \1/p" "$1"
}
without_missed() {
    grep -vE -e "^path [12]: 1 recorded move was not made$beside$" -e "^path [12]: ([2-9]|[1-9][0-9]+) recorded moves were not made$beside$" "$1"
}

# A file as hexadecimal digits.
digits() { od -An -v -tx1 "$@" | tr -d ' \n'; }

# The bytes of hexadecimal digits, between which there may be blanks.
from_digits() {
    local digits="$*"
    printf '%b' "$(sed 's/../\\x&/g' <<<"${digits//[[:space:]]/}")"
}

# A body behind an open gate, of digits and as digits, and its bytes.
entry_digits() {
    local body="$*"
    body=${body//[[:space:]]/}
    printf '01%08x%s' $((${#body} / 2)) "$body"
}
entry() { from_digits "$(entry_digits "$@")"; }

rooms=0
mkdir "$work/tapes"

# A folder of its own for the rows that follow, with all tapes in it.
room() {
    rooms=$((rooms + 1))
    cp -al "$work/tapes" "$work/room$rooms"
    cd "$work/room$rooms" || exit 1
}

# A tape or a text of these lines.
tape() {
    local name=$1
    shift
    printf '%s\n' "$@" >"$work/tapes/$name"
}

# A tape whose only program, O1, has these blocks and M30.
blocks() {
    local name=$1
    shift
    tape "$name" '%' 'O1' "$@" 'M30' '%'
}

# A file of so many bytes, in which no block is one.
long_file() {
    head -c "$2" /dev/zero | tr '\0' 'x' >"$work/tapes/$1"
}

# The report of a pair of which no path moves.
still() {
    printf 'path 1 moves 0\npath 2 moves 0\nrecords %d\nend %s\n' "$1" "$2"
}

# Finds the program: the one that is named, or the built one, which is built first where that is still to be done. Without one no row
# runs, and the suite has failed.
find_program() {
    begun=$SECONDS
    if (($#)); then
        program=$(readlink -f -- "$1")
        [[ -f $program && -x $program ]] || end_at 'the program' "$1 is none"
    else
        "$root/twin_lathe" prove >/dev/null || end_at 'the program' 'it was not proved or not built'
    fi
    begun=$SECONDS
}

# Ends the suite at this failure.
end_at() {
    fail "$1" "$2"
    count_rows
    exit 1
}

# As a user who is not root, whose rights count.
user=()
[[ $(id -u) != 0 ]] || user=(setpriv --reuid=65534 --regid=65534 --clear-groups)
as_user() {
    local name=$1 due_status=$2 due=$3
    shift 3
    limited "${user[@]}" "$work/lathe" "$@" >"$work/said" 2>"$work/complained"
    judge "$name" "$due_status" $? "$due"
}

# Whether a command can be called as such a user. If not, it says that the rows of $1 are left out.
has_user() {
    "${user[@]}" true 2>/dev/null || { leave_out "$1: root has no way here to call the program as another user"; false; }
}

# Makes the program one that this user may call.
share_program() {
    chmod 711 "$work"
    cp "$program" "$work/lathe"
    chmod 755 "$work/lathe"
}

# As `judge`, where this line is due on standard error.
judge_complaint() {
    local name=$1 due_status=$2 status=$3 due=$4 complaint=$5
    if [[ $(cat "$work/complained") == "$complaint" ]]; then
        : >"$work/complained"
    else
        printf 'it should say: %s; and it says: %s\n' "$complaint" "$(head -n 1 "$work/complained")" >"$work/complained"
    fi
    judge "$name" "$due_status" "$status" "$due"
}

# As `row`, with the line that is due on standard error before the words.
complaint() {
    local name=$1 due_status=$2 due=$3 complaint=$4
    shift 4
    call "$@" >"$work/said" 2>"$work/complained"
    judge_complaint "$name" "$due_status" $? "$due" "$complaint"
}

# The same, as a user who is not root.
complaint_as_user() {
    local name=$1 due_status=$2 due=$3 complaint=$4
    shift 4
    limited "${user[@]}" "$work/lathe" "$@" >"$work/said" 2>"$work/complained"
    judge_complaint "$name" "$due_status" $? "$due" "$complaint"
}

# Says how long the rows took, and how many passed. Whether all of them did.
count_rows() {
    printf '%s: %d seconds\n' "$suite" "$((SECONDS - begun))"
    printf '%s: %d passed, %d failed\n' "$suite" "$passed" "$failed"
    [[ $failed == 0 ]]
}
