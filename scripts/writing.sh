# Rows of tapes that `plain` writes out. Sourced by the suites of `plain`, behind rows.sh. Tapes are given from line 3 on, with | for a line feed.

printf '%%\nO2\nM30\n%%\n' >"$work/tapes/end.nc"
printf '' >"$work/tapes/none.txt"
printf 'codes B\n' >"$work/tapes/system_b.txt"

# The settings of the rows that follow, and those of the cell alone, for the commands that take no others.
settings=none.txt
cell=none.txt

# The lines of a tape from line 3 on, with | for a line feed, and what ends it.
tape_text() { printf '%%\nO1\n%sM30\n%%\n' "$1" | tr '|' '\n'; }

# The row's name, the lines of the tape, and those that are due: they are written, accepted, and stay if they are written again.
written() {
    tape_text "$2" >shop.nc
    row "$1" 0 "$(tape_text "$3")"$'\n' plain shop.nc "$settings"
    call plain shop.nc "$settings" >plain.nc 2>/dev/null
    row "$1, judged" 0 $'accepted\n' verify plain.nc end.nc "$cell"
    row "$1, written again" 0 "$(tape_text "$3")"$'\n' plain plain.nc "$settings"
}

# The row's name, and the moves of path 1 that are due of the tape that was written last, with | for a line feed and no numbers of lines.
moved() {
    call run plain.nc end.nc "$cell" >report 2>"$work/complained"
    local status=$?
    rm -f twin.journal
    sed -nE '/^path 2 /q; s/^[0-9]+ (rapid|feed|cw|ccw|thread|dwell|aux) /\1 /p' report >"$work/said"
    judge "$1" 0 "$status" "$(tr '|' '\n' <<<"$2")"$'\n'
}

# The row's name, the lines of the tape, and the refusal that is due.
refused() {
    tape_text "$2" >shop.nc
    row "$1" 1 "refused 96 NotPlain $3"$'\n' plain shop.nc "$settings"
}

# The row's name, and the lines of the tape that was written last: the moves of a run are those that cycle_reading.py reads of its threads,
# tapers, grooves and holes, apart from the program.
moved_as_read() {
    [[ -n $missing ]] || moved "the moves of $1" "$(python3 "$root/scripts/cycle_reading.py" moves "$2" "$settings")"
}

# The row's name, the lines of the tape, and those that are due if they are worked out by hand: they are written, and read so by
# cycle_reading.py; and the moves of a run are those of that reading.
cycled() {
    local due=${3-} read=
    if [[ -z $missing ]]; then
        read=$(python3 "$root/scripts/cycle_reading.py" lines "$2" "$settings")
        due=${due:-$read}
        [[ $read == "$due" ]] && pass || fail "$1, read apart" "$read"
    fi
    [[ -n $due ]] || return 0
    written "$1" "$2" "$due"
    moved_as_read "$1" "$2"
}
