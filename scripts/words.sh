# The command line as the launcher knows it: the list of the commands, the help, and what is wrong with words that are no command.
# Sourced. The program reads its words itself, and by a proved grammar; this list only saves a build and says more.

# Each command: its name, its words, its options, what it does (in at most 76 characters), and an example. A word in brackets may be left out. LEFT RIGHT
# [SETTINGS] are the files that it judges, so what is said about their lines (scripts/explain) is said for each such command.
commands='verify|LEFT RIGHT [SETTINGS]||judges the two tapes: can they deadlock at a wait?|verify examples/upper.nc examples/lower.nc examples/cell.txt
waits|LEFT RIGHT [SETTINGS]|outside|judges the waits of any two tapes, and lists where the paths meet|waits examples/shaft_upper.nc examples/shaft_lower.nc examples/plain.txt --outside 9000-9999
races|LEFT RIGHT [SETTINGS]||lists the shared variables whose value depends on which path is first|races examples/race_upper.nc examples/race_lower.nc examples/plain.txt
trace|LEFT RIGHT [SETTINGS]|blocks|prints each move, wait and meeting of a run in its place, without a journal|trace examples/upper.nc examples/lower.nc examples/cell.txt
run|LEFT RIGHT [SETTINGS]|blocks turret1 turret2|judges the tapes, runs both, and prints the moves of each turret|run examples/upper.nc examples/lower.nc examples/cell.txt
resume||blocks turret1 turret2|continues the run of the journal after a stop or a crash|resume
edit|EDITS||corrects offsets and variables of the run in the journal, before it goes on|edit edits.txt
moves|||prints the moves that the journal has|moves
state|||prints where both paths are, and their offsets and variables|state
zones|FILE [LEFT RIGHT [SETTINGS]]||says where both turrets may come to one place in a run|zones examples/flange_zones.txt examples/upper.nc examples/lower.nc examples/cell.txt
branch|MEETINGS||writes that run up to a meeting to a second journal, branch.journal|branch 1
make|N|turret1 turret2|runs a generated test job of some 10,000 blocks (N: 0 to 999999)|make 7
expand|TAPE||writes a tape with its G71 and G70 over contours of lines as plain blocks|expand examples/roughing.nc
plain|TAPE [SETTINGS]||writes a shop'\''s tape in the language that runs, line by line|plain examples/shop.nc'

# The row of the command $1. (The shell would read lines byte by byte, so the row is cut out.)
row_of() {
    local all=$'\n'$commands$'\n' row
    [[ $1 != *[$'\n|']* && $all == *$'\n'"$1|"* ]] || return
    row=${all#*$'\n'"$1|"}
    printf '%s|%s\n' "$1" "${row%%$'\n'*}"
}

# The words of the command $1.
words_of() {
    local row
    row=$(row_of "$1") && row=${row#*|} && printf '%s' "${row%%|*}"
}

# The options of the command $1.
options_of() {
    local row
    row=$(row_of "$1") && row=${row#*|*|} && printf '%s' "${row%%|*}"
}

# The text of an option, as it is written in the help.
text_of_option() {
    case $1 in
        blocks) printf 'N' ;;
        outside) printf 'A-B' ;;
        *) printf 'FILE' ;;
    esac
}

# The words and the options of the command $1, as they are written in the help.
usage_of() {
    local option shown
    shown=$(words_of "$1")
    for option in $(options_of "$1"); do shown+=" [--$option $(text_of_option "$option")]"; done
    printf '%s' "${shown# }"
}

# Whether the command $1 judges two tapes and the settings.
judges_files() { [[ $(words_of "$1") == 'LEFT RIGHT [SETTINGS]'* ]]; }

# Whether $3 is a whole number from $1 to $2, in at most seven digits.
is_between() { [[ $3 =~ ^[0-9]{1,7}$ ]] && ((10#$3 >= $1 && 10#$3 <= $2)); }

# Whether $1 is a range of O numbers: A-B, each from 1 to 9999, B not below A.
is_range() {
    local least=${1%%-*} greatest=${1#*-}
    [[ $1 == *-* ]] && is_between 1 9999 "$least" && is_between 1 9999 "$greatest" && ((10#$least <= 10#$greatest))
}

# What is wrong with the words, in one line; nothing if they are those of a command.
fault_of_words() {
    local name=$1 word option names=() given=()
    # (`help NAME` is answered before, if NAME is a command)
    [[ $name != help || $# != 2 ]] || name=$2
    row_of "$name" >/dev/null || { printf 'there is no command %s\n' "'$name'"; return; }
    shift
    while (($#)); do
        word=$1
        shift
        case $word in
            --) names+=("$@"); break ;;
            -?*)
                option=${word#--}
                option=${option%%=*}
                [[ $word == --* && " $(options_of "$name") " == *" $option "* ]] ||
                    { printf '%s takes no option %s (after -- every word is a name)\n' "$name" "$word"; return; }
                if [[ $word == "--$option" ]]; then
                    [[ $# != 0 && ${1-} != -?* ]] || { printf -- '--%s needs a %s\n' "$option" "$(text_of_option "$option")"; return; }
                    word+="=$1"
                    shift
                fi
                given+=("${word#--}")
                ;;
            *) names+=("$word") ;;
        esac
    done
    judge_words
}

# How many words there may be of those with these names, a number a line: a word may end them before a name in brackets.
counts_of_words() {
    local word count=0
    for word in "$@"; do
        [[ $word != \[* ]] || printf '%d\n' "$count"
        count=$((count + 1))
    done
    printf '%d\n' "$count"
}

# So many words, in words: any of these numbers.
count_words() {
    local last=${*: -1} others
    others=$(printf '%s, ' "${@:1:$#-1}")
    (($# == 1)) || printf '%s or ' "${others%, }"
    if (($# == 1 && last == 1)); then printf '1 word'; else printf '%d words' "$last"; fi
}

# The same, of the words that fault_of_words has sorted: `names` and `given` options of the command `name`.
judge_words() {
    local wanted counts option text seen=' '
    read -ra wanted <<<"$(words_of "$name")"
    mapfile -t counts < <(counts_of_words ${wanted[@]+"${wanted[@]}"})
    if [[ " ${counts[*]} " != *" ${#names[@]} "* ]]; then
        printf '%s takes %s%s, and %d %s given\n' "$name" "$(count_words "${counts[@]}")" "${wanted[*]:+ (${wanted[*]})}" \
            "${#names[@]}" "$( ((${#names[@]} == 1)) && printf is || printf are)"
        return
    fi
    for option in ${given[@]+"${given[@]}"}; do
        text=${option#*=}
        option=${option%%=*}
        [[ $seen != *" $option "* ]] || { printf -- '--%s is given twice\n' "$option"; return; }
        seen+="$option "
        if [[ $option == blocks ]]; then
            is_between 1 1000000 "$text" || { printf -- '--blocks takes a number from 1 to 1000000, and not %s\n' "'$text'"; return; }
        elif [[ $option == outside ]]; then
            is_range "$text" ||
                { printf -- '--outside takes two numbers from 1 to 9999 with - between them, the second not below the first, and not %s\n' "'$text'"; return; }
        elif [[ -z $text ]]; then
            printf -- '--%s needs the name of a file\n' "$option"
            return
        fi
    done
    if [[ ${wanted[*]} == MEETINGS ]] && ! is_between 0 4000000 "${names[0]}"; then
        printf '%s takes a number from 0 to 4000000, and not %s\n' "$name" "'${names[0]}'"
    fi
    if [[ ${wanted[*]} == N ]] && ! is_between 0 999999 "${names[0]}"; then
        printf '%s takes a number from 0 to 999999, and not %s\n' "$name" "'${names[0]}'"
    fi
}

# The launcher's own commands, in the same form. After a change of either list write the man page anew (scripts/man_page >docs/twin_lathe.1) and
# see that scripts/completion has it: scripts/launcher_rows compares them.
own_commands='try|COMMAND ..||runs any of these by a program that is not proved, also if one is|try verify examples/upper.nc examples/lower.nc examples/cell.txt
prove|||proves and builds the program, and runs nothing|prove
help|[COMMAND]||prints this text, or the help of one command|help waits
version|||prints what this is, and what was proved here|version'

# The commands and their words, each with what it does.
list_commands() {
    local name words options what
    while IFS='|' read -r name words options what _; do
        printf '  twin_lathe %s\n    %s\n' "$name${words:+ $words}${options:+ [OPTIONS]}" "$what"
    done <<<"$commands"$'\n'"$own_commands"
}

# The launcher's own options, which no program sees.
launcher_options() {
    cat <<'END'
--explain       says on standard error what the answer means, also elsewhere
                than at a terminal
--quiet         says nothing but the program's answer
--format json   prints the verdict of verify, waits or races as JSON, an
                object a line
--all FOLDER    in place of LEFT and RIGHT: judges each pair of the folder,
                by verify, waits or races
END
}

# The help of all commands.
help_of_all() {
    printf 'twin_lathe judges and runs the two tapes of a lathe with two turrets.\n\n'
    list_commands
    cat <<'END'

LEFT is the tape of path 1, RIGHT the tape of path 2. SETTINGS describes the
machine: which M codes are waits, start and home positions, offsets
(examples/cell.txt explains each line; without it the defaults count).
Options of the program: --blocks N stops after N records; --turret1 FILE and
--turret2 FILE write what each turret gets to a file or a named pipe, a line a
call, during the run; --outside A-B: the tapes may lack the programs O A to O B.
`waits` assumes something of the machine: see `help waits`.
`run` and `make` begin the journal twin.journal in the current folder; `resume`,
`edit`, `moves`, `state`, `branch`, and `zones` with FILE alone, read it there.
`branch` alone writes branch.journal.

  twin_lathe waits examples/upper.nc examples/lower.nc examples/cell.txt

Options of the launcher, with any command:
END
    launcher_options | sed 's/^/  /'
    cat <<'END'

Until `prove` has run, the program is compiled without its proofs, once. Only
the program's text goes to standard output. At a terminal, or with --explain or
TWIN_LATHE_EXPLAIN=1, standard error says what a refusal means and what to do
(docs/ERRORS.md has every number; TWIN_LATHE_EXPLAIN=0 turns it off).
docs/COMMANDS.md has the exit statuses.
END
}

# What the help of the command $1 says besides its words.
body_of() {
    case $1 in
        verify)
            cat <<'END'
It prints `accepted`, or `refused NUMBER NAME` and the place: the first fault of
the settings, of the tape of path 1, of that of path 2, or of their waits.
Nothing runs, and no journal is written. It is stricter than `waits`: what it
accepts can be played through by `run`.
END
            ;;
        run | resume)
            cat <<'END'
It prints each move of both paths, and how the run ended. After a stop, a crash
or a kill `resume` goes on with the journal twin.journal of this folder, and
reports the whole run. Give each job a folder of its own.
END
            ;;
        waits)
            cat <<'END'
It prints how often the paths meet, each meeting with the line of both tapes,
and how both tapes end: `end`, `again` (M99 of both main programs) or `off`
(past their last blocks). It does not look into cycles, unknown codes and
expressions.

It assumes this of the machine, and no proof covers it: a path that has run a
block goes on where that block says. After a jump that is its sequence number or
the next block; after a call, the called program; after M99, the caller; after
every other block, the next one. At a waiting code a path stands until the other
path stands at one; then both go on. At M02 and M30 it stays. Anything else is
an alarm that stops both paths. The line `goes on` names every code and program
for which only this assumption speaks: see that no parameter makes such a code a
call.

It judges every position of the block skip switches that the tapes name and that
no line of the settings (skip, unskip) fixes. `skip 1 ..` says that waits or
ends depend on switch 1: it must stand the same for both paths, and must not be
turned while these blocks are read.
END
            ;;
        races)
            cat <<'END'
It judges the pair as `verify` does. A race is a shared variable that one path
may write while the other may read or write it, between the same two meetings.
For each such variable it prints after how many meetings, which path may write
it, and at which line of each tape. `races 0`: all runs that both paths finish
make the same moves, whichever path is first. Else put a wait into both tapes,
between the two lines.
END
            ;;
        edit)
            cat <<'END'
EDITS is a text of lines: `work p n X.. Z..`, `tool p n X.. Z..` and
`wear p n X.. Z..` as in the settings, `var p v NUMBER` and `var p v vacant` for
a common variable (#100 to #199, #500 to #999). p is the path. At most 64 edits;
each line is one, in order. They become records of the journal, all at once or
none, and nothing moves. Then `resume` goes on with them.
END
            ;;
        zones)
            cat <<'END'
FILE says how both paths lie in one cell, a line each, all of them optional:
`frame 2 X0 Z500.` where the origin of a path lies, `mirror 2` that a path sees
X from the other side, `gap X5. Z5.` how far apart they are to stay (X is a
diameter). It prints a line for each segment between two meetings, `clear` or
`hit`. `clear` is proved of the programmed points, for any timing of these
moves.
With LEFT and RIGHT the run is that of `trace`, in which the paths take turns,
of at most 100,000 blocks; it needs no run before it. With FILE alone it is the
run of the journal twin.journal.
With a line `by moves` each pair of moves is judged, with boxes round the tools
(`tool 1 3 X-40. X20. Z0. Z120.`) and boxes that stand in the cell (`fixed 1 X0.
X250. Z-300. Z0.`), and the first two moves that come near are named. A line
`races N` says that the pair has N races: another timing makes other moves.
END
            ;;
        branch)
            cat <<'END'
MEETINGS is how many meetings the branch has: 0 is the beginning of the run. The
journal twin.journal stays as it is, also beside a run. The branch has the same
tapes and settings. To go on with it, copy branch.journal as twin.journal into
another folder; there `edit` and `resume` work on it. A journal that is there
already is never written over.
END
            ;;
        expand)
            cat <<'END'
TAPE is the tape of one path; standard output is the new tape. All other lines
stay byte for byte. G71 is understood in its two-block form, directly behind a
block `G00 X.. Z..`, with a contour of G01 lines whose X does not fall and whose
Z does not rise; G70 directly behind a block `G00 X.. Z..`. No move of the new
blocks cuts into the contour: it is proved.
END
            ;;
        try)
            cat <<'END'
The program is compiled once, in two minutes or so, without its proofs. Without
the word `try` a call takes the proved program, if there is one.
END
            ;;
        prove)
            cat <<'END'
It takes 20 to 50 minutes on four processors. From then on each call takes that
program, until a source or the toolchain changes. `version` says what was
proved.
END
            ;;
    esac
}

# Lines of at most 80 columns: a longer one goes on below, before an option or, with the sign for a shell, before a word.
in_columns() {
    awk '
        length($0) <= 80 { print; next }
        {
            sign = NR == 1 ? "" : " \\"
            for (k = 78; k > 1 && !(substr($0, k, 1) == " " && (NR > 1 || substr($0, k + 1, 1) == "[")); k--);
            print substr($0, 1, k - 1) sign "\n    " substr($0, k + 1)
        }'
}

# The help of the command $1.
help_of() {
    local name words options what example shown body
    IFS='|' read -r name words options what example < <(row_of "$1" || own_row_of "$1")
    shown=$(usage_of "$name")
    printf 'twin_lathe %s%s\n\n  %s\n\n  twin_lathe %s\n' "$name" "${shown:+ $shown}" "$what" "$example" | in_columns
    if [[ $words == *'LEFT RIGHT'* ]]; then
        printf '\nLEFT is the tape of path 1, RIGHT the tape of path 2, SETTINGS the file that\ndescribes the machine.\n'
    fi
    body=$(body_of "$name")
    [[ -z $body ]] || printf '\n%s\n' "$body"
    [[ " $options " != *' blocks '* ]] || printf '%s\n' '--blocks N stops after N records (1 to 1000000; 100000 if it is not given).'
    [[ " $options " != *' outside '* ]] ||
        printf '%s\n' '--outside A-B: the tapes may lack the programs O A to O B (1 to 9999). You' 'promise of each: it neither waits nor ends, it comes back to the block after' \
            'its call, and it leaves no modal call (G66) on.'
    [[ " $options " != *' turret1 '* ]] ||
        printf '%s\n' '--turret1 FILE, --turret2 FILE: a file or a named pipe for what that turret' 'gets, a line a call, during the run.'
}

# The row of the launcher's own command $1.
own_row_of() { local commands=$own_commands; row_of "$1"; }

# Whether there is help of $1.
has_help() { row_of "$1" >/dev/null || own_row_of "$1" >/dev/null; }

# The command that was meant by $1, if one is near: the same but for two letters, one if $1 is short, or its beginning.
nearest_command() {
    printf '%s\n' "$commands" "$own_commands" | awk -F '|' -v typed="$1" '
        function least(a, b, c) { return a < b ? (a < c ? a : c) : (b < c ? b : c) }
        function distance(a, b,    i, j, row, before, kept) {
            for (j = 0; j <= length(b); j++) row[j] = j
            for (i = 1; i <= length(a); i++) {
                before = row[0]; row[0] = i
                for (j = 1; j <= length(b); j++) {
                    kept = row[j]
                    row[j] = least(row[j] + 1, row[j - 1] + 1, before + (substr(a, i, 1) != substr(b, j, 1)))
                    before = kept
                }
            }
            return row[length(b)]
        }
        {
            far = distance(tolower(typed), $1)
            if (length(typed) > 1 && index($1, tolower(typed)) == 1) far = 0
            if (NR == 1 || far < best) { best = far; name = $1 }
        }
        END { if (best <= (length(typed) > 4 ? 2 : 1)) print name }'
}
