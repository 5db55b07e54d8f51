# What saves a part, beside the verdict: numbers without a point, tapes of the other G-code system, N numbers that are twice there or that no
# jump leads to, waits and ends that a switch leaves out, blocks that can only stop a run, and the refusals after the first. Sourced after meanings.sh by scripts/explain and scripts/verdict_json. Nothing here is proved. It reads the
# text of the tapes in its own way; what the program can be asked, it is asked: `room` is a folder for the tapes of such questions.

# Each function prints a line a finding: FILE, LINE, WORD and a text, with this sign between.
between=$'\037'

# Numbers of lengths without a point, which count 0.001 mm: how many in the tape $1, and the first. 0 is the same with a point. Words of a
# dwell, of G10 and of calls are no lengths.
numbers_without_point() {
    blocks_of "$1" | LC_ALL=C awk -F '\t' -v file="$1" -v sign="$between" '
        { text = $2; sub(/^(\/[1-9]?)?/, "", text); sub(/^N[0-9]+/, "", text) }
        text ~ /^(#|IF|WHILE|GOTO|DO|END|O[0-9])/ || text ~ /G0*(4|10|65|66)([^0-9.]|$)/ || text ~ /M0*98([^0-9]|$)/ { next }
        {
            while (gsub(/\[[^][]*\]/, "#", text));
            while (match(text, /[XZUWIKR][-+]?[0-9]+/)) {
                word = substr(text, RSTART, RLENGTH); text = substr(text, RSTART + RLENGTH)
                if (text ~ /^\./ || word ~ /^.[-+]?0+$/) continue
                count++
                if (count == 1) { first = word; line = $1 }
            }
        }
        END {
            if (!count) exit
            value = first; sub(/^.\+?/, "", value)
            printf "%s%s%s%s%s%s%s without a point in this tape: %s is %.3f mm\n", file, sign, line, sign, first, sign,
                count == 1 ? "a number" : count " numbers", first, value / 1000
        }'
}

# A tape that looks like one of system B, where the settings say system A: a code that A does not have, or a word that means something else in
# A, in the way in which it is written in B.
looks_like_system_b() {
    [[ $(system_of_settings) == A ]] || return
    blocks_of "$1" | LC_ALL=C awk -F '\t' -v file="$1" -v sign="$between" '
        {
            text = $2
            while (gsub(/\[[^][]*\]/, "#", text));
            if (match(text, /G(91|95|7[789]|33)/) && substr(text, RSTART + 3) !~ /^[0-9.]/) found = substr(text, RSTART, 3)
            else if (match(text, /G9[24]/) && text !~ /[XZUW]/ && text ~ /G90/) found = substr(text, RSTART, 3)
            else if (text ~ /G90/ && match(text, /G0?[01]([^0-9.]|$)/)) found = "G90"
            else next
            printf "%s%s%s%s%s%s%s here reads as a code of G-code system B; if the tape is of that system, write `codes B` into the settings\n", file, sign,
                $1, sign, found, sign, found
            exit
        }'
}

# The switches that a line of the settings fixes for the path $1, each between blanks.
fixed_switches() { awk -v path="$1" '($1 == "skip" || $1 == "unskip") && NF == 3 && $2 == path { printf " %s ", $3 }' "$settings"; }

# Waits, ends and calls of programs that wait or end, of the tape $2 of path $1, behind a sign for block skip whose switch no line of the settings
# fixes: how many, and the first. The verdict is that of the switches in the settings.
stops_behind_stroke() {
    local first last
    read -r first last _ < <(waits_of_settings)
    blocks_of "$2" | LC_ALL=C awk -F '\t' -v file="$2" -v sign="$between" -v low="$first" -v high="$last" -v fixed="$(fixed_switches "$1")" "$codes"'
        function called(text) { return match(text, /P[0-9]+/) ? substr(text, RSTART + 1, RLENGTH - 1) % 10000 : 0 }
        {
            text = $2; own = 0; what = ""; callee = ""
            if (text ~ /^O[0-9]/) { program = substr(text, 2) + 0; next }
            if (match(text, /^(N[0-9]+)?\/[1-9]?/)) {
                own = substr(text, RSTART + RLENGTH - 1, 1); if (own == "/") own = 1
                text = substr(text, RLENGTH + 1)
            }
            many = split(codes(text), list, " ")
            for (k = 1; k <= many; k++) {
                code = list[k] + 0
                if (code >= low + 0 && code <= high + 0) { what = "wait at M" list[k]; loud[program] = 1 }
                else if (code == 2 || code == 30) { what = "end at M" list[k]; loud[program] = 1 }
                else if (code == 99) what = "come to this M99"
                else if (code == 98) callee = called(text)
            }
            if (text ~ /G0*65([^0-9.]|$)/) callee = called(text)
            if (callee != "") { calls++; caller[calls] = program; callees[calls] = callee }
            if (own && index(fixed, " " own " ") == 0 && (what != "" || callee != "")) {
                stops++; line[stops] = $1; whats[stops] = what; to[stops] = callee; word[stops] = text
            }
        }
        END {
            do { more = 0; for (k = 1; k <= calls; k++) if (loud[callees[k]] && !loud[caller[k]]) loud[caller[k]] = more = 1 } while (more)
            for (k = 1; k <= stops; k++) {
                if (whats[k] == "" && !loud[to[k]]) continue
                if (++count > 1) continue
                at = line[k]; block = word[k]
                due = whats[k] != "" ? whats[k] : "call O" to[k] ", which waits or ends"
                one = due ~ /^wait/ ? "a wait" : due ~ /^call/ ? "a call" : "an end"
            }
            if (count) printf "%s%s%s%s%s%s%s of this tape behind a `/`: with that switch on the path does not %s; the verdict is that of the switches in the settings, `waits` judges each position\n", \
                file, sign, at, sign, block, sign, count == 1 ? one : count " waits, ends or calls", due
        }'
}

# N numbers of the tape $1 behind another word: how many, and the first. `waits` takes none of them as the target of a jump.
numbers_behind_words() {
    blocks_of "$1" | LC_ALL=C awk -F '\t' -v file="$1" -v sign="$between" '
        {
            text = $2; sub(/^(\/[1-9]?)+/, "", text); sub(/^N[0-9]+/, "", text)
            if (text ~ /^(#|IF|WHILE|GOTO|DO[0-9]|END[0-9]|O[0-9<]|<|DPRNT|BPRNT|POPEN|PCLOS|SETVN)/) next
            while (gsub(/\[[^][]*\]/, "#", text));
            if (match(text, /N[0-9]+/) && ++count == 1) { line = $1; word = substr(text, RSTART, RLENGTH) }
        }
        END {
            if (count) printf "%s%s%s%s%s%s%s of this tape behind another word: no jump leads to %s here; a control may take it as a target\n", \
                file, sign, line, sign, word, sign, count == 1 ? "an N number" : count " N numbers", word
        }'
}

# N numbers of the tape $1 that stand twice in a program and that a jump or a contour names: the first of them.
numbers_twice() {
    blocks_of "$1" | LC_ALL=C awk -F '\t' -v file="$1" -v sign="$between" '
        function names(where, text) { if (match(text, /[0-9]+/)) named[where, substr(text, RSTART, RLENGTH) + 0] = 1 }
        {
            text = $2; sub(/^(\/[1-9]?)+/, "", text)
            if (text ~ /^O[0-9]/) { program++; next }
            if (match(text, /^N[0-9]+/)) {
                number = substr(text, 2, RLENGTH - 1) + 0; text = substr(text, RLENGTH + 1)
                if ((program, number) in first) { if (!((program, number) in second)) { second[program, number] = $1; order[++many] = program SUBSEP number } }
                else first[program, number] = $1
            }
            if (match(text, /GOTO[0-9]+/)) names(program, substr(text, RSTART, RLENGTH))
            else if (text ~ /M0*99([^0-9]|$)/ && match(text, /P[0-9]+/)) names(program == 1 ? 1 : "any", substr(text, RSTART, RLENGTH))
            else if (text ~ /G7[0-3]([^0-9.]|$)/) {
                if (match(text, /P[0-9]+/)) names(program, substr(text, RSTART, RLENGTH))
                if (match(text, /Q[0-9]+/)) names(program, substr(text, RSTART, RLENGTH))
            }
        }
        END {
            for (k = 1; k <= many; k++) {
                split(order[k], at, SUBSEP)
                if (!(order[k] in named) && !(("any", at[2]) in named)) continue
                printf "%s%s%s%sN%d%sN%d stands twice in this program, also at line %d, and a jump names it: the verdict takes the next one after the jump; which one a control takes may hang on a parameter\n", \
                    file, sign, first[order[k]], sign, at[2], sign, at[2], second[order[k]]
                exit
            }
        }'
}

# Blocks of the tape $1 that raise an alarm whenever they run. The text gives at most ten that may be such: a taper, a corner by a letter, a system
# variable that there is not. The program is asked about each: it traces a tape with that block after a cut.
blocks_that_stop() {
    local line text said
    printf '%%\nO1\nM30\n%%\n' >"$room/end.nc"
    blocks_of "$1" | LC_ALL=C awk -F '\t' '
        { text = $2; sub(/^(\/[1-9]?)?/, "", text); sub(/^N[0-9]+/, "", text) }
        text ~ /^(IF|WHILE|GOTO|DO|END|O[0-9])/ { next }
        {
            maybe = text ~ /G(90|92|94|77|78|79)([^0-9.]|$)/ && text ~ /R[-+]?[0-9.]/
            maybe = maybe || (text ~ /G0?[01]([^0-9.]|$)/ && text ~ /[RKIC][-+]?[0-9.]/)
            rest = text
            while (match(rest, /#[0-9]+/)) {
                number = substr(rest, RSTART + 1, RLENGTH - 1) + 0; rest = substr(rest, RSTART + RLENGTH)
                if (number > 999 && number != 3000 || number > 33 && number < 100 || number > 199 && number < 500) maybe = 1
            }
            if (maybe && ++count <= 10) print $1 "\t" text
        }' |
        while IFS=$'\t' read -r line text; do
            printf '%%\nO1\nG00 X100. Z100.\nG01 X99. Z99. F0.2\n%s\nM30\n%%\n' "$text" >"$room/stops.nc"
            said=$("$program" trace -- "$room/stops.nc" "$room/end.nc" "$settings" 2>/dev/null </dev/null | sed -nE 's/^1 5 alarm ((30|31|56) [A-Za-z]+).*/\1/p')
            [[ -z $said ]] || printf '%s%s%s%s%s%sthis block stops a run with the alarm %s, whatever the values are\n' "$1" "$between" "$line" "$between" "$text" \
                "$between" "$said"
        done
}

# All warnings of the pair.
warnings() {
    local path
    are_readable_again && ((${#names[@]} >= 2)) || return
    for path in 1 2; do
        numbers_without_point "$(tape_of "$path")"
        looks_like_system_b "$(tape_of "$path")"
        numbers_twice "$(tape_of "$path")"
        [[ $command != waits ]] || numbers_behind_words "$(tape_of "$path")"
        [[ $command == waits ]] || stops_behind_stroke "$path" "$(tape_of "$path")"
        [[ $command == waits ]] || blocks_that_stop "$(tape_of "$path")"
    done
}

# The refusals of both tapes besides the answer $1, as the program writes them, at most 20 a call. Each tape is judged beside one without waits. If
# a block is refused for itself, it is left empty but for its number, and the tape is judged again; what follows from such a gap is not told.
further_refusals() {
    local path begun=$SECONDS calls=0
    are_readable_again && ((${#names[@]} >= 2)) || return
    printf '%%\nO1\nM30\n%%\n' >"$room/end.nc"
    for path in 1 2; do refusals_of "$path" "$1"; done
}

refusals_of() {
    local path=$1 first=$2 copy=$room/further.nc answer last='' gaps=0 line pair judging=$command
    [[ $command != zones ]] || judging=verify
    cp -- "$(tape_of "$path")" "$copy" && chmod 600 "$copy" || return
    if [[ $path == 1 ]]; then pair=("$copy" "$room/end.nc"); else pair=("$room/end.nc" "$copy"); fi
    while ((calls++ < 20 && SECONDS - begun < 10)); do
        answer=$(look "$judging" ${again[@]+"${again[@]}"} -- "${pair[@]}" "$settings")
        [[ $answer =~ ^refused\ ([0-9]+)\ [A-Za-z]+\ path\ $path(\ line\ ([0-9]+))?$ && $answer != "$last" ]] || return
        line=${BASH_REMATCH[3]}
        if [[ ${BASH_REMATCH[1]} =~ ^(5|1[015]|2[0-5]|54|5[6-9]|61|62|64)$ ]]; then
            [[ $answer == "$first" ]] || printf '%s\n' "$answer"
            sed -i -E "${line}s/^([[:blank:]]*\\/?[1-9]?[[:blank:]]*[Nn][0-9]{1,5})?.*\$/\\1/" "$copy"
            gaps=1
        else
            ((gaps)) || [[ $answer == "$first" ]] || printf '%s\n' "$answer"
            return
        fi
        last=$answer
    done
}
