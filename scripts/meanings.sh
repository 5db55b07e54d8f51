# What can be said of an answer about two tapes and the settings, or of another file: lines of the files, meanings from docs/ERRORS.md, the
# word at fault, and hints. Sourced by scripts/explain and scripts/verdict_json, which say it as lines and as JSON. Whoever sources it has
# set `root`, `program` and `command`, and has called `take_names`. None of it is proved: it reads the files as they are now, in its own way, and
# where it guesses it asks the program about a block by itself.

errors=$root/docs/ERRORS.md

# The names among the words: LEFT, RIGHT and, if they are given, SETTINGS, or a file by itself; `all` has the file of zones before those of a pair
# too; and the option that a second look must have too.
names=()
all=()
again=()
settings=/dev/null
take_names() {
    while (($#)); do
        case $1 in
            --) names+=("${@:2}"); break ;;
            --blocks | --turret[12]) shift ;;
            --outside) again=("--outside=${2-}"); shift ;;
            --outside=*) again=("$1") ;;
            -?*) ;;
            *) names+=("$1") ;;
        esac
        shift
    done
    all=(${names[@]+"${names[@]}"})
    if [[ $command == zones ]] && ((${#all[@]} > 1)); then names=("${all[@]:1}"); fi
    if ((${#names[@]} > 2)); then settings=${names[2]}; fi
}

# Whether all files can be read a second time. (a tape that is a pipe can't)
are_readable_again() {
    local file
    for file in ${all[@]+"${all[@]}"}; do [[ -f $file || $file == /dev/null ]] || return; done
}

# The file of path $1.
tape_of() { printf '%s' "${names[$(($1 - 1))]-}"; }

# The last line of what the program answers when it only looks.
look() { "$program" "$@" 2>/dev/null </dev/null | tail -n 1; }

# The line $2 of the file $1.
line_of() { if [[ -f $1 ]]; then sed -n "$2{p;q}" "$1" | tr -d '\r\n' | LC_ALL=C tr '\000-\037\177' ' ' | cut -c 1-200; fi; }

# The blocks of a tape as they count: LINE, a tab, and the text without comments and blanks, in capitals.
blocks_of() {
    LC_ALL=C awk '
        !begun { if (/^%/) begun = 1; next }
        /^%/ { exit }
        { gsub(/\([^)]*\)/, ""); sub(/\(.*/, ""); text = toupper($0); gsub(/[ \t\r;]/, "", text); print NR "\t" text }' "$1"
}

# What awk has to know of a block: the M codes of its words, as " 101 30".
codes='
    function codes(text,    found) {
        sub(/^(\/[1-9]?)?/, "", text)
        sub(/^N[0-9]+/, "", text)
        if (text ~ /^(#|IF|WHILE|GOTO|DO|END)/ || text ~ /G0*65([^0-9]|$)/) return ""
        while (gsub(/\[[^][]*\]/, "", text));
        while (match(text, /M[0-9]+/)) {
            found = found " " (substr(text, RSTART + 1, RLENGTH - 1) + 0)
            text = substr(text, RSTART + RLENGTH)
        }
        return found
    }'

# The waits by the settings: "FIRST LAST LINE", with line 0 if the settings do not say.
waits_of_settings() { awk '$1 == "wait" && NF == 3 { first = $2; last = $3; line = NR } END { print line ? first : 100, line ? last : 197, line + 0 }' "$settings"; }

# The system of the codes by the settings.
system_of_settings() { awk '$1 == "codes" && NF == 2 { last = $2 } END { print last == "B" ? "B" : "A" }' "$settings"; }

# The paragraph `$2: ..` of the section of ERRORS.md whose heading is $1, as one line. After `waits` what to do is the paragraph `Waits: ..`, if
# there is one; and nothing advises to call `waits`.
entry() {
    local own
    if [[ $command == waits && $2 == Do ]]; then
        own=$(entry "$1" Waits)
        [[ -z $own ]] || { printf '%s\n' "$own"; return; }
    fi
    awk -v heading="## $1" -v field="$2: " '
        /^## / { inside = $0 == heading; next }
        inside && index($0, field) == 1 { text = substr($0, length(field) + 1); next }
        text != "" && $0 == "" { exit }
        text != "" { text = text " " $0 }
        END { if (text != "") print text }' "$errors" |
        if [[ $command == waits && $2 != Waits ]]; then without_waits; else cat; fi
}

# A text without the sentences that send the reader to `waits`.
without_waits() {
    awk '{
        text = $0 " "
        while (match(text, /[.:] /)) {
            sentence = substr(text, 1, RSTART + 1); text = substr(text, RSTART + 2)
            if (sentence !~ /call `waits`|^`waits` takes/) kept = kept sentence
        }
        kept = kept text
        sub(/ +$/, "", kept)
        print kept
    }'
}

# The words of the block in the text $1, a line each, as this control cuts them; a statement is one.
words_of_block() {
    LC_ALL=C awk -v text="$1" 'BEGIN {
        gsub(/\([^)]*\)/, "", text); sub(/\(.*/, "", text); text = toupper(text); gsub(/[ \t\r;]/, "", text)
        sub(/^\/[1-9]?/, "", text)
        if (match(text, /^N[0-9]+/)) text = substr(text, RLENGTH + 1)
        if (text ~ /^(#|IF|WHILE|GOTO|DO[0-9]|END[0-9])/) { print text; exit }
        while (text != "") {
            if (match(text, /^,?[A-Z][-+]?([0-9]*\.?[0-9]*|#[0-9]+)/)) size = RLENGTH; else size = 1
            rest = substr(text, size + 1)
            if (rest ~ /^#?\[/) {
                depth = 0
                for (k = 1; k <= length(rest); k++) {
                    sign = substr(rest, k, 1)
                    if (sign == "[") depth++
                    if (sign == "]" && --depth == 0) break
                }
                size += k
            }
            print substr(text, 1, size)
            text = substr(text, size + 1)
        }
    }'
}

# What the program says of a tape with this block alone, beside a tape without any.
look_at_block() {
    local command=$command
    [[ $command =~ ^(verify|waits|races|run|trace)$ ]] || command=verify
    [[ $command =~ ^(run|trace)$ ]] && command=verify
    printf '%%\nO1\n%s\nM30\n%%\n' "$1" >"$room/block.nc"
    printf '%%\nO1\nM30\n%%\n' >"$room/end.nc"
    look "$command" -- "$room/block.nc" "$room/end.nc" "$settings"
}

# The word for which the block in the text $3 is refused by the number and name $1 $2: the first that is refused so by itself, or else the last
# without which the block is not refused so, beside a call rather another word than M98, M99 or G65. The program says so, of each by itself; of more than a dozen words none is sought.
word_at_fault() {
    local due="refused $1 $2 path 1 line 3" words=() k rest found='' call=''
    [[ $1 =~ ^(5|10|11|2[0-5]|54|5[6-9]|61|62|64)$ ]] || return
    mapfile -t words < <(words_of_block "$3")
    ((${#words[@]} && ${#words[@]} <= 12)) || return
    [[ $(look_at_block "${words[*]}") == "$due" ]] || return
    for ((k = 0; k < ${#words[@]}; k++)); do
        [[ $(look_at_block "${words[k]}") != "$due" ]] || { found=${words[k]}; break; }
    done
    for ((k = ${#words[@]} - 1; k >= 0 && ${#found} == 0; k--)); do
        rest=("${words[@]:0:k}" "${words[@]:k+1}")
        [[ $(look_at_block "${rest[*]-}") != "$due" ]] || continue
        if [[ ${words[k]} =~ ^(M0*9[89]|G65)$ ]]; then call=${call:-${words[k]}}; else found=${words[k]}; fi
    done
    found=${found:-$call}
    if [[ $1 == 1[01] ]]; then whole_word "$3" "$found"; else printf '%s' "$found"; fi
}

# The word of the text $1, as it stands between blanks, that has $2 in it.
whole_word() {
    local word
    for word in ${1//[()]/ }; do
        [[ ${word^^} != *"$2"* ]] || { printf '%s' "$word"; return; }
    done
    printf '%s' "$2"
}

# The field at fault of the settings' line $1, a tab, and what is wrong with it.
fault_of_setting() {
    awk -v text="$1" '
        function found(word, why) { print word "\t" why; done = 1; exit }
        function is_point(x, z) { return x ~ /^X-?[0-9]*\.?[0-9]*$/ && z ~ /^Z-?[0-9]*\.?[0-9]*$/ }
        BEGIN {
            sub(/\r$/, "", text)
            count = split(text, word, /[ \t]+/)
            if (word[1] == "") { for (k = 1; k < count; k++) word[k] = word[k + 1]; count-- }
            if (text ~ /^[ \t]*%/ || text ~ /^[ \t]*[ON][0-9]/ || text ~ /^[ \t]*[GM][0-9]/) found(word[1], "this is a tape, and no settings; the order is LEFT RIGHT SETTINGS")
            shape["wait"] = 3; shape["paths"] = 2; shape["codes"] = 2; shape["skip"] = 3; shape["unskip"] = 3; shape["place"] = 4; shape["home"] = 4
            shape["work"] = 5; shape["tool"] = 5; shape["wear"] = 5; shape["shared100"] = 2; shape["shared500"] = 2; shape["records"] = 2
            for (k = 2; k <= count; k++)
                if (word[k] ~ /^[#;(\/]/) found(word[k], "a comment needs a line of its own that begins with (")
            if (!(word[1] in shape)) {
                if (tolower(word[1]) in shape) found(word[1], "names of settings are written in small letters: " tolower(word[1]))
                found(word[1], "no setting has this name, as far as this text knows; examples/cell.txt has each")
            }
            if (word[1] ~ /^(wait|skip|unskip)$/ && word[2] ~ /^[0-9]+-[0-9]+$/) found(word[2], "two numbers with a blank between are due")
            if (word[1] ~ /^(place|home|work|tool|wear)$/ && count >= 3 && !is_point(word[count - 1], word[count]))
                found(word[count], "a point is due at the end of the line: X.. and Z.., both, in this order")
            if (count > shape[word[1]]) found(word[shape[word[1]] + 1], "nothing more is due on this line")
            if (count < shape[word[1]]) found(word[1], "this line lacks " shape[word[1]] - count " of its " shape[word[1]] - 1 " fields")
            for (k = 2; k <= count; k++)
                if (word[1] !~ /^(paths|codes)$/ && word[k] !~ /^[XZ]/ && word[k] !~ /^[0-9]+$/) found(word[k], "a whole number is due here")
        }'
}

# Whether the file $1 looks like settings.
looks_like_settings() {
    [[ -f $1 ]] && awk '
        /^[ \t\r]*$/ || /^\(/ { next }
        { if ($1 ~ /^(wait|paths|codes|skip|unskip|place|home|work|tool|wear|shared100|shared500|records)$/) found = 1; exit }
        END { exit !found }' "$1"
}

# A hint beside the meaning of the refusal by the number $1 of the line with the text $2, in which the word $3 is at fault, of the file $4.
hint_of() {
    local bare=${2%%(*} word=${3^^}
    bare=${bare^^}
    if [[ $1 =~ ^(5|1[0-4])$ ]] && looks_like_settings "$4"; then
        printf '%s looks like settings, and no tape; the order is LEFT RIGHT SETTINGS' "$4"
    elif [[ $1 == 1[01] && $word =~ ^[A-Z][-+]?[0-9.]*O[O0-9.]*$ ]]; then
        printf '%s has the letter O in its number: write %s%s' "$3" "${word:0:1}" "$(tr O 0 <<<"${word:1}")"
    elif [[ $1 == 1[01] && $bare =~ (^|[^A-Z])([A-Z]{3,}) && ! ${BASH_REMATCH[2]} =~ ^(THEN|GOTO|WHILE|END|AND|XOR|MOD|SQRT|ABS|FIX|FUP|ROUND|SIN|COS|TAN|ATAN|ASIN|ACOS|BIN|BCD)$ ]]; then
        printf 'a text that is no code must stand in ( )'
    elif [[ $1 == 56 && $word =~ ^G(91|95|7[789]|33)$ && $(system_of_settings) != B ]]; then
        printf '%s is a code of G-code system B; if the tape is of that system, write `codes B` into the settings' "$word"
    elif [[ $1 == 20 && ${bare//[[:blank:]]/} =~ THEN[^#] ]]; then
        printf 'after THEN only an assignment #.. = .. may stand; a wait or a move must not depend on a condition: use IF .. GOTO'
    fi
}

# Reads the line `refused ..`, or `end alarm ..`: `number` and `name`, and the place: `file` and `at`, and for two lines `other_file` and
# `other_at`, with `after` equal waits before them. What is not said is empty. It fails if the line is none.
read_answer() {
    number='' name='' file='' at='' other_file='' other_at='' after=''
    if [[ $1 =~ ^refused\ ([0-9]+)\ ([A-Za-z]+) || $1 =~ ^end\ alarm\ .*cause\ ([0-9]+)\ ([A-Za-z]+) ]]; then
        number=${BASH_REMATCH[1]} name=${BASH_REMATCH[2]}
    else
        return 1
    fi
    if [[ $1 =~ path\ ([12])\ line\ ([0-9]+)(\ path\ ([12])\ line\ ([0-9]+)(\ after\ ([0-9]+))?)? ]]; then
        file=$(tape_of "${BASH_REMATCH[1]}") at=${BASH_REMATCH[2]} other_at=${BASH_REMATCH[5]} after=${BASH_REMATCH[7]}
        [[ -z $other_at ]] || other_file=$(tape_of "${BASH_REMATCH[4]}")
    elif [[ $1 =~ \ path\ ([12])(\ skip\ .*)?$ ]]; then
        file=$(tape_of "${BASH_REMATCH[1]}")
    elif [[ $1 =~ \ line\ ([0-9]+)$ ]]; then
        at=${BASH_REMATCH[1]}
        if [[ $number == 90 ]]; then file=$settings; else file=${all[0]-}; fi
    fi
}

# The word at fault and the hint of what `read_answer` has read: `word` and `hint`.
read_fault() {
    local text
    word='' hint=''
    [[ -n $file && -n $at ]] || return
    text=$(line_of "$file" "$at")
    if [[ $number == 90 ]]; then
        IFS=$'\t' read -r word hint < <(fault_of_setting "$text")
    else
        word=$(word_at_fault "$number" "$name" "$text")
        hint=$(hint_of "$number" "$text" "$word" "$file")
    fi
}
