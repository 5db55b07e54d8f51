# Judges each pair of a folder: `waits --all FOLDER`. Sourced by the launcher. Two files of the folder are a pair if their names are the same but
# for one word, which tells the paths apart: upper and lower, left and right, P1 and P2, or 1 and 2. That word is the whole name, or stands
# apart from the rest by _ - . or a blank. Capitals count as small letters. A file is in one pair at most.

# The name of the partner of the file name $1, if that is the name of a path-1 tape by the words $2 (of path 1) and $3 (of path 2): as it would
# be written, in the same letters.
partner_of() {
    local small=${1,,} before after other=$3
    [[ $small =~ ^((.*[-_. ])?)$2(([-_. ].*)?)$ ]] || return
    before=${1:0:${#BASH_REMATCH[1]}}
    after=${1:$((${#BASH_REMATCH[1]} + ${#2}))}
    case ${1:${#before}:${#2}} in
        "${2^^}") other=${3^^} ;;
        "${2^}") other=${3^} ;;
    esac
    printf '%s' "$before$other$after"
}

# The pairs of the folder $1, as lines LEFT, a tab, RIGHT.
pairs_of() {
    local file name words partner taken=$'\n'
    for file in "$1"/*; do
        name=${file##*/}
        [[ -f $file && $taken != *$'\n'"$name"$'\n'* ]] || continue
        for words in 'upper lower' 'left right' 'p1 p2' '1 2'; do
            partner=$(partner_of "$name" ${words}) || continue
            [[ -f $1/$partner && $taken != *$'\n'"$partner"$'\n'* ]] || continue
            printf '%s\t%s\n' "$name" "$partner"
            taken+=$name$'\n'$partner$'\n'
            break
        done
    done
}

# Judges one pair by the words that follow, and prints a line, or JSON. `status` is the program's.
judge_pair() {
    local left=$1 right=$2 answer proved=true
    shift 2
    is_proved_program || proved=false
    answer=$(mktemp) || exit 12
    run_below "$@" >"$answer"
    if [[ -n $handed ]]; then rm -f -- "$answer"; kill "-$handed" "$$"; fi
    if [[ $form == json ]]; then
        "$root/scripts/verdict_json" "$program" "$status" "$answer" "$proved" "$@" || exit 5
    else
        printf '%s %s: %s\n' "$left" "$right" "$(head -n 1 -- "$answer")" 2>/dev/null || exit 5
        if [[ $status != 0 ]] && is_to_explain; then "$root/scripts/explain" "$program" "$status" "$@" >&2; fi
    fi
    rm -f -- "$answer"
}

# Judges all pairs of the folder, by the command and the words of a call for a folder. The status is 1 if one is refused, else the first that
# is not 0.
judge_folder() {
    local command=$1 settings=/dev/null options=() worst=0 count=0 left right status
    shift
    while (($#)); do
        case $1 in
            --) shift; continue ;;
            --outside) options+=("--outside=${2-}"); shift ;;
            -?*) options+=("$1") ;;
            *) settings=$1 ;;
        esac
        shift
    done
    . "$root/scripts/run.sh"
    trap '' PIPE
    while IFS=$'\t' read -r -u 4 left right; do
        count=$((count + 1))
        judge_pair "$left" "$right" "$command" "${options[@]+"${options[@]}"}" -- "$folder/$left" "$folder/$right" "$settings"
        if ((status == 1 || worst == 0)); then worst=$status; fi
    done 4< <(pairs_of "$folder")
    ((count)) || { complain "there is no pair in '$folder': two names that differ in upper and lower, left and right, P1 and P2, or 1 and 2"; exit 13; }
    exit "$worst"
}
