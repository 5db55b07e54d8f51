# Completion of twin_lathe for bash: source this file, or put it into the folder of completions (as `twin_lathe`).

_twin_lathe() {
    local word=${COMP_WORDS[COMP_CWORD]} before=${COMP_WORDS[COMP_CWORD - 1]} command='' options='--explain --quiet' given
    local commands='verify waits races trace run resume edit moves state zones branch make expand plain try prove help version'
    for given in "${COMP_WORDS[@]:1:COMP_CWORD-1}"; do
        [[ -n $command || $given == -* || $given == try ]] || command=$given
    done
    case $before in
        --format) COMPREPLY=($(compgen -W json -- "$word")); return ;;
        --all) COMPREPLY=($(compgen -d -- "$word")); return ;;
        --blocks | --outside) return ;;
    esac
    case $command in
        '' | help) COMPREPLY=($(compgen -W "$commands" -- "$word")); [[ $word != -* ]] || COMPREPLY=($(compgen -W '--help --version' -- "$word")); return ;;
        verify | races) options+=' --format --all' ;;
        waits) options+=' --outside --format --all' ;;
        trace) options+=' --blocks' ;;
        run | resume) options+=' --blocks --turret1 --turret2' ;;
        make) options+=' --turret1 --turret2' ;;
        edit | zones | expand | plain) ;;
        *) [[ $word == -* ]] || return ;;
    esac
    if [[ $word == -* ]]; then COMPREPLY=($(compgen -W "$options" -- "$word")); else COMPREPLY=($(compgen -f -- "$word")); fi
}
complete -o filenames -F _twin_lathe twin_lathe ./twin_lathe
