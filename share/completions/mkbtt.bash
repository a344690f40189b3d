# Completions of mkbtt for bash.
_mkbtt() {
    local word="${COMP_WORDS[COMP_CWORD]}" before="${COMP_WORDS[COMP_CWORD - 1]}"
    case "$before" in
        --workers) mapfile -t COMPREPLY < <(compgen -W "$(seq -s ' ' 1 16)" -- "$word"); return ;;
        --budget) mapfile -t COMPREPLY < <(compgen -W "1000 20000 100000" -- "$word"); return ;;
        --number) mapfile -t COMPREPLY < <(compgen -W "$(seq -s ' ' 1 64)" -- "$word"); return ;;
        --to) mapfile -t COMPREPLY < <(compgen -W "answer trs dot" -- "$word"); return ;;
        --select) mapfile -t COMPREPLY < <(compgen -W "stated size" -- "$word"); return ;;
    esac
    mapfile -t COMPREPLY < <(compgen -W "complete rounds check convert reduce decide simplify summary journal replay gen --workers --budget --number --to --select --progress --explain --quiet --help --version" -- "$word")
}
complete -F _mkbtt mkbtt
