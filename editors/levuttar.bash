# Completes the words of levuttar in bash: `source editors/levuttar.bash`. The options are those of docs/help.
_levuttar() {
    local word=${COMP_WORDS[COMP_CWORD]} before=${COMP_WORDS[COMP_CWORD - 1]}
    local settings="--capacity --chunk --threads --idle --drive --deal"
    local words
    case $before in
    --drive) words="serial rounds rings" ;;
    --capacity | --chunk | --threads | --idle | --deal) words="" ;;
    *)
        case ${COMP_CWORD}:${COMP_WORDS[1]} in
        1:*) words="run check fmt size draw help --help --version" ;;
        *:run) words="$settings --explain --watch --help" ;;
        *:check) words="--json --help" ;;
        *:fmt) words="--check --write --help" ;;
        *:size) words="--chunk --help" ;;
        *:draw) words="$settings --text --traffic --help" ;;
        *:help) words="run check fmt size draw" ;;
        esac
        ;;
    esac
    COMPREPLY=($(compgen -W "$words" -- "$word"))
    case $before:$word in
    --*:* | *:-*) ;;
    *) [ "$COMP_CWORD" -eq 1 ] || COMPREPLY+=($(compgen -f -- "$word")) ;;
    esac
}
complete -F _levuttar levuttar ./levuttar
