# Completion of bash for the commands of a package archive.

_boqitsel()
{
    local word=${COMP_WORDS[COMP_CWORD]} before=${COMP_WORDS[COMP_CWORD - 1]} options=
    COMPREPLY=()
    if [ "$COMP_CWORD" -eq 1 ]; then
        mapfile -t COMPREPLY < <(compgen -W "@COMMANDS@ --help --version" -- "$word")
        return
    fi
    case $before in
        --at)
            mapfile -t COMPREPLY < <(compgen -W "$(date +%s)" -- "$word")
            return
            ;;
    esac
    case ${COMP_WORDS[1]} in
        @OPTIONS@
    esac
    case $word in
        -*) mapfile -t COMPREPLY < <(compgen -W "$options --help" -- "$word") ;;
        *)
            compopt -o filenames 2> /dev/null
            mapfile -t COMPREPLY < <(compgen -f -- "$word")
            ;;
    esac
}
complete -F _boqitsel archive boqitsel
