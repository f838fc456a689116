# Completion of autrail's commands, options and time words for bash.
_autrail() {
    local word=${COMP_WORDS[COMP_CWORD]} before=${COMP_WORDS[COMP_CWORD-1]} each command=
    local times='now recent this-hour boot today yesterday this-week week-ago this-month this-year'
    for each in "${COMP_WORDS[@]:1:COMP_CWORD-1}"; do
        case $each in back | fore | why | find | show | stat | ask | keep | rules) command=$each; break ;; esac
    done
    case $before in
        -if | --input) mapfile -t COMPREPLY < <(compgen -f -- "$word"); return ;;
        --store | --after) mapfile -t COMPREPLY < <(compgen -f -- "$word"); return ;;
        -m | --mode) mapfile -t COMPREPLY < <(compgen -W 'plain continuous full source' -- "$word"); return ;;
        --svg | --png) mapfile -t COMPREPLY < <(compgen -f -- "$word"); return ;;
        --at | --since) mapfile -t COMPREPLY < <(compgen -W "$times" -- "$word"); return ;;
        --program) mapfile -t COMPREPLY < <(compgen -c -- "$word"); return ;;
    esac
    local options='-if --store -m -q --order --no-order --program --help'
    case $command in
        '') options="back fore why find show stat ask keep rules $options --version" ;;
        back) options="$options --at -a --hide --each --paths --tree --json --dot --svg --png" ;;
        fore) options="$options --since -a --hide --each --paths --tree --json --dot --svg --png" ;;
        why) options="$options --at --lines -i --interpret --each --json" ;;
        find | show) options="$options --each --json" ;;
        stat) options="$options --json" ;;
        keep) options="$options --over-gap --after --wait --json" ;;
    esac
    mapfile -t COMPREPLY < <(compgen -W "$options" -- "$word")
    if [ -n "$command" ] && [ "${word#-}" = "$word" ]; then
        mapfile -t COMPREPLY < <(compgen -f -- "$word")
    fi
}
complete -o filenames -F _autrail autrail
