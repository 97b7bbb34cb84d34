# Bash completion for station-line(1): commands, options of each, stations where a number is wanted, and file names.

# The stations of the table that the words name, for `leave TABLE NUMBER`, `roll-call TABLE STATION...` and `draw TABLE --around STATION`.
_station_line_stations() {
    local word
    for word in "${COMP_WORDS[@]:2:COMP_CWORD-2}"; do
        if [[ $word != -* && -f $word ]]; then
            "${COMP_WORDS[0]}" dump table "$word" 2> /dev/null | cut -d ' ' -f 1
            return
        fi
    done
}

_station_line_files() {
    compopt -o filenames 2> /dev/null
    mapfile -t COMPREPLY < <(compgen -f -- "$1")
}

_station_line() {
    local current=${COMP_WORDS[COMP_CWORD]} previous=${COMP_WORDS[COMP_CWORD - 1]} command=${COMP_WORDS[1]} options choices
    COMPREPLY=()
    case $previous in
    -o | --output) _station_line_files "$current"; return ;;
    --only) choices=neighbours ;;
    --around) choices=$(_station_line_stations) ;;
    esac
    if [ "$COMP_CWORD" -eq 1 ]; then
        choices='check run allowed leave roll-call line view draw assemble dump help --help --version'
    elif [ "$command" = help ]; then
        choices='check run allowed leave roll-call line view draw assemble dump'
    elif [ "$COMP_CWORD" -eq 2 ] && [[ $command == assemble || $command == dump ]] && [[ $current != -* ]]; then
        choices='table steps'
    elif [ "$command" = leave ] && [ "$COMP_CWORD" -eq 3 ]; then
        choices=$(_station_line_stations)
    elif [ "$command" = roll-call ] && [ "$COMP_CWORD" -ge 3 ] && [[ $current != -* ]]; then
        choices=$(_station_line_stations)
    fi
    case $command in
    check) options='--all' ;;
    run) options='-o --output --all-or-nothing --trace' ;;
    draw) options='--only --around' ;;
    allowed | assemble) options='-o --output' ;;
    dump) options='--damaged' ;;
    esac
    if [ -n "$choices" ]; then
        mapfile -t COMPREPLY < <(compgen -W "$choices" -- "$current")
    elif [[ $current == -* ]]; then
        mapfile -t COMPREPLY < <(compgen -W "$options --help" -- "$current")
    else
        _station_line_files "$current"
    fi
}
complete -F _station_line station-line
