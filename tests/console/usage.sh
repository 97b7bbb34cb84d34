# The exit status, wrong use and help.

# "if station-line leave table.bin 3" goes on at yes alone.
group 'the exit status: 0 for done, accepted and yes'
try 'accepted' 0 $'0\n' '' check table.bin
try 'done' 0 "$listing" '' run table.bin steps.bin
try 'leave: yes' 0 $'yes\n' '' leave free.bin 7
try 'line: yes' 0 $'yes\n' '' line straight.bin
try 'allowed: nothing' 0 '' '' allowed empty
try 'roll-call: whatever the lines say' 0 $'3 held-by 5\n5 bag\n6 absent\n' '' roll-call table.bin 3 5 6
end
group 'the exit status: 1 for any other answer, no among them'
try 'leave: held' 1 $'held-by 5\n' '' leave table.bin 3
try 'leave: bag' 1 $'bag\n' '' leave table.bin 5
try 'line: no' 1 $'no\n' '' line table.bin
say 11 table.bin 'station 6'
try 'leave: absent' 1 '' "$said" leave table.bin 6
say 17 table.bin
try 'roll-call: too many' 1 '' "$said" roll-call table.bin {1..65}
holds 'a script goes no further where a station is held' eval '! { "$program" leave table.bin 3 > /dev/null && echo may go; } | grep -q may'
end

# Wrong use: status 2, nothing on standard output, one line that names the bad word and points to the help.
misuse COMMAND 'is missing'
try 'no command' 2 '' "$said"
misuse fly 'no such command'
try 'no such command' 2 '' "$said" fly table.bin
misuse '' 'no such command'
try 'an empty command' 2 '' "$said" ''
misuse --verbose 'no such option'
try 'an unknown option' 2 '' "$said" --verbose
group 'wrong use of each command'
for use in 'check TABLE' 'run TABLE STEPS' 'allowed TABLE' 'leave TABLE NUMBER' 'roll-call TABLE' 'line TABLE' 'view TABLE' \
    'draw TABLE' 'assemble table|steps TEXT' 'dump table|steps FILE'; do
    set -- $use
    if [ $# -eq 2 ]; then given=(table.bin); else given=(table table.bin); fi
    misuse "$1" "$2 is missing" "$1"
    try "$1: no word" 2 '' "$said" "$1"
    misuse "$1" "${3:-$2} is missing" "$1"
    [ $# -eq 2 ] || try "$1: one word" 2 '' "$said" "$1" table
    misuse 5 'one word too many' "$1"
    [ "$1" = roll-call ] || try "$1: too many" 2 '' "$said" "$1" "${given[@]}" 5
    misuse --quick 'no such option of this command' "$1"
    try "$1: an unknown option" 2 '' "$said" "$1" table.bin --quick
    case $1 in
    run | allowed | assemble)
        misuse -o "a file's name is missing" "$1"
        try "$1: -o without a file" 2 '' "$said" "$1" "${given[@]}" -o
        try "$1: -o with an empty name" 2 '' "$said" "$1" "${given[@]}" -o ''
        misuse --output= "a file's name is missing" "$1"
        try "$1: --output= with an empty name" 2 '' "$said" "$1" "${given[@]}" --output=
        misuse -ob 'given twice' "$1"
        try "$1: -o twice" 2 '' "$said" "$1" "${given[@]}" --output a -ob
        ;;
    *)
        misuse -o 'no such option of this command' "$1"
        try "$1: takes no -o" 2 '' "$said" "$1" table.bin -o new.bin
        ;;
    esac
done
end
misuse list "'table' or 'steps' is expected" assemble
try 'assemble: neither table nor steps' 2 '' "$said" assemble list steps.txt
misuse list "'table' or 'steps' is expected" dump
try 'dump: neither table nor steps' 2 '' "$said" dump list steps.bin
misuse - "standard input can't be both the table and the step list" run
try 'run: both from standard input' 2 '' "$said" run - -
misuse '-o -' 'standard output takes the listing' run
try 'run: -o -' 2 '' "$said" run table.bin steps.bin -o -
for command in leave roll-call; do
    group "$command: what is no number"
    for number in five 5x x5 +5 ' 5' '5 ' 5.0 0x5 '' -5; do
        misuse "$number" 'a station number is expected' $command
        try "'$number'" 2 '' "$said" $command -- table.bin "$number"
    done
    misuse -5 'no such option of this command' $command
    try 'an option for a number' 2 '' "$said" $command table.bin -5
    end
done
group 'what is asked of many stations, or of one'
misuse five 'a station number is expected' roll-call
try 'roll-call: the last of many is no number' 2 '' "$said" roll-call table.bin {1..99} five
try 'roll-call: a number is wanted before the table is read' 2 '' "$said" roll-call missing 5 five
misuse leave 'NUMBER is missing' leave
try 'leave: nothing after --' 2 '' "$said" leave table.bin --
end

# Options in every form.
group '-o FILE, -oFILE, --output FILE and --output=FILE'
for form in '-o written.bin' -owritten.bin '--output written.bin' --output=written.bin; do
    rm -f written.bin
    try "$form" 0 "$listing" '' run table.bin steps.bin $form
    holds "$form: the table" same written.bin new.bin
    try "$form before the words" 0 "$listing" '' run $form table.bin steps.bin
done
end

# Help: on standard output, status 0, wherever it is asked for.
help=$("$program" --help)$'\n'
run_help=$("$program" help run)$'\n'
holds 'help names every command' eval 'for c in check run allowed leave roll-call line view draw assemble dump; do [[ $help == *$'"'\n  '"'"$c "* ]] || exit 1; done'
holds 'help tells the exit status' grep -q '0 done, accepted or yes; 1 any other answer, no among them' <<< "${help//$'\n'/ }"
group 'help, -h and --help anywhere'
try --help 0 "$help" '' --help
try -h 0 "$help" '' -h
try help 0 "$help" '' help
try 'run --help' 0 "$run_help" '' run --help
try 'run -h' 0 "$run_help" '' run -h
try 'run: --help among words' 0 "$run_help" '' run table.bin --help steps.bin -o never.bin
try 'run: --help behind the words' 0 "$run_help" '' run a b c d --quick --help
try '--help run' 0 "$run_help" '' --help run
say 16 --help "can't be read: No such file or directory"
try '--help behind --' 2 $'16\n' "$said" check -- --help
holds 'nothing was written' [ ! -e never.bin ]
misuse fly 'no such command'
try 'help of no command' 2 '' "$said" help fly
end
group 'help of each command begins with its use'
for c in check run allowed leave roll-call line view draw assemble dump; do
    holds "$c" eval 'ends 0 help "$c" && [[ $out == "usage: station-line $c "* ]] && [ -z "$err" ]'
done
end
version="station-line $(sed -n 's/^.define STATION_LINE_VERSION "\(.*\)"$/\1/p' "$root/include/station_line.h")"$'\n'
group '-V and --version'
try --version 0 "$version" '' --version
try -V 0 "$version" '' -V
end

# Names and words of others can't be taken for anything else.
group 'control characters are escaped'
say 16 '\x1b[2J\x0aall is well\\' "can't be read: No such file or directory"
try 'a name' 2 $'16\n' "$said" check $'\e[2J\nall is well\\'
misuse '\x1b[2J' 'no such command'
try 'a command' 2 '' "$said" $'\e[2J'
misuse '--\x07' 'no such option of this command' check
try 'an option' 2 '' "$said" check $'--\a'
say 16 'z\xc2\x9bm \xe2\x80\xaeabc \xff\xc0\x80' "can't be read: No such file or directory"
try 'controls of eight bits, turned text, bytes that are none' 2 $'16\n' "$said" check $'z\xc2\x9bm \xe2\x80\xaeabc \xff\xc0\x80'
say 16 'Gerät-☃-😀' "can't be read: No such file or directory"
try 'plain text of other tongues stays' 2 $'16\n' "$said" check 'Gerät-☃-😀'
printf '\x1b]0;x\a\n' > $'text\r'
try 'a text and a word of it' 1 '' "text\\x0d:1:1: '\\x1b]0;x\\x07': a station number is expected, 1 to 999,999"$'\n' assemble table $'text\r'
end
