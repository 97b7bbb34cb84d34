# Bash completion, as the shell asks for it.
mkdir completion && cd completion || exit 1
cp "$root/examples/table.bin" "$root/examples/steps.bin" .
# completes WANTED WORD..: what the last of these words, behind the program's name, is completed to
completes() {
    bash -c '
        . "$1/console/station-line.bash"
        complete -p station-line > /dev/null || exit 1
        COMP_WORDS=("${@:2}") COMP_CWORD=$(($# - 2))
        _station_line
        printf "%s\n" "${COMPREPLY[@]}" | sort' sh "$root" "$program" "${@:2}" > "$got.out" && [ "$(tr '\n' ' ' < "$got.out")" = "$1 " ]
}
group 'bash completion'
holds 'commands' completes 'check' ch
holds 'every command and option at the beginning' completes '--help --version allowed assemble check draw dump help leave line roll-call run view' ''
holds 'what is assembled' completes 'steps table' assemble ''
holds 'what is dumped' completes 'table' dump t
holds 'help of a command' completes 'leave line' help l
holds 'files' completes 'steps.bin table.bin' run ''
holds 'more files' completes 'steps.bin' run table.bin s
holds 'a file behind -o' completes 'table.bin' run table.bin steps.bin -o t
holds 'the table of allowed' completes 'table.bin' allowed t
holds 'options' completes '--all-or-nothing' run --a
holds 'the stations of a table' completes '3 5 7 9' leave table.bin ''
holds 'the stations of a roll call' completes '3 5 7 9' roll-call table.bin 5 ''
holds 'the table of a roll call' completes 'table.bin' roll-call t
holds 'a station to draw around' completes '7' draw table.bin --around 7
holds 'what is drawn only' completes 'neighbours' draw table.bin --only ''
end
# options_completed: every option that the help of a command has is completed, and no other
options_completed() {
    local command options
    for command in check run allowed draw assemble dump leave roll-call line view; do
        options=$({ echo --help; "$program" help $command | grep '^  -' | grep -o -- '--[a-z-]*'; } | sort -u | tr '\n' ' ')
        completes "${options% }" $command -- || { echo "$command: $options"; return 1; }
    done
}
holds 'bash completion has every option of the help' options_completed
cd ..
