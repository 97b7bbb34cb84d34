# -o never loses data: on any failure the old file stands, nothing is left beside it, and one line says why.
mkdir save && cd save || exit 1
cp ../table.bin ../steps.bin ../stations.txt ../new.bin ../stop.bin ../stopped.bin .
files=$(ls -A)

# kept: the folder holds what it held, and the table its bytes
kept() {
    [ "$(ls -A)" = "$files" ] && same table.bin ../table.bin
}
# unwritten NAME FILE WHY: a run that can't write there
unwritten() {
    group "not written: $1"
    try 'run' 2 '' "station-line: $2: not written: $3"$'\n' run table.bin steps.bin -o "$2"
    try 'assemble' 2 '' "station-line: $2: not written: $3"$'\n' assemble table stations.txt -o "$2"
    try 'allowed' 2 '' "station-line: $2: not written: $3"$'\n' allowed table.bin -o "$2"
    holds 'all stands' kept
    end
}
unwritten 'a full disk' /dev/full "it can't be written: No space left on device"
unwritten 'a folder that is a file' table.bin/new "it can't be reached: Not a directory"
unwritten 'no such folder' none/new "its folder can't be opened: No such file or directory"
unwritten 'a folder' .. 'it is a folder'
unwritten 'this folder' ./ 'it is a folder'
unwritten 'the name of no file' fresh/ "it is no file's name"
long=$(printf 'n%.0s' {1..300})
unwritten 'a name too long' "$long" "it can't be reached: File name too long"
ln -s nowhere dangling
files=$(ls -A)
unwritten 'a link to nothing' dangling 'it is a link to nothing'
holds 'the link to nothing is still one' [ -L dangling ]
"$python" -c 'import socket; socket.socket(socket.AF_UNIX).bind("socket")'
files=$(ls -A)
unwritten 'a socket' socket 'it is neither a file, a pipe nor a character device'
rm -f socket dangling
files=$(ls -A)

# A list or a text is not lost to what is made from it.
group 'not written: over the step list or the text'
cp steps.bin list.bin && ln list.bin same.bin && cp stations.txt text.txt
for name in list.bin ./list.bin same.bin; do
    try "run: $name" 2 '' "station-line: $name: not written: it is the step list"$'\n' run table.bin list.bin -o "$name"
done
input=list.bin try 'run: from a pipe' 2 '' $'station-line: list.bin: not written: it is the step list\n' run table.bin - -o list.bin
try 'assemble' 2 '' $'station-line: text.txt: not written: it is the text\n' assemble table text.txt -o text.txt
input=text.txt try 'assemble: from a pipe' 2 '' $'station-line: text.txt: not written: it is the text\n' assemble table - -o text.txt
holds 'both stand' eval 'same list.bin ../steps.bin && same text.txt ../stations.txt'
rm list.bin same.bin text.txt
end

# A disk that fills up half way, by a limit of 1,024 bytes for a file.
for sentence in 'run table.bin steps.bin -o table.bin' 'assemble table stations.txt -o table.bin' 'run table.bin steps.bin -o fresh.bin'; do
    group "a disk that fills up half way: $sentence"
    (ulimit -f 1 && exec "$program" $sentence) > "$got.out" 2> "$got.err" < /dev/null
    holds 'status' [ $? -eq 2 ]
    holds 'words' [ "$(< "$got.err")" = "station-line: ${sentence##* }: not written: the new file can't be written: File too large" ]
    holds 'no listing' [ ! -s "$got.out" ]
    holds 'all stands' kept
    end
done

# The file behind standard output or error, by any name, is not touched.
# standard NAME DESCRIPTOR FILE: with log.txt open there, FILE is refused; the log keeps what it had and its name
standard() {
    local words="station-line: $3: not written: it is standard $1"
    group "standard $1 as $3"
    echo before > log.txt && rm -f hard.txt && ln log.txt hard.txt && ln -sf log.txt soft.txt
    if [ "$2" -eq 1 ]; then
        "$program" run table.bin steps.bin -o "$3" >> log.txt 2> "$got.err"
        holds 'run: status' [ $? -eq 2 ]
        "$program" assemble table stations.txt -o "$3" >> log.txt 2>> "$got.err"
        holds 'assemble: status' [ $? -eq 2 ]
        holds 'the log' [ "$(< log.txt)" = before ]
        holds 'words' [ "$(< "$got.err")" = "$words"$'\n'"$words" ]
    else
        "$program" run table.bin steps.bin -o "$3" > "$got.out" 2>> log.txt
        holds 'status' [ $? -eq 2 ]
        holds 'the log' [ "$(< log.txt)" = before$'\n'"$words" ]
        holds 'no listing' [ ! -s "$got.out" ]
    fi
    holds 'it has both names' [ hard.txt -ef log.txt ]
    rm -f log.txt hard.txt soft.txt
    holds 'all stands' kept
    end
}
for name in /dev/stdout /dev/fd/1 /proc/self/fd/1 log.txt hard.txt soft.txt; do
    standard output 1 "$name"
done
for name in /dev/stderr /dev/fd/2 log.txt; do
    standard error 2 "$name"
done
group 'standard output that is a pipe'
got_piped=$({ "$program" run table.bin steps.bin -o /dev/stdout; echo "status $?"; } 2> "$got.err" | cat)
holds 'status, and no listing' [ "$got_piped" = 'status 2' ]
holds 'words' [ "$(< "$got.err")" = 'station-line: /dev/stdout: not written: it is standard output' ]
end
holds 'the null device may be both' "$program" run table.bin steps.bin -o /dev/null > /dev/null 2> /dev/null
group 'standard output or error that is closed'
"$program" run table.bin steps.bin -o fresh.bin >&- 2> "$got.err"
holds 'output: status' [ $? -eq 2 ]
holds 'output: words' [ "$(< "$got.err")" = 'station-line: standard output: Bad file descriptor' ]
holds 'the table is there' same fresh.bin new.bin
"$program" run table.bin steps.bin -o fresh.bin >&- 2>&- <&-
holds 'all three: status' [ $? -eq 2 ]
holds 'the table is whole' same fresh.bin new.bin
rm -f fresh.bin
holds 'all stands' kept
end

# Success: the file is whole, keeps its mode, and nothing is left beside it.
cp table.bin over.bin
chmod 640 over.bin
files=$(ls -A)
group 'over its own table'
try 'the run' 0 "$listing" '' run over.bin steps.bin -o over.bin
holds 'the new bytes' same over.bin new.bin
holds 'the old mode' [ "$(stat -c %a over.bin)" = 640 ]
holds 'nothing beside it' kept
end
group '-o before the words'
try 'the run' 0 "$listing" '' run -o before.bin table.bin steps.bin
holds 'its bytes' same before.bin new.bin
end
mkdir deep && cp table.bin deep/real.bin && ln -s deep/real.bin link
group 'a link'
try 'the run' 0 "$listing" '' run table.bin steps.bin -o link
holds 'the link is still one' [ -L link ]
holds 'the file behind it is new' same deep/real.bin new.bin
end
cp table.bin one.bin && ln one.bin other.bin
group 'of two names of one file, the other keeps the old one'
try 'the run' 0 "$listing" '' run table.bin steps.bin -o one.bin
holds 'the one' same one.bin new.bin
holds 'the other' same other.bin table.bin
end
group 'a device'
try 'the run' 0 "$listing" '' run table.bin steps.bin -o /dev/null
holds 'it is still one' [ -c /dev/null ]
end
mkfifo pipe
timeout 20 cat pipe > piped.bin &
group 'a pipe'
try 'the run' 0 "$listing" '' run table.bin steps.bin -o pipe
wait $!
holds 'what came through' same piped.bin new.bin
end

# A table written by a run that stopped is still written; with --all-or-nothing only one that was done.
say 13 stop.bin 'step 2: exit 5'
group 'a run that stopped writes its table'
try 'the run' 1 "$stopped" "$said" run table.bin stop.bin -o half.bin
holds 'its bytes' same half.bin stopped.bin
end
group '--all-or-nothing'
rm -f half.bin
try 'a run that stopped' 1 "$stopped" "$said"$'station-line: half.bin: not written: the run stopped\n' run --all-or-nothing table.bin stop.bin -o half.bin
holds 'nothing is written' [ ! -e half.bin ]
try 'a run that was done' 0 "$listing" '' run table.bin steps.bin -o half.bin --all-or-nothing
holds 'it is written' same half.bin new.bin
misuse --all-or-nothing 'goes with -o' run
try 'without -o' 2 '' "$said" run --all-or-nothing table.bin steps.bin
misuse --all-or-nothing=yes 'takes no value' run
try 'with a value' 2 '' "$said" run --all-or-nothing=yes table.bin steps.bin
end

# The table is safe before the listing is printed.
group 'a listing that fails'
"$program" run table.bin steps.bin -o first.bin > /dev/full 2> /dev/null
holds 'status' [ $? -eq 2 ]
holds 'the table is there' same first.bin new.bin
end
cd ..
