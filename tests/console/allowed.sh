# allowed: every step that may happen next, in lines and as a step list.

# listed STEP..: the table here.bin allows these. What is printed, assemble takes; what -o writes, dump prints; a run of each step alone is done.
listed() {
    local wanted= step
    [ $# -eq 0 ] || wanted=$(printf '%s\n' "$@")$'\n'
    rm -f next.bin
    try 'printed' 0 "$wanted" '' allowed here.bin
    try 'printed and written' 0 "$wanted" '' allowed here.bin -o next.bin
    try 'dump of what is written' 0 "$wanted" '' dump steps next.bin
    holds 'assemble of what is printed' eval '"$program" allowed here.bin | "$program" assemble steps - | same - next.bin'
    for step; do
        steps step.bin "$step"
        holds "$step" ends 0 run here.bin step.bin
    done
}
# allows NAME LINE.. -- STEP..: the table of these lines does
allows() {
    local before after
    part_words "${@:2}"
    group "allowed: $1"
    table here.bin "${before[@]}"
    listed "${after[@]}"
    end
}
allows 'the example' '3 - 5 stay' '5 3 9 stay i7' '7 - - stay' '9 5 - stay' -- 'timeout 3' 'timeout 5' 'deliver 5 i7' 'timeout 7' 'timeout 9'
allows 'each step once, by station, kind and number' '700000 - - leave r i700000 l i5 r i700000' '5 - - stay' \
    -- 'timeout 5' 'timeout 700000' 'deliver 700000 i5' 'deliver 700000 i700000' 'deliver 700000 l' 'deliver 700000 r'
allows 'an exit, with 31 in the bag that receives' '3 - - leave' '5 3 9 leave' "9 - - stay $full" \
    -- 'timeout 3' 'timeout 5' 'exit 5' 'timeout 9' 'deliver 9 l'
allows 'none with 32' '3 - - leave' '5 3 9 leave' "9 - - stay $full l" -- 'timeout 3' 'timeout 9' 'deliver 9 l'
allows 'no exit of one that stays, or that others name' '3 - 5 stay' '5 - - leave' '7 - - stay' -- 'timeout 3' 'timeout 5' 'timeout 7'
allows 'nothing of the empty table' --
allows 'nothing where every step would send to a full bag' "3 - 5 stay ${full//l/r} r" "5 3 - stay $full l" --
holds 'allowed: an empty list is an empty file' [ ! -s next.bin ]
try 'allowed: stored in another order' 0 $'timeout 3\ntimeout 5\ndeliver 5 i7\ntimeout 7\ntimeout 9\n' '' allowed backwards.bin
group 'allowed: the longest list'
longest=$(for n in {1..64}; do echo "timeout $n"; printf "deliver $n i%d\n" {1..32}; done)$'\n'
printf "%d - - stay$(printf ' i%d' {32..1})\n" {64..1} > longest.txt
"$program" assemble table longest.txt -o longest.bin
try 'printed' 0 "$longest" '' allowed longest.bin -o next.bin
holds '2,112 steps' [ "$(stat -c %s next.bin)" -eq $((2112 * 12)) ]
try 'and back' 0 "$longest" '' dump steps next.bin
end

# Where it is read from and written to.
input=table.bin try 'allowed: from a pipe' 0 $'timeout 3\ntimeout 5\ndeliver 5 i7\ntimeout 7\ntimeout 9\n' '' allowed -
misuse '-o -' 'standard output takes the steps' allowed
try 'allowed: -o -' 2 '' "$said" allowed table.bin -o -
group 'allowed: the table is not lost to its steps'
cp table.bin kept.bin && ln -f kept.bin same.bin
for name in kept.bin ./kept.bin same.bin; do
    try "$name" 2 '' "station-line: $name: not written: it is the table"$'\n' allowed kept.bin -o "$name"
done
input=kept.bin try 'from a pipe' 2 '' $'station-line: kept.bin: not written: it is the table\n' allowed - -o kept.bin
holds 'it stands' same kept.bin table.bin
end
group 'allowed: a table that is refused'
echo old > next.bin
say 3 3.bin
try 'its number' 1 '' "$said" allowed 3.bin -o next.bin
holds 'the old file stands' grep -qx old next.bin
end
group 'allowed: steps that can not be printed'
"$program" allowed table.bin -o next.bin > /dev/full 2> /dev/null
holds 'status' [ $? -eq 2 ]
holds 'the list is there' [ "$("$program" dump steps next.bin)" = "$("$program" allowed table.bin)" ]
end

. "$root/tests/console/stored_cases.sh"
# stored_allowed CASE: a table that is refused has no list; else the list goes to bytes and back, and has the first step of the stored list exactly
# where the stored listing has it done
stored_allowed() {
    local answer listing done_steps first is_listed=0
    IFS= read -r -d '' listing < "$1.listing"
    read -r _ answer _ done_steps _ <<< "${listing%%$'\n'*}"
    case $answer in
    [1-7])
        says 1 '' "station-line: $1.table: $answer: ${words[$answer]}"$'\n' allowed "$1.table"
        return
        ;;
    8 | 16) return 0 ;;
    esac
    ends 0 allowed "$1.table" -o next.bin && [ -z "$err" ] && says 0 "$out" '' dump steps next.bin && circle steps next.bin || return
    first=$(head -c 12 "$1.steps" | "$program" dump steps - 2> /dev/null)
    [ -z "$first" ] || ! grep -qxF "$first" <<< "$out" || is_listed=1
    [ "$is_listed" -eq $((done_steps > 0)) ]
}
export ASAN_OPTIONS=detect_leaks=0 # looked for above, and it takes the better part of a short run
group 'stored tables: the steps that may happen next'
each stored_allowed "$stored"/run.*.table
end
unset ASAN_OPTIONS
