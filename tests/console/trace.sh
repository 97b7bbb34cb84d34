# run --trace: a line for each step, then the listing.

# traced NAME LINE.. -- STEP=WHAT..: the trace of these steps over these stations
traced() {
    local name=$1 before after list=() wanted= k=0 part
    part_words "${@:2}"
    for part in "${after[@]}"; do
        k=$((k + 1))
        list+=("${part%%=*}")
        wanted+="$k ${part%%=*}: ${part#*=}"$'\n'
    done
    table before.bin "${before[@]}"
    steps step.bin "${list[@]}"
    "$program" run before.bin step.bin > "$got.listing" 2> "$got.words"
    IFS= read -r -d '' plain < "$got.listing"
    IFS= read -r -d '' plain_words < "$got.words"
    local status=$((${plain_words:+1} + 0))
    try "$name" "$status" "$wanted$plain" "$plain_words" run before.bin step.bin --trace
}
traced 'trace: timeouts, staying and leaving' '3 - - stay' '5 3 9 stay' '7 3 9 leave' '9 5 - stay' '11 - - leave' \
    -- 'timeout 5=i5 to 3, i5 to 9' 'timeout 7=r to 3, l to 9' 'timeout 9=i9 to 5' 'timeout 11=nothing sent' 'timeout 3=nothing sent'
traced 'trace: introductions' '3 - - stay' '5 3 9 stay i7 i12 i9 i5 i1 i3 i3' '7 - - stay' '9 - - stay' '12 - - stay' '1 - - stay' \
    -- 'deliver 5 i7=right 9 becomes 7, i9 to 7' 'deliver 5 i12=i12 to 7' 'deliver 5 i9=i9 to 7' 'deliver 5 i5=nothing sent' \
    'deliver 5 i1=i1 to 3' 'deliver 5 i3=nothing sent' 'deliver 3 i1=left none becomes 1, nothing sent' \
    'deliver 7 i9=right none becomes 9, nothing sent' 'deliver 7 i9=nothing sent' 'deliver 7 i12=i12 to 9'
traced 'trace: removals' '3 - - stay' '5 3 9 stay l l r r' '9 - - stay' \
    -- 'deliver 5 l=left 3 becomes none, i5 to 3' 'deliver 5 l=nothing sent' 'deliver 5 r=right 9 becomes none, i5 to 9' 'deliver 5 r=nothing sent'
traced 'trace: exits' '3 - - stay' '5 3 9 leave' '9 - - leave' \
    -- 'exit 5=i9 to 3, i3 to 9, gone' 'deliver 9 i3=left none becomes 3, nothing sent' 'deliver 3 i9=right none becomes 9, nothing sent' \
    'exit 9=refused with 14, exit, leaving, NIDEC false: 3 has it as right'
group 'trace: what a refused step was missing'
here=('3 - 5 stay' '5 3 9 leave i7 l i7 r r r' '7 - - stay i5 i9 i5' '9 5 - leave')
traced '11' "${here[@]}" -- 'timeout 3=i3 to 5' 'timeout 6=refused with 11, station not present: 6 has no block'
traced '12' "${here[@]}" -- 'deliver 5 i9=refused with 12, message not in that bag: the bag of 5 holds 2 i7, l, 3 r'
traced '12, empty' "${here[@]}" -- 'deliver 9 l=refused with 12, message not in that bag: the bag of 9 is empty'
traced '13' "${here[@]}" -- 'exit 3=refused with 13, exit by a staying station: 3 has no leaving mark'
traced '14' "${here[@]}" \
    -- 'exit 5=refused with 14, exit, leaving, NIDEC false: the bag of 5 holds 2 i7, l, 3 r, 3 has it as right, 7 has i5 in its bag, 9 has it as left'
traced '14, by rising number in any stored order' '9 5 - stay' '7 - - stay i5' '5 - - leave' '3 - 5 stay' \
    -- 'exit 5=refused with 14, exit, leaving, NIDEC false: 3 has it as right, 7 has i5 in its bag, 9 has it as left'
traced '14, held by itself' '5 - - leave i5' -- 'exit 5=refused with 14, exit, leaving, NIDEC false: the bag of 5 holds i5'
traced '15' '3 - - stay' '5 3 9 stay' "9 - - stay $full l" \
    -- 'timeout 5=refused with 15, a bag that must receive holds 32: the bag of 9 is full and must receive i5'
traced '15, both' "3 - - stay $full r" '5 3 9 leave' "9 - - stay $full l" \
    -- 'exit 5=refused with 15, a bag that must receive holds 32: the bag of 3 is full and must receive i9, the bag of 9 is full and must receive i3'
traced '15, a full bag that need not receive' "3 - - stay $full l" '5 3 9 stay i12' "9 - - stay $full i12" '12 - - stay' \
    -- 'deliver 5 i12=refused with 15, a bag that must receive holds 32: the bag of 9 is full and must receive i12'
bytes malformed.bin 09 00 00 00 05 00 00 00 00 00 00 00
say 10 malformed.bin 'step 1: action 9, kind 0, station 5, number 0'
try '10' 1 $'1 action 9, kind 0, station 5, number 0: refused with 10, malformed step\nanswer 10 done 0 stations 4\n'"$example" "$said" \
    run --trace table.bin malformed.bin
end
group 'trace: none for 1 to 9, nor for an empty list'
say 8 cut.steps
try '8' 1 $'answer 8 done 0 stations 0\n' "$said" run table.bin cut.steps --trace
try 'the empty list' 0 $'answer 0 done 0 stations 4\n'"$example" '' run table.bin empty --trace
try 'the empty table' 0 $'answer 0 done 0 stations 0\n' '' run empty empty --trace
end
group 'trace: 4,096 steps over 64 stations'
{
    echo '1 - 2 stay'
    printf '%d - - stay\n' {2..64}
} > many.txt
"$program" assemble table many.txt -o many.bin
printf 'timeout 1\ndeliver 2 i1\n%.0s' {1..2048} > many_steps.txt
"$program" assemble steps many_steps.txt -o many_steps.bin
began=$SECONDS
ends 0 run many.bin many_steps.bin --trace
holds 'in seconds' [ $((SECONDS - began)) -lt 30 ]
holds 'a line each, then the listing' [ "$(wc -l <<< "$out")" -eq $((4096 + 1 + 64 + 1)) ]
holds 'the last step' grep -qx '4096 deliver 2 i1: nothing sent' <<< "$out"
end
. "$root/tests/console/stored_cases.sh"
# stored_trace CASE: as many lines as steps were tried, and then the listing
stored_trace() {
    local answer listing done_steps
    IFS= read -r -d '' listing < "$1.listing"
    read -r _ answer _ done_steps _ <<< "${listing%%$'\n'*}"
    [ "$answer" -eq 0 ] || [ "$answer" -ge 10 ] && [ "$answer" -lt 16 ] || return 0
    ends $((answer > 0)) run --trace "$1.table" "$1.steps" && [[ $out == *"$listing" ]] || return
    local lines=${out%"$listing"}
    [ "$(grep -c . <<< "$lines")" -eq $((done_steps + (answer > 0))) ]
}
group 'stored runs: the trace'
each stored_trace "$stored"/run.*.table
end
