# The examples of document 01: the printed listing, the check word, the thirteen situations, the empty table.
example='3 - 5 stay
5 3 9 stay i7
7 - - stay
9 5 - stay
'
listing='answer 0 done 1 stations 4
3 - 5 stay
5 3 7 stay
7 - - stay i9
9 5 - stay
'
printf '%s' "$example" > stations.txt
echo 'deliver 5 i7' > steps.txt
try 'assemble the example' 0 '' '' assemble table stations.txt -o table.bin
try 'assemble its step' 0 '' '' assemble steps steps.txt -o steps.bin
holds 'the table has the bytes of document 01' cmp table.bin "$root/examples/table.bin"
holds 'the step has the bytes of document 01' cmp steps.bin "$root/examples/steps.bin"
try 'the listing' 0 "$listing" '' run table.bin steps.bin
try 'the listing, with -o' 0 "$listing" '' run table.bin steps.bin -o new.bin
try 'the new table' 0 "${listing#*$'\n'}" '' dump table new.bin
try 'the new table is accepted' 0 $'0\n' '' check new.bin
viewed='block 1 at 0: 3 - 5 stay
block 2 at 512: 5 3 9 stay i7
block 3 at 1024: 7 - - stay
block 4 at 1536: 9 5 - stay
end
'
try 'the view of the table' 0 "$viewed" '' view table.bin
try 'the table as text' 0 "$example" '' dump table table.bin
try 'the step as text' 0 $'deliver 5 i7\n' '' dump steps steps.bin

# The same from pipes.
input=table.bin try 'the table from a pipe' 0 "$listing" '' run - steps.bin
input=steps.bin try 'the steps from a pipe' 0 "$listing" '' run table.bin -
try 'both from pipes' 0 "$listing" '' run <(cat table.bin) <(cat steps.bin)
input=table.bin try 'check from a pipe' 0 $'0\n' '' check -
input=table.bin try 'view from a pipe' 0 "$viewed" '' view -
input=table.bin try 'dump from a pipe' 0 "$example" '' dump table -
input=table.bin try 'leave from a pipe' 1 $'held-by 5\n' '' leave - 7
input=table.bin try 'roll-call from a pipe' 0 $'7 held-by 5\n5 bag\n' '' roll-call - 7 5
input=table.bin try 'line from a pipe' 1 $'no\n' '' line -

# "A block of station 5, staying, left none, right 9, one introduction of 7 ... the check word is 65,511 (bytes E7 FF)."
table word.bin '5 - 9 stay i7' '7 - - stay' '9 - - stay'
bytes word.want e7 ff
tail -c +511 word.bin | head -c 2 > word.got
holds 'the check word of document 01' cmp word.got word.want

# Any order is kept; what is written is in the one order.
tac stations.txt > backwards.txt
try 'assemble the example backwards' 0 '' '' assemble table backwards.txt -o backwards.bin
try 'the view keeps the stored order' 0 'block 1 at 0: 9 5 - stay
block 2 at 512: 7 - - stay
block 3 at 1024: 5 3 9 stay i7
block 4 at 1536: 3 - 5 stay
end
' '' view backwards.bin
try 'the dump keeps the stored order' 0 "$(cat backwards.txt)"$'\n' '' dump table backwards.bin
try 'the listing is the same' 0 "$listing" '' run backwards.bin steps.bin -o new2.bin
holds 'the table written is the same' cmp new.bin new2.bin
table mixed.bin '5 - - stay r i9 l i5 r i9' '9 - - stay'
try 'messages in stored order' 0 $'block 1 at 0: 5 - - stay r i9 l i5 r i9\nblock 2 at 512: 9 - - stay\nend\n' '' view mixed.bin
: > none.bin
try 'messages in written order' 0 $'answer 0 done 0 stations 2\n5 - - stay i5 i9 i9 l r r\n9 - - stay\n' '' run mixed.bin none.bin

# situation NAME STEP STATUS ANSWER LINE.. -- LINE..: the stations before, and the stations after
situation() {
    local name=$1 step=$2 status=$3 answer=$4 before after listing
    part_words "${@:5}"
    listing=$(printf '%s\n' "$answer" "${after[@]}")$'\n'
    table before.bin "${before[@]}"
    steps step.bin "$step"
    say_step "${answer#answer }" "$step"
    try "$name" "$status" "$listing" "$said" run before.bin step.bin
}
# say_step ANSWER STEP: what is said of the one step of a list
say_step() {
    said=
    [ "${1%% *}" -eq 0 ] || say "${1%% *}" step.bin "step 1: $2"
}
situation '1: introduction 7' 'deliver 5 i7' 0 'answer 0 done 1 stations 4' '3 - 5 stay' '5 3 9 stay i7' '7 - - stay' '9 5 - stay' \
    -- '3 - 5 stay' '5 3 7 stay' '7 - - stay i9' '9 5 - stay'
situation '2: introduction 9' 'deliver 5 i9' 0 'answer 0 done 1 stations 3' '3 - 5 stay' '5 3 9 stay i9 i9' '9 5 - stay' \
    -- '3 - 5 stay' '5 3 9 stay i9' '9 5 - stay'
situation '3: introduction 12' 'deliver 5 i12' 0 'answer 0 done 1 stations 4' '3 - 5 stay' '5 3 9 stay i12' '9 5 - stay' '12 - - stay' \
    -- '3 - 5 stay' '5 3 9 stay' '9 5 - stay i12' '12 - - stay'
situation '4: right none, introduction 12' 'deliver 5 i12' 0 'answer 0 done 1 stations 3' '3 - 5 stay' '5 3 - stay i12' '12 - - stay' \
    -- '3 - 5 stay' '5 3 12 stay' '12 - - stay'
situation '5: introduction 5' 'deliver 5 i5' 0 'answer 0 done 1 stations 3' '3 - 5 stay' '5 3 9 stay i5' '9 5 - stay' \
    -- '3 - 5 stay' '5 3 9 stay' '9 5 - stay'
situation '6: staying, remove-left' 'deliver 5 l' 0 'answer 0 done 1 stations 3' '3 - 5 stay' '5 3 9 stay l' '9 5 - stay' \
    -- '3 - 5 stay i5' '5 - 9 stay' '9 5 - stay'
situation '7: leaving, remove-left' 'deliver 5 l' 0 'answer 0 done 1 stations 3' '3 - 5 stay' '5 3 9 leave l' '9 5 - stay' \
    -- '3 - 5 stay' '5 3 9 leave' '9 5 - stay'
situation '8: leaving, remove-right' 'deliver 5 r' 0 'answer 0 done 1 stations 3' '3 - 5 stay' '5 3 9 leave r' '9 5 - stay' \
    -- '3 - 5 stay' '5 3 - leave' '9 5 - stay i5'
situation '9: leaving, timeout' 'timeout 5' 0 'answer 0 done 1 stations 3' '3 - - stay' '5 3 9 leave' '9 - - stay' \
    -- '3 - - stay r' '5 3 9 leave' '9 - - stay l'
situation '10: leaving, exit' 'exit 5' 0 'answer 0 done 1 stations 2' '3 - - stay' '5 3 9 leave' '9 - - stay' \
    -- '3 - - stay i9' '9 - - stay i3'
situation '11: the same, a remove-left in the bag' 'exit 5' 1 'answer 14 done 0 stations 3 bag' '3 - - stay' '5 3 9 leave l' '9 - - stay' \
    -- '3 - - stay' '5 3 9 leave l' '9 - - stay'
full='l l l l l l l l l l l l l l l l l l l l l l l l l l l l l l l'
situation '12: the bag of 9 holds 32' 'timeout 5' 1 'answer 15 done 0 stations 3' '3 - - stay' '5 3 9 stay' "9 - - stay $full l" \
    -- '3 - - stay' '5 3 9 stay' "9 - - stay $full l"
situation '12: with 31' 'timeout 5' 0 'answer 0 done 1 stations 3' '3 - - stay' '5 3 9 stay' "9 - - stay $full" \
    -- '3 - - stay i5' '5 3 9 stay' "9 - - stay i5 $full"
situation '13: a sole leaving station exits' 'exit 5' 0 'answer 0 done 1 stations 0' '5 - - leave' --
try '13: with -o, an empty table' 0 $'answer 0 done 1 stations 0\n' '' run before.bin step.bin -o gone.bin
holds '13: no byte is written' cmp gone.bin none.bin
try 'the empty table and the empty list' 0 $'answer 0 done 0 stations 0\n' '' run none.bin none.bin

# 14 with each reason (document 02, T-02): the own bag first, then the smallest holder, whatever the stored order.
situation '14: held by the smallest of three' 'exit 5' 1 'answer 14 done 0 stations 4 held-by 3' '9 5 - stay' '7 - - stay l i5' '5 - - leave' '3 - 5 stay' \
    -- '3 - 5 stay' '5 - - leave' '7 - - stay i5 l' '9 5 - stay'
situation '14: held by an introduction' 'exit 5' 1 'answer 14 done 0 stations 3 held-by 7' '9 7 - stay' '7 - 9 stay i9 i5' '5 - 9 leave' \
    -- '5 - 9 leave' '7 - 9 stay i5 i9' '9 7 - stay'
situation '14: held by the largest' 'exit 5' 1 'answer 14 done 0 stations 2 held-by 999999' '5 - - leave' '999999 5 - stay' \
    -- '5 - - leave' '999999 5 - stay'
situation '14: its own bag, though others hold it' 'exit 5' 1 'answer 14 done 0 stations 3 bag' '3 - 5 stay' '5 3 9 leave r' '9 5 - stay' \
    -- '3 - 5 stay' '5 3 9 leave r' '9 5 - stay'
situation '14: its own introduction' 'exit 5' 1 'answer 14 done 0 stations 1 bag' '5 - - leave i5' -- '5 - - leave i5'
printf 'timeout 5\ndeliver 3 r\ndeliver 5 i3\nexit 5\ndeliver 9 l\n' > late.txt
table late.bin '3 - 5 stay' '5 3 9 leave' '9 5 - stay'
try 'assemble an exit that comes too early' 0 '' '' assemble steps late.txt -o late_steps.bin
say 14 late_steps.bin 'step 4: exit 5'
late=$'answer 14 done 3 stations 3 held-by 9\n3 - - stay\n5 3 9 leave\n9 5 - stay l\n'
try '14 after some steps: who holds it now' 1 "$late" "$said" run late.bin late_steps.bin -o later.bin
try 'the leave question about the new table says the same' 1 $'held-by 9\n' '' leave later.bin 5

# 10 to 15 stop a run after the steps done; the table after those is written and the status is 1.
printf 'timeout 5\nexit 5\ntimeout 5\n' > stop.txt
try 'assemble three steps' 0 '' '' assemble steps stop.txt -o stop.bin
stopped=$'answer 13 done 1 stations 4\n3 - 5 stay i5\n5 3 9 stay i7\n7 - - stay\n9 5 - stay i5\n'
say 13 stop.bin 'step 2: exit 5'
try 'a run that stops' 1 "$stopped" "$said" run table.bin stop.bin -o stopped.bin
try 'the table after the steps done' 0 "${stopped#*$'\n'}" '' dump table stopped.bin
