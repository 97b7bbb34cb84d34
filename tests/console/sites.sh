# Site codes (document 02, T-05): the last word of a station's line, `@` with the number, or nothing for 0; carried by every step, and of no
# part in what is done and answered.
sited='9 5 - stay l @256
5 3 9 leave i7 @1234
7 - - stay
3 - 5 stay @9999
'
printf '%s' "$sited" > sited.txt
try 'assemble site codes' 0 '' '' assemble table sited.txt -o sited.bin
try 'site codes and back' 0 "$sited" '' dump table sited.bin
try 'accepted' 0 $'0\n' '' check sited.bin
try 'the view' 0 'block 1 at 0: 9 5 - stay l @256
block 2 at 512: 5 3 9 leave i7 @1234
block 3 at 1024: 7 - - stay
block 4 at 1536: 3 - 5 stay @9999
end
' '' view sited.bin

# code BLOCK: bytes 18-19 of a block, in hex
code() {
    od -A n -t x1 -j $((512 * $1 + 18)) -N 2 sited.bin
}
group 'the bytes: little-endian, at 18'
holds '256' [ "$(code 0)" = ' 00 01' ]
holds '1,234' [ "$(code 1)" = ' d2 04' ]
holds 'none' [ "$(code 2)" = ' 00 00' ]
holds '9,999' [ "$(code 3)" = ' 0f 27' ]
end

# The block of document 01's example, at site 1,234: the words sum to 1,258 without the check, so the check word is 64,277.
table word.bin '5 - 9 stay i7 @1234' '7 - - stay' '9 - - stay'
bytes word.want 15 fb
tail -c +511 word.bin | head -c 2 > word.got
holds 'the check word of the block with a code' cmp word.got word.want

# A code of 0 is none, however it is written.
table none.bin '5 - - stay l'
table zero.bin '5 - - stay l @0'
table zeros.bin '5 - - stay l @0000'
holds 'a code of 0 is none' cmp none.bin zero.bin
holds 'also with more zeros' cmp none.bin zeros.bin
table padded.bin '5 - - stay @0042'
try 'a code with zeros in front' 0 $'5 - - stay @42\n' '' dump table padded.bin
printf '999999 - - leave%s @9999\n' "$(printf ' i999999%.0s' {1..32})" > longest.txt
try 'the longest line' 0 '' '' assemble table longest.txt -o longest.bin
try 'the longest line and back' 0 "$(cat longest.txt)"$'\n' '' dump table longest.bin

# Every kind of step carries the codes; the blocks are in order by their numbers, whatever their codes.
steps walk.bin 'deliver 5 i7' 'timeout 5' 'timeout 3' 'deliver 9 l' 'deliver 7 l' 'deliver 7 i9' 'deliver 3 r'
try 'a run carries them' 0 'answer 0 done 7 stations 4
3 - - stay @9999
5 3 7 leave i3 i3 i9 @1234
7 - 9 stay
9 - - stay @256
' '' run sited.bin walk.bin -o carried.bin
try 'what it wrote' 0 $'3 - - stay @9999\n5 3 7 leave i3 i3 i9 @1234\n7 - 9 stay\n9 - - stay @256\n' '' dump table carried.bin
table gone.bin '3 - - stay @1' '5 3 9 leave @2' '9 - - stay @3'
steps exit.bin 'exit 5'
try 'an exit' 0 $'answer 0 done 1 stations 2\n3 - - stay i9 @1\n9 - - stay i3 @3\n' '' run gone.bin exit.bin
try 'a refused step' 1 $'answer 14 done 0 stations 4 bag\n3 - 5 stay @9999\n5 3 9 leave i7 @1234\n7 - - stay\n9 5 - stay l @256\n' \
    $'station-line: exit.bin: 14: exit, leaving, NIDEC false (step 1: exit 5)\n' run sited.bin exit.bin

# The same table without codes is answered alike, and written alike but for the codes.
sed 's/ @.*//' sited.txt > bare.txt
"$program" assemble table bare.txt -o bare.bin
# alike WORD..: the program answers both tables alike; TABLE stands for the table
alike() {
    local status
    "$program" "${@/TABLE/sited.bin}" > "$got.sited" 2>&1
    status=$?
    "$program" "${@/TABLE/bare.bin}" > "$got.bare" 2>&1
    [ $? -eq $status ] && sed 's/ @[0-9]*$//; s/sited[.]bin/bare.bin/' "$got.sited" | diff - "$got.bare"
}
group 'the same table without codes'
for words_of in 'run TABLE walk.bin' 'run TABLE walk.bin --trace' 'run TABLE exit.bin' 'allowed TABLE' 'leave TABLE 7' 'leave TABLE 3' 'leave TABLE 4' \
    'roll-call TABLE' 'line TABLE' 'check TABLE' 'view TABLE' 'dump table TABLE'; do
    holds "$words_of" alike $words_of
done
end

# draw: beside the fill of the bag, or on a line of its own.
try 'draw site codes' 0 "$top"'    3 [label="3\n@1", pos="0,0"];
    5 [label="5 leaving\n@2", pos="148,0", fillcolor=lightgrey];
    9 [label="9\n@3", pos="296,0"];
    5 -> 3 [pos="e,48,-6 100,-6 83,-10 65,-10 55,-7"];
    5 -> 9 [pos="e,248,6 196,6 213,10 231,10 241,7"];
}
' '' draw gone.bin
group 'draw a code beside the fill of the bag'
ends 0 draw sited.bin
holds '5' grep -qF '    5 [label="5 leaving\n1/32 @1234", ' <<< "$out"
holds '9' grep -qF '    9 [label="9\nl\n1/32 @256", ' <<< "$out"
holds '7' grep -qF '    7 [label="7", ' <<< "$out"
end

# 10,000 and more: 4, and the place is named.
group 'a code above 9,999'
for site in '10 27:10000' '0f 28:10255' '00 80:32768' 'ff ff:65535'; do
    cp sited.bin above.bin
    patch above.bin $((3 * 512 + 18)) ${site%:*}
    place="site code at 1554 is ${site#*:}, should be 0 to 9,999"
    say 4 above.bin "block 4 at 1536, station 3: $place"
    try "check ${site#*:}" 1 $'4\n' "$said" check above.bin
    say 4 above.bin
    try "run ${site#*:}" 1 $'answer 4 done 0 stations 0\n' "$said" run above.bin walk.bin
    ends 1 dump table --damaged above.bin
    last="# 4: $place"$'\n'"3 - 5 stay @${site#*:}"$'\n'
    holds "dump ${site#*:}" [ "${out: -${#last}}" = "$last" ]
done
end
