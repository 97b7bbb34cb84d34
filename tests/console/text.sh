# assemble: what it takes, and errors that name line and column.

# wrong WHAT NAME TEXT PLACE MESSAGE: this text must be refused there, and the file of -o must stand
wrong() {
    printf '%b' "$3" > wrong.txt
    echo old > wrong.bin
    group "assemble $1: $2"
    try 'what is said' 1 '' "wrong.txt:$4: $5"$'\n' assemble "$1" wrong.txt -o wrong.bin
    holds 'the old file stands' grep -qx old wrong.bin
    end
}
number='a station number is expected, 1 to 999,999'
neighbour="a neighbour is expected, 1 to 999,999 or '-' for none"
mark="'stay' or 'leave' is expected"
message="a message is expected: 'i' with a number from 1 to 999,999, 'l' or 'r'"
site="a site code is expected: '@' with a number from 0 to 9,999"
action="'timeout', 'deliver' or 'exit' is expected"

wrong table 'a letter for a number' 'x - - stay\n' 1:1 "'x': $number"
wrong table 'station 0' '# one\n\n0 - - stay\n' 3:1 "'0': $number"
wrong table 'station 1,000,000' '5 - - stay\n 1000000 - - stay\n' 2:2 "'1000000': $number"
wrong table 'a station of 33 bits' '4294967301 - - stay' 1:1 "'4294967301': $number"
wrong table 'a station below 0' '-5 - - stay' 1:1 "'-5': $number"
wrong table 'a station with a sign' '+5 - - stay' 1:1 "'+5': $number"
wrong table 'a none for a station' '- - - stay' 1:1 "'-': $number"
wrong table 'left 0' '5 0 - stay' 1:3 "'0': $neighbour"
wrong table 'left in words' '5 none - stay' 1:3 "'none': $neighbour"
wrong table 'right 1,000,000' '5 -  1000000 stay' 1:6 "'1000000': $neighbour"
wrong table 'no left' '5' 1:2 "the line ends early: $neighbour"
wrong table 'no right' '5 -   \n' 1:4 "the line ends early: $neighbour"
wrong table 'no mark' '5 - -\n' 1:6 "the line ends early: $mark"
wrong table 'another mark' '5 - - stays' 1:7 "'stays': $mark"
wrong table 'a message for a mark' '5 - - i5' 1:7 "'i5': $mark"
wrong table 'another message' '5 - - stay l x' 1:14 "'x': $message"
wrong table 'an introduction of nothing' '5 - - stay i' 1:12 "'i': $message"
wrong table 'an introduction of 0' '5 - - stay i0' 1:12 "'i0': $message"
wrong table 'an introduction of 1,000,000' '5 - - stay i1000000' 1:12 "'i1000000': $message"
wrong table 'an introduction parted' '5 - - stay i 7' 1:12 "'i': $message"
wrong table 'a remove-left with a number' '5 - - stay l7' 1:12 "'l7': $message"
wrong table 'a capital' '5 - - stay L' 1:12 "'L': $message"
wrong table 'a comment after a station' '5 - - stay # here' 1:12 "'#': $message"
wrong table 'the listing first line' 'answer 0 done 1 stations 4\n' 1:1 "'answer': $number"
wrong table 'the end of a view' '5 - - stay\nend\n' 2:1 "'end': $number"
wrong table 'a zero byte' '5 - - stay\0' 1:7 "'stay\\x00': $mark"
wrong table 'bytes that do not print' '\0351\0033[2J - - stay' 1:1 "'\\xe9\\x1b[2J': $number"
wrong table 'a long word' "$(printf '1%.0s' {1..60}) - - stay" 1:1 "'$(printf '1%.0s' {1..40})...': $number"
wrong table '33 messages' "5 - - stay$(printf ' l%.0s' {1..33})" 1:76 "'l': a bag holds at most 32 messages"
wrong table 'a tab' '5\t-\t-\tgo' 1:7 "'go': $mark"
wrong table 'a site code without a number' '5 - - stay @' 1:12 "'@': $site"
wrong table 'a site code parted' '5 - - stay @ 7' 1:12 "'@': $site"
wrong table 'site code 10,000' '5 - - stay l @10000' 1:14 "'@10000': $site"
wrong table 'a site code of 17 bits' '5 - - stay @65537' 1:12 "'@65537': $site"
wrong table 'a site code of 33 bits' '5 - - stay @4294967297' 1:12 "'@4294967297': $site"
wrong table 'a site code below 0' '5 - - stay @-1' 1:12 "'@-1': $site"
wrong table 'letters for a site code' '5 - - stay @x' 1:12 "'@x': $site"
wrong table 'a message behind the site code' '5 - - stay @7 l' 1:15 "'l': the site code is the last word of its line"
wrong table 'two site codes' '5 - - stay @7 @7' 1:15 "'@7': the site code is the last word of its line"
wrong table 'a site code for a mark' '5 - - @7' 1:7 "'@7': $mark"
wrong table '33 messages and a site code' "5 - - stay$(printf ' l%.0s' {1..33}) @7" 1:76 "'l': a bag holds at most 32 messages"

# What the library's check refuses is told by its number, with the place.
wrong table '2: 65 stations' "$(printf '%d - - stay\\n' {1..65})" 65:1 "2: ${words[2]}"
wrong table '5: left is the station itself' '5 5 - stay' 1:3 "5: ${words[5]}"
wrong table '5: left above' '5 9 - stay\n9 - - stay' 1:3 "5: ${words[5]}"
wrong table '5: right below' '5 - - stay\n9 5 5 stay' 2:5 "5: ${words[5]}"
wrong table '6: a station twice' '5 - - stay\n7 - - stay\n\n  5 - - leave' 4:3 "6: ${words[6]}"
wrong table '7: a left without a block' '5 3 - stay' 1:3 "7: ${words[7]}"
wrong table '7: a right without a block' '5 - 9 stay' 1:5 "7: ${words[7]}"
wrong table '7: an introduction without a block' '5 - - stay l i5 i6' 1:17 "7: ${words[7]}"
wrong table '5 before 7' '5 3 - stay\n9 - 7 stay' 2:5 "5: ${words[5]}"
wrong table '6: a station twice, behind a full bag and a site code' "5 - - stay$(printf ' i5%.0s' {1..32}) @7\\n5 - - stay @9" 2:1 "6: ${words[6]}"

wrong steps 'another action' 'timeout 5\nsleep 5\n' 2:1 "'sleep': $action"
wrong steps 'a capital' 'Timeout 5\n' 1:1 "'Timeout': $action"
wrong steps 'no station' 'exit' 1:5 "the line ends early: $number"
wrong steps 'station 0' 'timeout 0' 1:9 "'0': $number"
wrong steps 'letters for a number' 'timeout five' 1:9 "'five': $number"
wrong steps 'station 1,000,000' 'exit 1000000' 1:6 "'1000000': $number"
wrong steps 'no message' 'deliver 5' 1:10 "the line ends early: $message"
wrong steps 'introduction 0' 'deliver 5 i0' 1:11 "'i0': $message"
wrong steps 'another message' 'deliver 5 7' 1:11 "'7': $message"
wrong steps 'a timeout with a message' 'timeout 5 l' 1:11 "'l': the step is already whole"
wrong steps 'a site code' 'deliver 5 l @7' 1:13 "'@7': the step is already whole"
wrong steps 'two messages' 'deliver 5 l r' 1:13 "'r': the step is already whole"
wrong steps '8: 4,097 steps' "$(printf 'timeout %d\\n' {1..4097})" 4097:1 "8: ${words[8]}"

# The largest that are taken.
printf '%d - - stay\n' {1..64} > 64.txt
try '64 stations' 0 '' '' assemble table 64.txt -o 64.bin
holds '64 blocks' [ "$(stat -c %s 64.bin)" -eq 32768 ]
printf 'timeout %d\n' {1..4096} > 4096.txt
try '4,096 steps' 0 '' '' assemble steps 4096.txt -o 4096.bin
holds '49,152 bytes' [ "$(stat -c %s 4096.bin)" -eq 49152 ]
try '4,096 steps back' 0 "$(cat 4096.txt)"$'\n' '' dump steps 4096.bin
printf '999999 - - stay%s\n' "$(printf ' i999999%.0s' {1..32})" > full.txt
try 'a full bag of the largest number' 0 '' '' assemble table full.txt -o full.bin
try 'a full bag and back' 0 "$(cat full.txt)"$'\n' '' dump table full.bin
printf '# a table\n\n \t \n  # by hand\n\t3   -\t5 stay  \r\n5 3 -  leave l\ti3' > loose.txt
try 'comments, blanks, CR and no last LF' 0 '' '' assemble table loose.txt -o loose.bin
try 'in the plain form' 0 $'3 - 5 stay\n5 3 - leave l i3\n' '' dump table loose.bin
printf 'timeout 5\ndeliver 5 i7\ndeliver 5 l\ndeliver 999999 r\nexit 1\n' > all.txt
try 'every kind of step' 0 '' '' assemble steps all.txt -o all.bin
bytes all.want 01 00 00 00 05 00 00 00 00 00 00 00  02 00 01 00 05 00 00 00 07 00 00 00  02 00 02 00 05 00 00 00 00 00 00 00 \
    02 00 03 00 3f 42 0f 00 00 00 00 00  03 00 00 00 01 00 00 00 00 00 00 00
holds 'byte for byte' cmp all.bin all.want
try 'every kind of step and back' 0 "$(cat all.txt)"$'\n' '' dump steps all.bin

# Through pipes.
printf '5 - - leave\n' > one.txt
table one.bin '5 - - leave'
"$program" assemble table - < one.txt > one.piped
holds 'assemble from a pipe to a pipe' cmp one.bin one.piped
"$program" assemble table one.txt -o - > one.piped
holds 'assemble -o -' cmp one.bin one.piped
input=wrong.txt try 'an error in a pipe' 1 '' "standard input:4097:1: 8: ${words[8]}"$'\n' assemble steps -

# dump steps: a malformed step is named by its place; the steps before it are printed.
group 'malformed steps: dump and run name them'
cat steps.bin > bad.bin
for step in '04 00 00 00 05 00 00 00 00 00 00 00:action 4, kind 0, station 5, number 0' \
    '00 00 00 00 05 00 00 00 00 00 00 00:action 0, kind 0, station 5, number 0' \
    '01 00 00 00 00 00 00 00 00 00 00 00:action 1, kind 0, station 0, number 0' \
    '01 00 00 00 40 42 0f 00 00 00 00 00:action 1, kind 0, station 1000000, number 0' \
    '03 00 00 00 05 00 00 00 07 00 00 00:action 3, kind 0, station 5, number 7' \
    '01 00 01 00 05 00 00 00 00 00 00 00:action 1, kind 1, station 5, number 0' \
    '02 00 00 00 05 00 00 00 00 00 00 00:action 2, kind 0, station 5, number 0' \
    '02 00 01 00 05 00 00 00 00 00 00 00:action 2, kind 1, station 5, number 0' \
    '02 00 02 00 05 00 00 00 05 00 00 00:action 2, kind 2, station 5, number 5' \
    'ff ff ff ff ff ff ff ff ff ff ff ff:action 65535, kind 65535, station 4294967295, number 4294967295'; do
    bytes step.bin ${step%%:*}
    cat steps.bin step.bin steps.bin > bad.bin
    say 10 bad.bin "step 2: ${step#*:}"
    try "dump steps: ${step#*:}" 1 $'deliver 5 i7\n' "$said" dump steps bad.bin
    try "run: ${step#*:}" 1 "answer 10${listing#answer 0}" "$said" run table.bin bad.bin
done
end
