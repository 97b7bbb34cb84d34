# A damaged table: which block, station and field stand behind the number, and what can be read of it.
# damage NAME FILE NUMBER PLACE [MORE]: the check names the place
damage() {
    say "$3" "$2" "$4${5:+; $5 more, see --all}"
    try "$1" 1 "$3"$'\n' "$said" check "$2"
}
# of_table OFFSET HEX..: the example's table with these bytes, its check words right
of_table() {
    cp table.bin hurt.bin
    patch hurt.bin "$@"
}
group 'check: the field behind 4'
for field in '512 02 00:layout number at 512 is 2, should be 1' '514 02 00:flags at 514 is 2, should be 0 or 1' \
    '516 00 00 00 00:station number at 516 is 0, should be 1 to 999,999' '520 40 42 0f 00:left at 520 is 1000000, should be 0 to 999,999' \
    '524 ff ff ff ff:right at 524 is 4294967295, should be 0 to 999,999' '530 10 27:site code at 530 is 10000, should be 0 to 9,999' \
    '532 04 00:message 1 at 532 has kind 4, should be 1 to 3' '534 01 00:message 1 at 534 has 1 between kind and number, should be 0' \
    '536 00 00 00 00:message 1 at 536 introduces 0, should be 1 to 999,999' \
    '532 02 00:message 1 at 536 has number 7, should be 0' '541 09:a place behind the messages at 541 is 9, should be 0; 1 such byte up to 787' \
    '1000 01 02:a byte behind the places at 1000 is 1, should be 0; 2 such bytes up to 1021' \
    '528 00 00:a place behind the messages at 532 is 1, should be 0; 2 such bytes up to 787'; do
    of_table ${field%%:*}
    station=5
    [[ $field != 516* ]] || station=0
    damage "${field#*:}" hurt.bin 4 "block 2 at 512, station $station: ${field#*:}"
done
of_table 528 21 00
damage '33 messages' hurt.bin 4 'block 2 at 512, station 5: count of messages at 528 is 33, should be 0 to 32' 31
end
group 'check: the place behind 1, 3, 5, 6 and 7'
head -c 1030 table.bin > hurt.bin
damage 'a table cut short' hurt.bin 1 '1030 bytes, 6 more than whole blocks'
cp table.bin hurt.bin
printf '\1' | dd of=hurt.bin bs=1 seek=300 conv=notrunc status=none
damage 'a check word' hurt.bin 3 'block 1 at 0, station 3: check word at 510 is 65526, should be 65525'
of_table 520 05 00 00 00
damage 'a left' hurt.bin 5 'block 2 at 512, station 5: left at 520 is 5, should be below 5'
of_table 524 03 00 00 00
damage 'a right' hurt.bin 5 'block 2 at 512, station 5: right at 524 is 3, should be above 5'
of_table 1540 05 00 00 00
patch hurt.bin 1544 03 00 00 00
damage 'a station twice' hurt.bin 6 'block 4 at 1536, station 5: station number at 1540 is 5, as in block 2'
of_table 520 02 00 00 00
patch hurt.bin 524 08 00 00 00
patch hurt.bin 536 06 00 00 00
damage 'names without a block' hurt.bin 7 'block 2 at 512, station 5: left at 520 is 2, which has no block' 2
end
group 'check --all names every place, the smallest number first'
patch hurt.bin 2 09 00
say 4 hurt.bin 'block 1 at 0, station 3: flags at 2 is 9, should be 0 or 1'
all=$said
for place in 'left at 520 is 2' 'right at 524 is 8' 'message 1 at 532 introduces 6'; do
    say 7 hurt.bin "block 2 at 512, station 5: $place, which has no block"
    all+=$said
done
try 'of a damaged one' 1 $'4\n' "$all" check --all hurt.bin
try 'of an accepted one' 0 $'0\n' '' check --all table.bin
end
group 'dump table --damaged'
printf '\11' | dd of=hurt.bin bs=1 seek=532 conv=notrunc status=none
{ cat hurt.bin; printf 'tail'; } > hurt2.bin
say 1 hurt2.bin
try 'any bytes, with offsets' 1 '# block 1 at 0
# 4: flags at 2 is 9, should be 0 or 1
3 - 5 leave
# block 2 at 512
# 3: check word at 1022 is 65511, should be 65503
# 4: message 1 at 532 has kind 9, should be 1 to 3
# 7: left at 520 is 2, which has no block
# 7: right at 524 is 8, which has no block
5 2 8 stay ?9:6
# block 3 at 1024
7 - - stay
# block 4 at 1536
9 5 - stay
# 4 bytes at 2048 that are no block
# 2048: 74 61 69 6c
' "$said" dump table --damaged hurt2.bin
of_table 1000 01 02
say 4 hurt.bin
try 'bytes of no field, in hex' 1 '# block 1 at 0
3 - 5 stay
# block 2 at 512
# 4: a byte behind the places at 1000 is 1, should be 0; 2 such bytes up to 1021
# 988: 00 00 00 00 00 00 00 00 00 00 00 00 01 02 00 00
5 3 9 stay i7
# block 3 at 1024
7 - - stay
# block 4 at 1536
9 5 - stay
' "$said" dump table --damaged hurt.bin
say 2 long.bin
ends 1 dump table --damaged long.bin
holds 'a file too long for a table' [ "$err" = "$said" ]
holds 'all of its blocks' [ "$(grep -c '^# block ' <<< "$out")" -eq 65 ]
try 'nothing' 0 '' '' dump table --damaged empty
misuse --damaged "goes with 'table'" dump
try 'of a step list' 2 '' "$said" dump steps --damaged steps.bin
end
holds 'tables damaged at random' "$python" "$root/tests/console/damaged.py" "$program" 80 table.bin 64.bin leaving.bin mixed.bin straight.bin
. "$root/tests/console/stored_cases.sh"
# stored_damage CASE: the place of a stored table's number is found, and its bytes are read
stored_damage() {
    local number
    IFS= read -r number < "$1.number"
    [ "$number" -ne 16 ] || return 0
    ends $((number > 0)) check --all "$1.table" && [ "$out" = "$number"$'\n' ] && [[ $number -eq 0 || $err == "station-line: $1.table: $number: "* ]] || return
    ends $((number > 0)) dump table --damaged "$1.table"
}
group 'stored tables: the places behind the number'
each stored_damage "$stored"/check.*.table
end
