# The two questions, the view and the check.
table asked.bin '3 - 5 stay' '5 3 9 stay i7' '7 - - stay' '9 5 - stay'
group 'no station of the example may leave'
try 'station 5: its bag, though 3 and 9 hold it' 1 $'bag\n' '' leave asked.bin 5
for station in 3 7 9; do
    try "station $station" 1 $'held-by 5\n' '' leave asked.bin "$station"
done
end
group 'who holds a station: the smallest, whatever the order of the blocks'
table held.bin '999999 40 - stay' '50 40 - stay' '40 - - stay' '30 - 40 leave' '20 - - stay i40' '9 - - stay l r'
try 'of four' 1 $'held-by 20\n' '' leave held.bin 40
table held.bin '999999 40 - stay' '40 - - stay' '9 - - stay l r'
try 'of one, the largest' 1 $'held-by 999999\n' '' leave held.bin 40
table held.bin '40 - - leave' '1 - - leave l r i1 i40'
try 'of one, the smallest, which is leaving too' 1 $'held-by 1\n' '' leave held.bin 40
table held.bin '40 - - leave i40'
try 'its own introduction is in its bag' 1 $'bag\n' '' leave held.bin 40
table held.bin '40 9 - leave' '9 - - stay l r'
try 'nobody: a remove names nobody' 0 $'yes\n' '' leave held.bin 40
end
group '11: any number without a block is absent'
for station in 0 6 999999 1000000 4294967295 4294967296 4294967301 99999999999999999999999999; do
    say 11 asked.bin "station $station"
    try "station $station" 1 '' "$said" leave asked.bin "$station"
done
end
try 'not in line' 1 $'no\n' '' line asked.bin
table straight.bin '9 5 - stay' '3 - 5 stay i5 i9 i9' '5 3 9 stay i5'
try 'in line, in another order, introductions waiting' 0 $'yes\n' '' line straight.bin
try 'the view of it' 0 $'block 1 at 0: 9 5 - stay\nblock 2 at 512: 3 - 5 stay i5 i9 i9\nblock 3 at 1024: 5 3 9 stay i5\nend\n' '' view straight.bin
group 'it lasts: every introduction is delivered, and it is still in line'
steps delivered.bin 'deliver 3 i9' 'deliver 3 i9' 'deliver 3 i5' 'deliver 5 i5' 'deliver 5 i9' 'deliver 5 i9'
try 'the run' 0 $'answer 0 done 6 stations 3\n3 - 5 stay\n5 3 9 stay\n9 5 - stay\n' '' run straight.bin delivered.bin -o after.bin
try 'the question' 0 $'yes\n' '' line after.bin
end
group 'not in line for one cause alone'
table bent.bin '9 5 - stay' '3 - 9 stay i5 i9 i9' '5 3 9 stay i5'
try 'a right that passes 5 over' 1 $'no\n' '' line bent.bin
table bent.bin '9 5 - stay' '3 - 5 stay i5 i9 i9' '5 3 9 stay i5 l'
try 'a remove-left behind an introduction' 1 $'no\n' '' line bent.bin
table bent.bin '9 5 - stay r' '3 - 5 stay i5 i9 i9' '5 3 9 stay i5'
try 'a remove-right with no right to remove' 1 $'no\n' '' line bent.bin
table bent.bin '9 5 - stay' '3 - 5 leave i5 i9 i9' '5 3 9 stay i5'
try 'a leaving station' 1 $'no\n' '' line bent.bin
end
table free.bin '7 - 9 stay' '9 - - leave i9'
try 'yes, without a leaving mark' 0 $'yes\n' '' leave free.bin 7
try 'a number with a zero before it' 0 $'yes\n' '' leave free.bin 07
try 'its bag, with one' 1 $'bag\n' '' leave free.bin 9

: > empty
try 'check: the empty table' 0 $'0\n' '' check empty
try 'line: the empty table' 0 $'yes\n' '' line empty
try 'allowed: the empty table' 0 '' '' allowed empty
try 'roll-call: the empty table' 0 '' '' roll-call empty
try 'view: the empty table' 0 $'end\n' '' view empty
try 'dump: the empty table' 0 '' '' dump table empty
try 'dump: the empty list' 0 '' '' dump steps empty
say 11 empty 'station 5'
try 'leave: the empty table' 1 '' "$said" leave empty 5
try 'assemble: the empty table' 0 '' '' assemble table empty
try 'assemble: the empty list' 0 '' '' assemble steps empty
