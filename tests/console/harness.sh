# The test tests itself: what it must refuse, it refuses.

# refuses COMMAND..: it must fail, or leave a failed case behind
refuses() {
    (
        results=$got.refused group=
        : > "$results"
        "$@" > /dev/null 2>&1 && ! grep -q '^failed' "$results"
    ) && return 1
    return 0
}
# fake LINE..: the program is a script of these lines
fake() {
    printf '%s\n' '#!/bin/sh' "$@" > fake
    chmod +x fake
    program=./fake
}
real=$program
fake 'echo 0'
holds 'test: what is met' says 0 $'0\n' '' check
holds 'test: another output' refuses says 0 $'1\n' '' check
holds 'test: another status' refuses says 1 $'0\n' '' check
fake 'echo 0' 'kill -s SEGV $$'
holds 'test: a program that dies after its last line' refuses says 0 $'0\n' '' check
fake 'echo 0' 'printf "\0more"'
holds 'test: more behind a byte 0' refuses says 0 $'0\n' '' check
. "$root/tests/console/stored_cases.sh"
fake 'echo "station-line: $2: 11: station not present" >&2' 'exit 1'
holds 'test: a question with its number' stored_question 1 leave 6 11 0 0
holds 'test: a question with another number' refuses stored_question 1 leave 6 12 0 0
fake 'echo held-by 3' 'exit 1'
holds 'test: a question with its holder' stored_question 1 leave 5 0 3 3
holds 'test: a question with another holder' refuses stored_question 1 leave 5 0 3 9
holds 'test: a question with another reason' refuses stored_question 1 leave 5 0 2 0
holds 'test: a question without a reason' refuses stored_question 1 leave 5 0 0 0
printf '1 leave 5 0 3 3\n1 leave 6 11 0 0\n' > called.txt
fake "printf '5 held-by 3\\n6 absent\\n'"
holds 'test: a roll call with its records' stored_roll_call called.txt 1
fake "printf '6 absent\\n5 held-by 3\\n'"
holds 'test: a roll call in another order' refuses stored_roll_call called.txt 1
fake "printf '5 held-by 3\\n'" 'exit 1'
holds 'test: a roll call that ends at an absent station' refuses stored_roll_call called.txt 1
program=$real
holds 'test: no question at all' refuses each_question /dev/null
holds 'test: no roll call at all' refuses each_roll_call /dev/null

# adds LINE..: what tally.sh makes of a pass with these results
adds() {
    (
        work=$PWD
        : > one.log
        printf '%s\n' "$@" > one.results
        . "$root/tests/console/tally.sh"
        tally one
        verdict
    ) > added.txt && [ "$(tail -n 1 added.txt)" = "$added" ]
}
added='2 passed, 0 failed'
holds 'test: cases are added up' adds 'passed a' 'passed b' end
holds 'test: a case that failed' refuses adds 'passed a' 'failed b' end
holds 'test: a pass that stopped early' refuses adds 'passed a' 'passed b'
holds 'test: two cases of one name' refuses adds 'passed a' 'passed a' end
holds 'test: no case' refuses adds end
