# Adds up the cases of several passes: one that failed in any of them has failed.
declare -A verdicts

# wrong NAME: a case that failed beside those of the passes
wrong() {
    echo "failed: $1"
    verdicts[$1]=failed
}

# tally PASS: its log shown and its cases taken; a name may stand for one case of a pass only
tally() {
    local word name last= ended=0
    local -A seen=()
    cat "$work/$1.log"
    while read -r word name; do
        if [ "$word" = end ]; then
            ended=1
            continue
        fi
        [ -z "${seen[$name]-}" ] || wrong "two cases of one name: $name"
        seen[$name]=1 last=$name
        [ "${verdicts[$name]-passed}" = failed ] || verdicts[$name]=$word
    done < "$work/$1.results"
    [ "$ended" -eq 1 ] || wrong "the pass $1 stopped early, after: ${last:-nothing}"
}

# same_cases PASS PASS: both have run the same cases
same_cases() {
    cmp -s <(cut -d ' ' -f 2- "$work/$1.results") <(cut -d ' ' -f 2- "$work/$2.results") || wrong "the passes $1 and $2 differ in their cases"
}

# verdict: the last line; fails where a case has failed or there was none
verdict() {
    local name passed=0 failed=0
    for name in "${!verdicts[@]}"; do
        if [ "${verdicts[$name]}" = passed ]; then passed=$((passed + 1)); else failed=$((failed + 1)); fi
    done
    echo "$passed passed, $failed failed"
    [ "$failed" -eq 0 ] && [ "$passed" -gt 0 ]
}
