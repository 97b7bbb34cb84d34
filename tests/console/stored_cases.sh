# One stored case each: a run of tests/situations.py, a table of tests/tables.py, a question, a roll call of questions.
stored=$work/stored

# stored_run CASE: status, listing, words and table are those of document 01, and dump and assemble give back table and list
stored_run() {
    local k=$1 answer wanted listing
    rm -f after.bin
    IFS= read -r -d '' listing < "$k.listing"
    answer=${listing#answer } answer=${answer%% *}
    wanted=$((answer == 0 ? 0 : answer == 16 ? 2 : 1))
    ends "$wanted" run "$k.table" "$k.steps" -o after.bin && [ "$out" = "$listing" ] || return
    case $answer in
    0) [ -z "$err" ] ;;
    16) [[ $err == "station-line: $k."*": 16: over "* ]] ;;
    [1-7]) [[ $err == "station-line: $k.table: $answer: ${words[$answer]}"* ]] ;;
    *) [[ $err == "station-line: $k.steps: $answer: ${words[$answer]}"* ]] ;;
    esac || return
    if [ "$answer" -gt 0 ] && [ "$answer" -lt 10 ] || [ "$answer" -eq 16 ]; then
        [ ! -e after.bin ]
        return
    fi
    says 0 "${listing#*$'\n'}" '' dump table after.bin && circle table "$k.table" || return
    [ "$answer" -ne 0 ] || circle steps "$k.steps"
}
# circle WHAT FILE: what dump prints, assemble turns back into the same bytes
circle() {
    "$program" dump "$1" "$2" > dumped.txt && "$program" assemble "$1" dumped.txt -o again.bin && same again.bin "$2"
}
# stored_question CASE leave STATION NUMBER REASON HOLDER, stored_question CASE line NUMBER YES: the answer, or its number
stored_question() {
    local asked=("$2" "$stored/run.$1.table") number=$3 answer="$2 $4"
    if [ "$2" = leave ]; then
        asked+=("$3") number=$4 answer="leave $5"
    fi
    case $number:$answer in
    '0:leave 1' | '0:line 1') says 0 $'yes\n' '' "${asked[@]}" ;;
    '0:leave 2') says 1 $'bag\n' '' "${asked[@]}" ;;
    '0:leave 3') says 1 "held-by $6"$'\n' '' "${asked[@]}" ;;
    '0:line 0') says 1 $'no\n' '' "${asked[@]}" ;;
    0:*) return 1 ;;
    *) ends 1 "${asked[@]}" && [ -z "$out" ] && [[ $err == "station-line: ${asked[1]}: $number: ${words[$number]}"* ]] ;;
    esac
}
# stored_roll_call FILE CASE: the leave questions of the file about that table in one call, at most 64 of them, have the answers that they have alone
stored_roll_call() {
    local station answer reason holder stations=() lines= number= file=$stored/run.$2.table
    while read -r _ _ station answer reason holder; do
        stations+=("$station")
        case $answer:$reason in
        0:1) lines+="$station yes"$'\n' ;;
        0:2) lines+="$station bag"$'\n' ;;
        0:3) lines+="$station held-by $holder"$'\n' ;;
        11:0) lines+="$station absent"$'\n' ;;
        *) number=$answer ;;
        esac
    done < <(grep "^$2 leave " "$1" | head -n 64)
    [ "${#stations[@]}" -gt 0 ] || return
    if [ -n "$number" ]; then
        says 1 '' "station-line: $file: $number: ${words[$number]}"$'\n' roll-call "$file" "${stations[@]}"
    else
        says 0 "$lines" '' roll-call "$file" "${stations[@]}"
    fi
}
# stored_check CASE: the number, with the status that goes with it
stored_check() {
    local number
    IFS= read -r number < "$1.number"
    ends $((number == 0 ? 0 : number == 16 ? 2 : 1)) check "$1.table" && [ "$out" = "$number"$'\n' ]
}

# each FUNCTION FILE..: holds of every stored case of these tables
each() {
    local file
    for file in "${@:2}"; do
        holds "${file##*/}" "$1" "${file%.table}"
    done
}
# each_question FILE: of every line, or every $stride-th; a file without a question is no test
each_question() {
    local question asked=0
    while read -r question; do
        asked=$((asked + 1))
        [ $((asked % ${stride-1})) -ne 0 ] || holds "$question" stored_question $question
    done < "$1"
    holds 'a question was asked' [ "$asked" -gt 0 ]
}
# each_roll_call FILE: of every table that the file asks about, or every $stride-th
each_roll_call() {
    local case called=0
    for case in $(cut -d ' ' -f 1 "$1" | sort -un); do
        called=$((called + 1))
        [ $((called % ${stride-1})) -ne 0 ] || holds "case $case" stored_roll_call "$1" "$case"
    done
    holds 'a roll was called' [ "$called" -gt 0 ]
}
