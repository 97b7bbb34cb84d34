# roll-call: may they leave? A line for each station asked about, or for each of the table.

# lines LINE..: these, in $lines
lines() {
    lines=$(printf '%s\n' "$@")$'\n'
}
# alone TABLE: each line that was printed last is what `leave` says of that station alone
alone() {
    local station said printed=$out
    while read -r station said; do
        if [ "$said" = absent ]; then
            ends 1 leave "$1" "$station" && [ -z "$out" ] && [[ $err == *': 11: '* ]] || return
        else
            ends $([ "$said" = yes ]; echo $?) leave "$1" "$station" && [ "$out" = "$said"$'\n' ] || return
        fi
    done <<< "${printed%$'\n'}"
}
# calls NAME TABLE STATION.. -- LINE..: the answers, alone too
calls() {
    local before after lines
    part_words "${@:3}"
    lines "${after[@]}"
    group "roll-call: $1"
    try 'the lines' 0 "$lines" '' roll-call "$2" "${before[@]}"
    holds 'each alone' alone "$2"
    end
}
calls 'every station of the example' table.bin -- '3 held-by 5' '5 bag' '7 held-by 5' '9 held-by 5'
calls 'by rising number, whatever the stored order' backwards.bin -- '3 held-by 5' '5 bag' '7 held-by 5' '9 held-by 5'
calls 'in the order given, repeats and absent ones among them' table.bin 9 6 5 5 0 3 999999 9 -- '9 held-by 5' '6 absent' '5 bag' '5 bag' '0 absent' \
    '3 held-by 5' '999999 absent' '9 held-by 5'
calls 'numbers that no station has, as they are given' table.bin 1000000 4294967295 4294967296 4294967301 99999999999999999999999999 \
    -- '1000000 absent' '4294967295 absent' '4294967296 absent' '4294967301 absent' '99999999999999999999999999 absent'
calls 'a number with a zero before it' table.bin 07 -- '07 held-by 5'
calls 'one of the empty table' empty 5 -- '5 absent'
table evening.bin '40 - - leave' '999999 40 - stay' '50 - - leave i50' '60 50 - leave' '30 - 40 stay' '20 - - stay i40 i40 l' '9 - - stay l r' \
    '8 - - leave'
calls 'the smallest holder, the own bag, and nobody' evening.bin -- '8 yes' '9 bag' '20 bag' '30 yes' '40 held-by 20' '50 bag' '60 yes' '999999 yes'
calls 'stations that others name' evening.bin 40 50 40 -- '40 held-by 20' '50 bag' '40 held-by 20'

# The papers' departure: who may go, before and after.
table departure.bin '3 - 5 stay' '5 3 9 leave' '9 5 - stay'
steps departing.bin 'timeout 5' 'deliver 3 r' 'deliver 9 l' 'deliver 5 i3' 'deliver 5 i9'
"$program" run departure.bin departing.bin -o departed.bin > /dev/null
calls 'before a departure' departure.bin -- '3 held-by 5' '5 held-by 3' '9 held-by 5'
calls 'when it may be' departed.bin -- '3 held-by 5' '5 yes' '9 held-by 5'

# 64 stations, and more.
group 'roll-call: 64 stations'
try 'all of the table' 0 "$("$program" roll-call 64.bin {1..64})"$'\n' '' roll-call 64.bin
holds '64 lines, rising' same <(cut -d ' ' -f 1 <<< "${out%$'\n'}") <("$program" dump table 64.bin | cut -d ' ' -f 1 | sort -n)
try 'one of them, 64 times' 0 "$(printf '5 bag\n%.0s' {1..64})"$'\n' '' roll-call table.bin $(printf '5 %.0s' {1..64})
end
group 'roll-call: more than 64 stations'
say 17 table.bin
try '65' 1 '' "$said" roll-call table.bin {1..65}
try '65 of one number' 1 '' "$said" roll-call table.bin $(printf '5 %.0s' {1..65})
try '5,000' 1 '' "$said" roll-call table.bin {1..5000}
say 17 empty
try '65 of the empty table' 1 '' "$said" roll-call empty {1..65}
end

# Where words and options stand.
group 'roll-call: words behind --'
try '-- before the table' 0 $'7 held-by 5\n3 held-by 5\n' '' roll-call -- table.bin 7 3
try '-- among the stations' 0 $'7 held-by 5\n3 held-by 5\n' '' roll-call table.bin 7 -- 3
try 'nothing behind it' 0 $'3 held-by 5\n5 bag\n7 held-by 5\n9 held-by 5\n' '' roll-call table.bin --
end
