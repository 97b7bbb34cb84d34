# Helpers for the parts of the console's test; $program is the program under test, and the current folder is empty at the start.
#
# A case is what `try` or `holds` expects, or all that is expected between `group NAME` and `end`; it has a name and counts once.
group=
group_failed=0
as=()

# group NAME, end: what is expected between the two is one case
group() {
    group=$1
    group_failed=0
}
end() {
    if [ "$group_failed" -eq 0 ]; then record passed "$group"; else record failed "$group"; fi
    group=
}
record() {
    printf '%s %s\n' "$1" "$2" >> "$results"
}

# met NAME, unmet NAME: an expectation that was met or not
met() {
    [ -n "$group" ] || record passed "$1"
}
unmet() {
    echo "failed (${program##*/}): ${group:+$group: }$1"
    if [ -n "$group" ]; then group_failed=1; else record failed "$1"; fi
}

# holds NAME COMMAND..: the command must succeed
holds() {
    if "${@:2}"; then met "$1"; else unmet "$1"; fi
}

# ends WANTED WORD..: runs the program with these words, by way of the command $as; its status must be WANTED, what it prints stands in $out and $err. Its standard
# input is the file $input, or empty. A byte 0 in what it prints is no text and fails.
ends() {
    local status text=0
    "${as[@]}" "$program" "${@:2}" > "$got.out" 2> "$got.err" < "${input:-/dev/null}"
    status=$?
    IFS= read -r -d '' out < "$got.out" && text=1
    IFS= read -r -d '' err < "$got.err" && text=1
    if [ "$status" -ne "$1" ]; then
        echo "status $status, wanted $1"
        return 1
    fi
    return $text
}

# says WANTED OUT ERR WORD..: the same, and it must print exactly OUT and ERR
says() {
    ends "$1" "${@:4}" && [ "$out" = "$2" ] && [ "$err" = "$3" ] && return
    diff <(printf '%s' "$2") "$got.out" | cat -v
    diff <(printf '%s' "$3") "$got.err" | cat -v
    return 1
}

# try NAME STATUS OUT ERR WORD..: the program with these words must end so and print that
try() {
    holds "$1" says "${@:2}"
}

# same FILE FILE: both have the same bytes
same() {
    cmp "$1" "$2"
}

# table FILE LINE.., steps FILE LINE..: a table or step list assembled from lines, as part of a test
table() {
    printf '%s\n' "${@:2}" | "$program" assemble table - -o "$1" || unmet "assemble table $1"
}
steps() {
    printf '%s\n' "${@:2}" | "$program" assemble steps - -o "$1" || unmet "assemble steps $1"
}

# part_words WORD..: the words before `--` in $before, those behind it in $after
part_words() {
    before=()
    while [ "$1" != -- ]; do
        before+=("$1")
        shift
    done
    after=("${@:2}")
}

# bytes FILE HEX..: a file of these bytes
bytes() {
    local file=$1 hex
    : > "$file"
    for hex in "${@:2}"; do
        printf "\\x$hex" >> "$file"
    done
}

# patch FILE OFFSET HEX..: bytes of a file written over, the check word of the block of OFFSET made right again
patch() {
    "$python" - "$@" <<'END'
import sys
name, at, new = sys.argv[1], int(sys.argv[2]), bytes.fromhex("".join(sys.argv[3:]))
data = bytearray(open(name, "rb").read())
data[at:at + len(new)] = new
start = at // 512 * 512
body = data[start:start + 510]
total = sum(body[i] + 256 * body[i + 1] for i in range(0, 510, 2))
data[start + 510:start + 512] = ((65535 - total) % 65536).to_bytes(2, "little")
open(name, "wb").write(data)
END
}

# Document 01's words for its numbers.
words=(
    [1]='table length not a multiple of 512'
    [2]='more than 64 blocks'
    [3]='a check fails'
    [4]='a field outside the layout'
    [5]='a left, where there is one, not below its own station, or a right, where there is one, not above it'
    [6]='two blocks with one station number'
    [7]='a neighbour or introduction names a station without a block'
    [8]='step list not a multiple of 12 bytes, or over 4,096 steps'
    [10]='malformed step'
    [11]='station not present'
    [12]='message not in that bag'
    [13]='exit by a staying station'
    [14]='exit, leaving, NIDEC false'
    [15]='a bag that must receive holds 32'
    [17]='more than 64 stations asked'
)

# say NUMBER FILE [DETAIL]: the line that says it, in $said; of 16 the detail is the reason
say() {
    if [ "$1" -eq 16 ]; then
        said="station-line: $2: 16: $3"$'\n'
    else
        said="station-line: $2: $1: ${words[$1]}${3:+ ($3)}"$'\n'
    fi
}
# misuse WORD WHAT [COMMAND]: the line that says what is wrong with the use, in $said
misuse() {
    said="station-line: $1: $2; see 'station-line ${3:+$3 }--help'"$'\n'
}
