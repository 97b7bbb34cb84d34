# Bad input at every door.
cp table.bin ./-o
try 'a file whose name begins with a hyphen' 0 $'0\n' '' check -- -o

# 16: files that can't be read or are too long, at each door.
mkdir -p folder
cat 64.bin one.bin > long.bin
head -c 32769 long.bin > long1.bin
cat 4096.bin steps.bin > 4097.bin
head -c 49153 4097.bin > long1.steps
# door16 STATUS-OUT COMMAND..: with each bad file in the place of FILE
door16() {
    local out16=$1 pair file why
    shift
    group "16: $*"
    for pair in "missing:can't be read: No such file or directory" "folder:can't be read: Is a directory" \
        "table.bin/x:can't be read: Not a directory" ":can't be read: No such file or directory" "${toolong[@]}"; do
        file=${pair%%:*} why=${pair#*:}
        say 16 "$file" "$why"
        try "'$file'" 2 "$out16" "$said" "${@/#FILE/$file}"
    done
    end
}
toolong=('long.bin:over 32,768 bytes' 'long1.bin:over 32,768 bytes' '/dev/zero:over 32,768 bytes')
door16 $'16\n' check FILE
door16 $'answer 16 done 0 stations 0\n' run FILE steps.bin
door16 $'answer 16 done 0 stations 0\n' run FILE bad.bin -o never.bin
door16 '' allowed FILE
door16 '' allowed FILE -o never.bin
door16 '' leave FILE 5
door16 '' roll-call FILE
door16 '' roll-call FILE 5 6
door16 '' line FILE
door16 '' view FILE
door16 '' draw FILE
door16 '' dump table FILE
toolong=('4097.bin:over 49,152 bytes' 'long1.steps:over 49,152 bytes' '/dev/zero:over 49,152 bytes')
door16 $'answer 16 done 0 stations 0\n' run table.bin FILE
door16 $'answer 16 done 0 stations 0\n' run wrong.bin FILE -o never.bin
door16 '' dump steps FILE
toolong=('/dev/zero:over 1,048,576 bytes')
door16 '' assemble table FILE -o never.bin
door16 '' assemble steps FILE
say 16 'standard input' 'over 32,768 bytes'
input=long.bin try 'a table too long from a pipe' 2 $'16\n' "$said" check -
holds '16 writes no table' [ ! -e never.bin ]
try 'the longest table' 0 $'0\n' '' check 64.bin

# 1 to 7 at each door.
head -c 2047 table.bin > 1.bin
cp table.bin 3.bin
printf '\1' | dd of=3.bin bs=1 seek=300 conv=notrunc status=none
cp table.bin 4.bin
patch 4.bin 18 10 27
cp table.bin 5.bin
patch 5.bin 8 05 00 00 00
cat table.bin one.bin > 6.bin
head -c 512 table.bin > 7.bin
for k in 1 3 4 5 6 7; do
    group "$k at each door"
    say "$k" "$k.bin"
    holds check eval 'ends 1 check $k.bin && [ "$out" = $k$'"'\n'"' ] && [[ $err == "${said%$'"'\n'"'} ("* ]]'
    try run 1 "answer $k done 0 stations 0"$'\n' "$said" run $k.bin steps.bin -o never.bin
    try allowed 1 '' "$said" allowed $k.bin -o never.bin
    try leave 1 '' "$said" leave $k.bin 5
    try 'roll-call of all' 1 '' "$said" roll-call $k.bin
    try 'roll-call of two' 1 '' "$said" roll-call $k.bin 5 6
    try 'roll-call, before 17' 1 '' "$said" roll-call $k.bin {1..65}
    try line 1 '' "$said" line $k.bin
    try view 1 '' "$said" view $k.bin
    try draw 1 '' "$said" draw $k.bin
    try dump 1 '' "$said" dump table $k.bin
    end
done
group '1: a table cut short'
for n in 1 511 513 1025; do
    head -c $n table.bin > cut.bin
    say 1 cut.bin "$n bytes, $((n % 512)) more than whole blocks"
    try "$n bytes" 1 $'1\n' "$said" check cut.bin
done
end
group '8: a list cut short'
say 8 cut.steps
for n in 1 11 13 49151; do
    head -c $n 4096.bin > cut.steps
    try "run: $n bytes" 1 $'answer 8 done 0 stations 0\n' "$said" run table.bin cut.steps -o never.bin
    try "dump: $n bytes" 1 '' "$said" dump steps cut.steps
done
end
say 7 7.bin
try '7 before 8' 1 $'answer 7 done 0 stations 0\n' "$said" run 7.bin cut.steps
holds '1 to 8 write no table' [ ! -e never.bin ]

# 10 to 15 in words, with the step.
group '11 to 13 name the step'
for stop in '11:timeout 6' '12:deliver 5 i9' '12:deliver 5 l' '12:deliver 3 r' '13:exit 7'; do
    steps refused.bin 'timeout 7' "${stop#*:}" 'timeout 5'
    say "${stop%%:*}" refused.bin "step 2: ${stop#*:}"
    try "${stop%%:*}: ${stop#*:}" 1 "answer ${stop%%:*} done 1 stations 4"$'\n'"$example" "$said" run table.bin refused.bin
done
end

# Standard output that takes nothing.
# stuck WORD..: the program with a full standard output must end with 2 and say so, once
stuck() {
    "$program" "$@" > /dev/full 2> "$got.err" < /dev/null
    [ $? -eq 2 ] && [ "$(grep -c '^station-line: standard output: .*No space left on device$' "$got.err")" -eq 1 ]
}
group 'a full standard output'
for sentence in --help --version 'help run' 'check table.bin' 'check 3.bin' 'run table.bin steps.bin' 'allowed table.bin' 'leave table.bin 5' \
    'roll-call table.bin' 'roll-call 64.bin 5' \
    'line table.bin' 'view table.bin' 'draw table.bin' 'dump table table.bin' 'dump steps steps.bin' 'assemble table stations.txt' \
    'assemble steps steps.txt' 'dump steps 4096.bin' 'run 64.bin steps.bin'; do
    holds "$sentence" stuck $sentence
done
end
