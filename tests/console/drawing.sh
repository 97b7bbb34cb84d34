# draw: solid arrows for neighbours, dashed for introductions under way with their copies, what waits in a bag and how full it is, leaving
# stations grey, full bags red, in rows by number.
top='digraph line {
    layout=nop2;
    outputorder=edgesfirst;
    node [shape=box, style="rounded,filled", fillcolor=white, fixedsize=true, width=1.333, height=0.778, fontsize=11];
    edge [arrowsize=0.7, fontsize=10];
'
dashed='style=dashed, color="#3050a0"'
drawn="$top"'    3 [label="3", pos="0,0"];
    5 [label="5\n1/32", pos="148,0"];
    7 [label="7", pos="296,0"];
    9 [label="9", pos="444,0"];
    3 -> 5 [pos="e,100,6 48,6 65,10 83,10 93,7"];
    5 -> 3 [pos="e,48,-6 100,-6 83,-10 65,-10 55,-7"];
    5 -> 9 [pos="e,404,28 188,28 236,61 356,61 399,31"];
    5 -> 7 ['"$dashed"', pos="e,248,20 196,20 213,30 231,30 243,23"];
    9 -> 5 [pos="e,188,-28 404,-28 356,-61 236,-61 193,-31"];
}
'
try 'draw the example' 0 "$drawn" '' draw table.bin
try 'draw it from another order' 0 "$drawn" '' draw backwards.bin
input=table.bin try 'draw from a pipe' 0 "$drawn" '' draw -
table leaving.bin '999999 - - leave i5 l i999999 i5 r l' '5 - 999999 leave'
try 'draw leaving stations, copies and what waits' 0 "$top"'    5 [label="5 leaving", pos="0,0", fillcolor=lightgrey];
    999999 [label="999999 leaving\nl×2 r\n6/32", pos="148,0", fillcolor=lightgrey];
    5 -> 999999 [pos="e,100,6 48,6 65,10 83,10 93,7"];
    999999 -> 5 ['"$dashed"', pos="e,48,-20 100,-20 83,-30 65,-30 53,-23", label="×2", lp="74,-35"];
    999999 -> 999999 ['"$dashed"', pos="e,172,28 124,28 118,64 178,64 173,35"];
}
' '' draw leaving.bin
table full.bin "5 - - stay $full r" "7 - - leave $full i5" '9 - - stay r r'
try 'draw full bags' 0 "$top"'    5 [label="5\nl×31 r\n32/32", pos="0,0", color=red, penwidth=2, fillcolor="#ff9c9c"];
    7 [label="7 leaving\nl×31\n32/32", pos="148,0", color=red, penwidth=2, fillcolor="lightgrey:#ff9c9c"];
    9 [label="9\nr×2\n2/32", pos="296,0"];
    7 -> 5 ['"$dashed"', pos="e,48,-20 100,-20 83,-30 65,-30 53,-23"];
}
' '' draw full.bin
try 'draw one station' 0 "$top"'    5 [label="5 leaving", pos="0,0", fillcolor=lightgrey];
}
' '' draw one.bin
try 'draw nothing' 0 "$top}"$'\n' '' draw empty

# 64 stations in eight rows, every second one backwards, so that who follows whom stands beside it.
rows=$("$program" draw 64.bin | sed -n 's/^ *\([0-9]*\) \[label=.*pos="\([-0-9,]*\)".*/\1:\2/p')
group 'draw 64 stations in rows'
holds 'all of them' [ "$(wc -l <<< "$rows")" -eq 64 ]
for place in 1:0,0 8:1036,0 9:1036,-136 16:0,-136 17:0,-272 64:0,-952; do
    holds "$place" grep -qx -- "$place" <<< "$rows"
done
end

# A part of the line.
sed '/dashed/d' <<< "$drawn" > no_introductions
try 'draw --only neighbours' 0 "$(< no_introductions)"$'\n' '' draw table.bin --only neighbours
table many.bin '1 - 3 stay' '3 1 5 stay i9' '5 3 7 leave' '7 5 9 stay i3' '9 7 - stay i1 i3' '12 - - stay'
# links: the links that are drawn
links() {
    "$program" draw many.bin "$@" | sed -n 's/^ *\([0-9]*\) -> \([0-9]*\) .*/\1>\2/p' | tr '\n' ' '
}
# nodes: the stations that are drawn
nodes() {
    "$program" draw many.bin "$@" | sed -n 's/^ *\([0-9]*\) \[label=.*/\1/p' | tr '\n' ' '
}
group 'draw --around STATION'
holds 'all links' [ "$(links)" = '1>3 3>1 3>5 3>9 5>3 5>7 7>5 7>9 7>3 9>7 9>1 9>3 ' ]
holds 'all stations' [ "$(nodes)" = '1 3 5 7 9 12 ' ]
holds 'the links of 3' [ "$(links --around 3)" = '1>3 3>1 3>5 3>9 5>3 7>3 9>3 ' ]
holds 'the stations around 3' [ "$(nodes --around 3)" = '1 3 5 7 9 ' ]
holds 'the neighbours of 3' [ "$(links --around=3 --only=neighbours)" = '1>3 3>1 3>5 5>3 ' ]
holds 'the neighbouring stations' [ "$(nodes --around 3 --only neighbours)" = '1 3 5 ' ]
holds 'one without links' [ "$(nodes --around 12)" = '12 ' ]
say 11 many.bin 'station 4'
try 'an absent one' 1 '' "$said" draw many.bin --around 4
say 11 many.bin 'station 0'
try 'station 0' 1 '' "$said" draw many.bin --around 0
misuse five 'a station number is expected' draw
try 'what is no number' 2 '' "$said" draw many.bin --around five
misuse bags "--only takes 'neighbours'" draw
try 'another only' 2 '' "$said" draw many.bin --only bags
misuse --around 'a station number is missing' draw
try 'no number' 2 '' "$said" draw many.bin --around
end

# The worst there is: 64 stations, each with 32 different introductions.
for k in {1..64}; do
    echo "$k - - stay$(printf ' i%d' $(for j in {1..32}; do echo $(((k + 2 * j) % 64 + 1)); done))"
done > worst.txt
"$program" assemble table worst.txt -o worst.bin
if command -v dot > /dev/null; then
    group 'Graphviz takes the drawing, in seconds'
    for file in table.bin leaving.bin full.bin one.bin empty 64.bin worst.bin; do
        "$program" draw $file > drawn.dot
        holds "$file" timeout 20 dot -Tsvg -o drawn.svg drawn.dot
    done
    holds 'every arrow is there' [ "$(grep -c 'class="edge"' drawn.svg)" -eq 2048 ]
    holds 'every station is there' [ "$(grep -c 'class="node"' drawn.svg)" -eq 64 ]
    "$program" draw leaving.bin | dot -Tsvg > drawn.svg
    holds 'copies and fill are seen' [ "$(grep -c '>×2<\|>6/32<\|>l×2 r<' drawn.svg)" -eq 3 ]
    end
fi
