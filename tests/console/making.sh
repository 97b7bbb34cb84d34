# make help, make run and the clock of the long ones, with a prover that only says what it is told to.
mkdir making && cd making || exit 1
cp "$root/Makefile" . && mkdir crates examples tests bin include && cp "$root"/examples/* examples && cp "$root/tests/timed" tests
cp "$root/include/station_line.h" include
mkdir -p crates/{low,middle,beside,high,listing,other} crates/listing/out
printf '#!/bin/sh\ncat %q\n' "$root/crates/listing/stdout" > crates/listing/out/listing
chmod +x crates/listing/out/listing
# prover LINE..: an rt that runs these lines
prover() {
    printf '%s\n' '#!/bin/bash' "$@" > bin/rt
    chmod +x bin/rt
}
# made WORD..: make with that prover; its status, standard output and error stand in $status, $out and $err
made() {
    PATH=$PWD/bin:$PATH make --no-print-directory -s "$@" > "$got.out" 2> "$got.err"
    status=$?
    out=$(< "$got.out") err=$(< "$got.err")
}
targets=$(sed -n 's/^\.PHONY: all //p' Makefile)
made help
group 'make help names every target'
for target in $targets; do
    holds "$target" grep -q "^make $target " <<< "$out"
done
end
printf '%s\n' '# the lowest' low: 'high: middle' '# two' 'middle: low csv' 'beside: low' 'listing: high beside toml' 'other: low' > crates.txt
listed='low middle beside high listing'
prover 'crate=${PWD##*/}' '[ "$crate $*" = "listing run" ] || [ "$*" = lib ] || exit 2' 'echo "noise about $crate"' 'echo "logic=proved functions=1"'
RT_JOBS=1 made run
group 'make run names each crate being proved, k of n'
holds 'the listing' [ "$out" = "$(< "$root/crates/listing/stdout")" ]
holds 'status' [ "$status" -eq 0 ]
holds 'k of n, in the order of the layers' [ "$err" = "$(k=0; for c in $listed; do echo "make run: proving $((++k)) of 5: $c"; done)" ]
holds 'what the prover says is kept' grep -q 'noise about high' target/run.log
end
RT_JOBS=2 made run
holds 'make run names crates proved side by side' grep -qx 'make run: proving 2-3 of 5: middle beside' <<< "$err"
prover '[ "${PWD##*/}" = middle ] || exit 0' 'echo "the reason why"' 'echo "logic=not-proved"' 'exit 1'
made run
group 'make run tells why a crate is not proved'
holds 'status' [ "$status" -ne 0 ]
holds 'no listing' [ -z "$out" ]
holds 'the reason' grep -qx 'the reason why' <<< "$err"
holds 'the crate' grep -q '^make run: middle is not proved (rt ended with 1)' <<< "$err"
holds 'where all of it is' grep -q 'target/run.log' <<< "$err"
end
prover 'echo "rt: a bad crates.txt" >&2' 'exit 2'
made run
holds 'make run tells why the prover did not begin' grep -qx 'rt: a bad crates.txt' <<< "$err"
if [ -z "$(PATH=/usr/bin:/bin command -v rt)" ]; then
    PATH=/usr/bin:/bin make --no-print-directory -s run > "$got.out" 2> "$got.err"
    holds 'make run without the kit' grep -q 'the Rattle kit is needed' "$got.err"
fi
holds 'nothing of make run goes unseen' eval '! grep -n "/dev/null" "$root/Makefile" "$root/examples/run"'
group 'the clock of make test, soak and fuzz'
SECONDS=100 EVERY=1 "$root/tests/timed" trial 5 sleep 3 > "$got.out" 2> "$got.err"
holds 'status' [ $? -eq 0 ]
holds 'what is left' grep -qx 'trial: [1-4] seconds so far, about [1-4] left' "$got.err"
holds 'nothing on standard output' [ ! -s "$got.out" ]
"$root/tests/timed" trial 5 sh -c 'exit 7' 2> "$got.err"
holds 'the status of the command' [ $? -eq 7 ]
for target in test soak fuzz; do
    holds "make $target has it" grep -q "tests/timed 'make $target' " "$root/Makefile"
done
end
cd ..
