# A save that is disturbed at each of its calls into the system.
mkdir faulty && cd faulty || exit 1
cp "$root/examples/table.bin" "$root/examples/steps.bin" .
"$program" run table.bin steps.bin -o new.bin > listing.txt
shim=$work/faults.so
holds 'the shim is built' gcc -std=c11 -Wall -Wextra -Werror -O1 -shared -fPIC "$root/tests/console/faults.c" -o "$shim" -ldl
holds 'a save with a failure at each call' "$python" "$root/tests/console/faults.py" fails "$program" "$shim"
sanitizer=$(gcc -print-file-name=libasan.so)
holds 'a save with a failure at each call, under the sanitizers' "$python" "$root/tests/console/faults.py" broken "$program-sanitized" "$sanitizer $shim"
holds 'a save killed at each call' "$python" "$root/tests/console/faults.py" killed "$program" "$shim"
holds 'a save ended by INT, TERM or HUP at each call' "$python" "$root/tests/console/faults.py" signals "$program" "$shim"
holds 'a save that ignores INT, TERM or HUP' "$python" "$root/tests/console/faults.py" ignored "$program" "$shim"
holds 'a pipe whose reader has gone' "$python" "$root/tests/console/faults.py" reader "$program" "$shim"
holds 'a save with short reads and writes' "$python" "$root/tests/console/faults.py" short "$program" "$shim"

# faulty CALL AT ERRNO OUT ERR: the call of that name, for the AT-th time, fails
faulty() {
    cp table.bin target.bin
    LD_PRELOAD=$shim FAULT_CALL=$1 FAULT_AT=$2 FAULT_DO="fail $3" says 2 "$4" "station-line: target.bin: $5"$'\n' run table.bin steps.bin -o target.bin
}
group 'a folder that is not synced'
holds 'what is said' faulty fsync 2 5 "$(< listing.txt)"$'\n' "written, but a power cut may undo it: its folder can't be synced: Input/output error"
holds 'the new table is there' same target.bin new.bin
end
group 'a file system that syncs no folders'
cp table.bin target.bin
holds 'all is well' eval 'LD_PRELOAD=$shim FAULT_CALL=fsync FAULT_AT=2 FAULT_DO="fail 22" says 0 "$(< listing.txt)"$'"'\n'"' "" run table.bin steps.bin -o target.bin'
holds 'the new table is there' same target.bin new.bin
end
group 'a file that is a mount point'
holds 'what is said' faulty renameat 1 16 '' "not written: it can't be replaced (is it a mount point?): Device or resource busy"
holds 'the old table stands' same target.bin table.bin
end
group 'a system that passes over the mode'
said=$'station-line: target.bin: not written: its owner, group and mode can\'t be kept\n'
cp table.bin target.bin && chmod 604 target.bin
holds 'what is said' eval 'LD_PRELOAD=$shim FAULT_CALL=fchmod FAULT_AT=1 FAULT_DO="skip 0" says 2 "" "$said" run table.bin steps.bin -o target.bin'
holds 'the old table stands' same target.bin table.bin
end
# unremoved: the new file can neither be written nor removed
unremoved() {
    cp table.bin target.bin
    (ulimit -f 1 && LD_PRELOAD=$shim FAULT_CALL=unlinkat FAULT_AT=1 FAULT_DO='fail 5' exec "$program" run table.bin steps.bin -o target.bin) > "$got.out"
    [ $? -eq 2 ] && [ ! -s "$got.out" ] && same target.bin table.bin && rm .station-line-??????
}
group 'a new file that can not be removed'
holds 'the old table stands' unremoved 2> "$got.err"
holds 'it is named' grep -q "^station-line: \.station-line-......: left behind: it can't be removed: Input/output error$" "$got.err"
holds 'what failed is said' grep -q "^station-line: target\.bin: not written: the new file can't be written: File too large$" "$got.err"
holds 'a closed standard error does not become the old file' unremoved 2>&-
end
# mounted: the same with a file that is a mount point indeed
mounted() {
    cp table.bin source.bin && cp table.bin target.bin && as=(unshare -m sh -c 'mount --bind source.bin target.bin && exec "$@"' sh)
    says 2 '' $'station-line: target.bin: not written: it can\'t be replaced (is it a mount point?): Device or resource busy\n' \
        run table.bin steps.bin -o target.bin
}
touch a.bin b.bin
if [ "$(id -u)" -eq 0 ] && unshare -m mount --bind a.bin b.bin 2> /dev/null; then
    group 'a file that is bind-mounted'
    holds 'what is said' mounted
    as=()
    holds 'the old table stands' same source.bin table.bin
    holds 'nothing beside it' [ "$(echo .station-line-*)" = '.station-line-*' ]
    end
fi
cd ..
