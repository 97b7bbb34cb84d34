# -o and other people: owner, group, mode and access list of a file that is replaced. The program runs as a user without privileges: as root
# the test makes one, of the groups 54321 and 54322; else it is the user who runs the test, and what needs a second user is passed over.
mkdir permissions && cd permissions || exit 1
cp ../table.bin ../steps.bin ../new.bin .
attributes() {
    "$python" "$root/tests/console/attributes.py" "$@"
}
if [ "$(id -u)" -eq 0 ]; then
    user=54321 group_of_user=54321 second=54322 foreign=54323
    as=(setpriv --reuid "$user" --regid "$group_of_user" --groups "$group_of_user,$second" --)
    chown "$user:$group_of_user" .
else
    user=$(id -u) group_of_user=$(id -g) foreign=
    second=$(id -G | tr ' ' '\n' | grep -vx "$group_of_user" | head -n 1)
fi

# old [MODE [OWNER [GROUP]]]: the file that is there before
old() {
    rm -f old.bin
    cp table.bin old.bin && chown "${2:-$user}:${3:-$group_of_user}" old.bin && chmod "${1:-640}" old.bin
}
# alone: nothing is left beside it
alone() {
    [ "$(echo .station-line-*)" = '.station-line-*' ]
}
# replaced NAME: the file gets the new bytes and is otherwise as it was
replaced() {
    local before
    before=$(attributes show old.bin)
    group "a file that is replaced keeps $1"
    try 'the run' 0 "$listing" '' run table.bin steps.bin -o old.bin
    holds 'the new bytes' same old.bin new.bin
    holds 'owner, group, mode and access list' [ "$(attributes show old.bin)" = "$before" ]
    holds 'nothing beside it' alone
    end
}
# refused NAME FILE WHY: the file stands as it was, and the line says why
refused() {
    local before
    before=$(attributes show "$2")
    group "refused: $1"
    try 'what is said' 2 '' "station-line: $2: not written: $3"$'\n' run table.bin steps.bin -o "$2"
    holds 'the old bytes' same "$2" table.bin
    holds 'as it was' [ "$(attributes show "$2")" = "$before" ]
    holds 'nothing beside it' alone
    end
}

old 640
replaced 'its mode'
old 604
replaced 'a mode that keeps the group out'
old 2660
replaced 'its special bits'
if [ -n "$second" ]; then
    old 664 "$user" "$second"
    replaced 'the group that it is shared with'
    old 640
    chgrp "$second" . && chmod 2775 .
    replaced 'its own group in a folder that hands on another'
    chmod 0755 . && chgrp "$group_of_user" .
fi
old 600
if attributes set old.bin access user::6 user:54399:6 group::0 mask::6 other::0; then
    replaced 'an access list that keeps its group out'
    old 640
    attributes set . default user::7 user:54399:7 group::7 mask::7 other::7
    replaced 'an access list away that its folder would hand on'
    "$python" -c 'import os; os.removexattr(".", "system.posix_acl_default")'
fi
old 640
if attributes note old.bin; then
    replaced "the user's attributes"
fi
if [ -n "$foreign" ]; then
    old 664 "$user" "$foreign"
    refused "a group that the user isn't in" old.bin "its owner and group can't be kept: Operation not permitted"
    old 664 0 "$second"
    refused "another's file, shared with a group" old.bin "its owner and group can't be kept: Operation not permitted"
fi
old 444
refused 'a file that may not be written' old.bin 'it may not be written: Permission denied'
mkdir locked && cp table.bin locked/old.bin && chown -R "$user:$group_of_user" locked && chmod 555 locked
refused 'a file in a folder that may not be written' locked/old.bin 'no new file can be made beside it: Permission denied'
chmod 333 locked
refused 'a file in a folder that may not be read' locked/old.bin "its folder can't be opened: Permission denied"
chmod 755 locked
holds 'nothing is left in the folder' [ "$(ls -A locked)" = old.bin ]
mkdir -m 700 closed && chown "$user:$group_of_user" closed && chmod 000 closed
group 'refused: a folder that may not be entered'
try 'what is said' 2 '' $'station-line: closed/new.bin: not written: it can\'t be reached: Permission denied\n' run table.bin steps.bin -o closed/new.bin
end
chmod 700 closed
group 'a new file has the usual owner, group and mode'
(umask 027 && "${as[@]}" "$program" assemble table ../stations.txt -o made.bin)
holds 'they are' [ "$(stat -c '%u %g %a' made.bin)" = "$user $group_of_user 640" ]
holds 'its bytes' same made.bin table.bin
end
as=()
if [ "$(id -u)" -eq 0 ]; then
    old 640 "$user" "$second"
    attributes set old.bin access user::6 user:54399:4 group::0 mask::4 other::0
    replaced 'the owner, when root replaces it'
fi
cd ..
