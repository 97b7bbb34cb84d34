#!/usr/bin/env python3
"""Owner, group, mode, access list and the user's attributes of a file: attributes.py show FILE prints them on one line;
attributes.py set FILE NAME ENTRY.. gives it an access list (NAME access, or default for a folder) of entries such as user:54399:6,
group::4, mask::6, other::0; attributes.py note FILE gives it an attribute. Where the file system has none of these, the status is 1.
"""
import os
import struct
import sys

TAGS = {"user:": 1, "user": 2, "group:": 4, "group": 8, "mask:": 16, "other:": 32}


def packed(entries):
    made = struct.pack("<I", 2)
    for entry in entries:
        kind, name, permissions = entry.split(":")
        tag = TAGS[kind] if name else TAGS[kind + ":"]
        made += struct.pack("<HHI", tag, int(permissions), int(name) if name else 0xFFFFFFFF)
    return made


def value(path, name):
    try:
        return os.getxattr(path, name).hex()
    except OSError:
        return "-"


what, path = sys.argv[1:3]
try:
    if what == "set":
        os.setxattr(path, "system.posix_acl_" + sys.argv[3], packed(sys.argv[4:]))
    elif what == "note":
        os.setxattr(path, "user.note", b"kept")
    else:
        seen = os.stat(path)
        print(seen.st_uid, seen.st_gid, oct(seen.st_mode), value(path, "system.posix_acl_access"), value(path, "user.note"))
except OSError:
    sys.exit(1)
