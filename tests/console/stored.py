#!/usr/bin/env python3
"""Takes the stored cases apart into files for the console's test: stored.py FOLDER, in the repository's root.

Case k of crates/situations/data/cases.bin becomes run.k.table, run.k.steps and run.k.listing (what crates/situations/stdout says, which
tests/situations.py wrote from document 01 alone), and case k of crates/checks/data/cases.bin becomes check.k.table with its number in
check.k.number. A file of over 32,768 (table) or 49,152 (steps) bytes gives 16 before all else. The program lends a room as long as the
table, so cases with a shorter room are left out. questions holds the lines of tests/questions.txt whose table is there.
"""
import os
import struct
import sys

UNREADABLE = "answer 16 done 0 stations 0\n"


def put(name, data):
    with open(os.path.join(sys.argv[1], name), "wb") as out:
        out.write(data if isinstance(data, bytes) else data.encode())


with open("crates/situations/stdout") as f:
    listings = [part.split("\n", 1)[1].rsplit("rest ", 1)[0] for part in f.read().split("case ")[1:]]
kept = set()
with open("crates/situations/data/cases.bin", "rb") as f:
    for k, listing in enumerate(listings, 1):
        table_len, steps_len, room = struct.unpack("<III", f.read(12))
        table, steps = f.read(table_len), f.read(steps_len)
        if room < table_len:
            continue
        too_long = table_len > 32768 or steps_len > 49152
        put("run.%d.table" % k, table)
        put("run.%d.steps" % k, steps)
        put("run.%d.listing" % k, UNREADABLE if too_long else listing)
        if table_len <= 32768:
            kept.add(k)

with open("tests/questions.txt") as f:
    put("questions", "".join(line for line in f if int(line.split()[0]) in kept))

with open("crates/checks/data/cases.bin", "rb") as f, open("crates/checks/stdout") as answers:
    for k, said in enumerate(answers, 1):
        length, = struct.unpack("<I", f.read(4))
        table = f.read(length)
        put("check.%d.table" % k, table)
        put("check.%d.number" % k, said.split()[1] + "\n" if length <= 32768 else "16\n")
