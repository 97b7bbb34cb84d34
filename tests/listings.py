#!/usr/bin/env python3
"""Writes the files that the listing programs read, and what they must print.

The tables and steps are laid out from documents 01 and 02 alone (layout.py), and each listing is written here by the words of document
01 ("The printed listing", "The numbers a crew may see") and document 02 (T-02, T-05), not taken from what a program printed. Run it in
the repository's root; what it writes is kept in the repository: examples/, data/ and stdout of `listing`, and data/, args and stdout of
`listing_cases` (outputs.py: or writes them below another folder).
"""
from layout import DELIVER, EXIT, INTRODUCTION, REMOVE_LEFT, TIMEOUT, at_site, block, changed, line64, step
from outputs import put

# ---- the example of document 01 ----

# "For 3 (right 5), 5 (left 3, right 9, bag i7), 7 (no neighbours), 9 (left 5), all staying, and the one step 'deliver to 5
# introduction 7'"
FOUR = [block(3, right=5), block(5, left=3, right=9, bag=[(INTRODUCTION, 7)]), block(7), block(9, left=5)]
TABLE = b"".join(FOUR)
STEP = step(DELIVER, 5, INTRODUCTION, 7)
AFTER = """\
3 - 5 stay
5 3 7 stay
7 - - stay i9
9 5 - stay
"""
BEFORE = """\
3 - 5 stay
5 3 9 stay i7
7 - - stay
9 5 - stay
"""


def first_line(answer, done=0, stations=0, why=""):
    """With the reason that the first line ends in at 14 (document 02, T-02)."""
    return "answer %d done %d stations %d%s\n" % (answer, done, stations, why)


# ---- the files of `listing_cases` ----

FULL = b"".join(line64)                                 # 64 blocks, 32,768 bytes
# "an introduction of p goes to left and to right": 1 has the right 2 alone. "with q equal to right, no more", and so on the left.
TURN = step(TIMEOUT, 1) + step(DELIVER, 2, INTRODUCTION, 1)
LAST = 999999
CROWD = range(LAST - 63, LAST + 1)                      # 64 stations of six digits
NAMED = CROWD[-32:]                                     # 32 of them, in every bag
HELD = [block(3, right=5), block(5, left=3, right=9, leaving=1), block(9, left=5)]

TABLES = {
    "example": TABLE,
    "empty": b"",
    "full": FULL,
    "crowded": b"".join(block(p, left=p - 1 if p > CROWD[0] else 0, right=p + 1 if p < LAST else 0, leaving=1,
                              bag=[(INTRODUCTION, q) for q in reversed(NAMED)]) for p in reversed(CROWD)),
    "held": b"".join(HELD),
    "held-by-last": block(LAST, left=5) + block(5, leaving=1) + block(1),
    "own-bag": HELD[0] + block(5, left=3, right=9, leaving=1, bag=[(INTRODUCTION, 5)]) + HELD[2],
    "bag-of-32": b"".join(HELD[:2]) + block(9, left=5, bag=[(REMOVE_LEFT, 0)] * 32),
    "sole": block(5, leaving=1),
    "one-byte-more": FULL + b"\0",
    "one-byte-less": FULL[:-1],
    "65-blocks": FULL + block(65),
    # for each of 1 and 3 to 7 a table with that fault; 2 needs more blocks than a file may have
    "fault-1": TABLE + b"\0",
    "fault-3": TABLE + changed(block(11), 500, 1),
    "fault-4": TABLE + block(11, layout=2),
    "fault-5": TABLE + block(11, right=9),
    "fault-6": TABLE + block(9),
    "fault-7": TABLE + block(11, left=10),
    "full-fault-3": FULL[:-512] + changed(line64[63], 511, 0),
    # site codes (document 02, T-05), some stations with none
    "sites": b"".join(map(at_site, FOUR, (9999, 1, 256, 0))),
    "site-10000": b"".join(map(at_site, FOUR, (9999, 1, 256, 10000))),
    "sole-site": block(5, leaving=1, site=7),
}
TABLES["crowded-sites"] = b"".join(at_site(TABLES["crowded"][at:at + 512], 9999) for at in range(0, 32768, 512))
STEPS = {
    "example": STEP,
    "empty": b"",
    "full": TURN * 2048,                                # 4,096 steps, 49,152 bytes
    "one-byte-more": TURN * 2048 + b"\0",
    "one-byte-less": (TURN * 2048)[:-1],
    "4097-steps": TURN * 2048 + step(TIMEOUT, 1),
    "fault-8": STEP + b"\0",
    "refused-10": STEP + step(4, 5),
    "refused-11": STEP + step(TIMEOUT, 4),
    "refused-12": STEP * 2,
    "refused-13": STEP + step(EXIT, 7),
    "timeout-5": step(TIMEOUT, 5),
    "exit-5": step(EXIT, 5),
    "exit-last": step(EXIT, LAST),
}
MISSING, FOLDER = "missing", "folder"                   # a name without a file, and a directory in the place of one

# ---- the cases: a table, a step list, and the listing of document 01 ----

LINE_OF_64 = "".join("%d %s %s stay\n" % (p, p - 1 or "-", p + 1 if p < 64 else "-") for p in range(1, 65))
WORDS = "".join(" i%d" % q for q in NAMED)
LINE_OF_CROWD = "".join("%d %s %s leave%s\n" % (p, p - 1 if p > CROWD[0] else "-", p + 1 if p < LAST else "-", WORDS) for p in CROWD)
HELD_LINES = "3 - 5 stay\n5 3 9 leave\n9 5 - stay"
# "gains its code at the end as one word, `@` with the number, or nothing for 0" (document 02, T-05)
AFTER_SITES = """\
3 - 5 stay @9999
5 3 7 stay @1
7 - - stay i9 @256
9 5 - stay
"""
BEFORE_SITES = """\
3 - 5 stay @9999
5 3 9 stay i7 @1
7 - - stay @256
9 5 - stay
"""
LINE_OF_SITES = LINE_OF_CROWD.replace("\n", " @9999\n")

CASES = [
    ("example", "example", first_line(0, 1, 4) + AFTER),
    ("example", "empty", first_line(0, 0, 4) + BEFORE),
    # "an empty table with an empty list answers 0, 0, 0"
    ("empty", "empty", first_line(0)),
    ("empty", "example", first_line(11)),
    ("sole", "exit-5", first_line(0, 1, 0)),
    # the longest files that are let in, and the longest lines
    ("full", "empty", first_line(0, 0, 64) + LINE_OF_64),
    ("full", "full", first_line(0, 4096, 64) + LINE_OF_64),
    ("crowded", "empty", first_line(0, 0, 64) + LINE_OF_CROWD),
    ("full-fault-3", "full", first_line(3)),
    # one byte less is let in as well, and is no table and no list; one byte more is not
    ("one-byte-less", "example", first_line(1)),
    ("full", "one-byte-less", first_line(8)),
    ("one-byte-more", "example", first_line(16)),
    ("65-blocks", "example", first_line(16)),
    ("full", "one-byte-more", first_line(16)),
    ("full", "4097-steps", first_line(16)),
    ("one-byte-more", "one-byte-more", first_line(16)),
    # files that cannot be read
    (MISSING, "example", first_line(16)),
    ("example", MISSING, first_line(16)),
    (MISSING, MISSING, first_line(16)),
    (FOLDER, "example", first_line(16)),
    ("example", FOLDER, first_line(16)),
    (FOLDER, FOLDER, first_line(16)),
    (MISSING, FOLDER, first_line(16)),
    ("empty", MISSING, first_line(16)),
    (MISSING, "empty", first_line(16)),
    # every other number that the program can print
    ("fault-1", "example", first_line(1)),
    ("fault-3", "example", first_line(3)),
    ("fault-4", "example", first_line(4)),
    ("fault-5", "example", first_line(5)),
    ("fault-6", "example", first_line(6)),
    ("fault-7", "example", first_line(7)),
    ("example", "fault-8", first_line(8)),
    ("example", "refused-10", first_line(10, 1, 4) + AFTER),
    ("example", "refused-11", first_line(11, 1, 4) + AFTER),
    ("example", "refused-12", first_line(12, 1, 4) + AFTER),
    ("example", "refused-13", first_line(13, 1, 4) + AFTER),
    # "the printed first line then ends in `bag`, or `held-by` and the station number" (document 02, T-02)
    ("held", "exit-5", first_line(14, 0, 3, " held-by 3") + HELD_LINES + "\n"),
    ("held-by-last", "exit-5", first_line(14, 0, 3, " held-by 999999") + "1 - - stay\n5 - - leave\n999999 5 - stay\n"),
    ("own-bag", "exit-5", first_line(14, 0, 3, " bag") + HELD_LINES.replace("leave", "leave i5") + "\n"),
    ("crowded", "exit-last", first_line(14, 0, 64, " bag") + LINE_OF_CROWD),
    ("bag-of-32", "timeout-5", first_line(15, 0, 3) + HELD_LINES + " l" * 32 + "\n"),
    # "the program looks for 16 before all else": before the table's number and the list's
    ("fault-1", MISSING, first_line(16)),
    ("fault-3", MISSING, first_line(16)),
    ("fault-4", FOLDER, first_line(16)),
    ("fault-5", "one-byte-more", first_line(16)),
    ("fault-6", "4097-steps", first_line(16)),
    ("fault-7", MISSING, first_line(16)),
    ("one-byte-less", FOLDER, first_line(16)),
    ("full-fault-3", "one-byte-more", first_line(16)),
    (MISSING, "fault-8", first_line(16)),
    (FOLDER, "fault-8", first_line(16)),
    ("one-byte-more", "fault-8", first_line(16)),
    ("65-blocks", "refused-10", first_line(16)),
    # codes behind messages, without messages, and none; the longest lines; and a code that is refused
    ("sites", "example", first_line(0, 1, 4) + AFTER_SITES),
    ("sites", "empty", first_line(0, 0, 4) + BEFORE_SITES),
    ("sites", "refused-12", first_line(12, 1, 4) + AFTER_SITES),
    ("crowded-sites", "empty", first_line(0, 0, 64) + LINE_OF_SITES),
    ("crowded-sites", "exit-last", first_line(14, 0, 64, " bag") + LINE_OF_SITES),
    ("sole-site", "timeout-5", first_line(0, 1, 1) + "5 - - leave @7\n"),
    ("sole-site", "exit-5", first_line(0, 1, 0)),
    ("site-10000", "example", first_line(4)),
    ("site-10000", MISSING, first_line(16)),
]


def write_example():
    for folder in "examples", "crates/listing/data":
        put(folder + "/table.bin", TABLE)
        put(folder + "/steps.bin", STEP)
    put("crates/listing/stdout", first_line(0, 1, 4) + AFTER)


def write_cases():
    home = "crates/listing_cases"
    for kind, files in ("table", TABLES), ("steps", STEPS):
        for name, content in files.items():
            put("%s/data/%s.%s" % (home, name, kind), content)
        # an empty folder is not kept in the repository
        put("%s/data/%s.%s/readme" % (home, FOLDER, kind), "A directory stands where a file should be.\n")
    args, stdout = "", ""
    for table, steps, listing in CASES:
        assert table in (*TABLES, MISSING, FOLDER) and steps in (*STEPS, MISSING, FOLDER)
        args += "%s.table\n%s.steps\n" % (table, steps)
        stdout += "case %s.table %s.steps\n%s" % (table, steps, listing)
    put(home + "/args", args)
    put(home + "/stdout", stdout)


assert (len(TABLES["full"]), len(STEPS["full"])) == (32768, 49152)
write_example()
write_cases()
