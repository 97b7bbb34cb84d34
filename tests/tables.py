#!/usr/bin/env python3
"""Writes the tables that the program `checks` reads, and what it must print.

The blocks are laid out from document 01 ("The block") and document 02 (T-05) alone (layout.py), with no help from the
crates, and each case names the number that the documents give it. Run it in the repository's root; it writes
crates/checks/data/cases.bin and crates/checks/stdout, which are kept in the repository (outputs.py: or writes them below
another folder).
"""
import struct

from layout import INTRODUCTION, REMOVE_LEFT, REMOVE_RIGHT, at_site, block, changed, line64, resealed
from outputs import put

good = block(3, right=5), block(5, left=3, right=9, bag=[(INTRODUCTION, 7)]), block(7), block(9, left=5)
full = block(5, bag=[(INTRODUCTION, 5)] * 32)
spoilt = changed(block(5), 500, 1)          # 3
field = block(9, layout=2)                  # 4
sides = block(5, left=9)                    # 5, with 9 present

cases = [
    # accepted
    ("the four stations of the printed listing", b"".join(good), 0),
    ("the same in another order", b"".join(reversed(good)), 0),
    ("the empty table", b"", 0),
    ("64 blocks", b"".join(line64), 0),
    ("a bag of 32 copies", full, 0),
    ("leaving, all three kinds", block(5, leaving=1, bag=[(REMOVE_RIGHT, 0), (INTRODUCTION, 5), (REMOVE_LEFT, 0)]), 0),
    ("station 999,999", block(999999), 0),
    # 1: the length
    ("511 bytes", good[0][:511], 1),
    ("513 bytes, with a check that fails", spoilt + b"\0", 1),
    # 2: the number of blocks
    ("65 blocks", b"".join(line64) + block(65), 2),
    ("65 blocks, all of them zero", bytes(65 * 512), 2),
    # 3: the check word
    ("an all-zero block", bytes(512), 3),
    ("a byte changed", spoilt, 3),
    ("the second block's check word changed", good[0] + changed(good[1], 511, 0), 3),
    # 4: the fields
    ("layout 2", block(5, layout=2), 4),
    ("layout 257", block(5, layout=257), 4),
    ("flag bit 1", block(5, leaving=2), 4),
    ("flag bit 15", block(5, leaving=32769), 4),
    ("station 0", block(0), 4),
    ("station 1,000,000", block(1000000), 4),
    ("left 1,000,000", block(5, left=1000000), 4),
    ("right 1,000,000", block(5, right=1000000), 4),
    ("a count of 33", block(5, bag=[(INTRODUCTION, 5)] * 33), 4),
    ("a count above the places used", block(5, count=1), 4),
    ("a count below the places used", block(5, bag=[(INTRODUCTION, 5)] * 2, count=1), 4),
    ("site 10,000", block(5, site=10000), 4),
    ("kind 0", block(5, bag=[(0, 0)]), 4),
    ("kind 4", block(5, bag=[(4, 0)]), 4),
    ("an introduction of 0", block(5, bag=[(INTRODUCTION, 0)]), 4),
    ("an introduction of 1,000,000", block(5, bag=[(INTRODUCTION, 1000000)]), 4),
    ("a remove-left with a number", block(5, bag=[(REMOVE_LEFT, 5)]), 4),
    ("a remove-right with a number", block(5, bag=[(REMOVE_RIGHT, 5)]), 4),
    ("a gap byte of a place", resealed(block(5, bag=[(INTRODUCTION, 5)]), 22, 1), 4),
    ("a byte of the last place", resealed(block(5), 275, 1), 4),
    ("byte 276", resealed(block(5), 276, 1), 4),
    ("byte 509", resealed(block(5), 509, 1), 4),
    # 5: the sides
    ("left is the station itself", block(5, left=5), 5),
    ("right is the station itself", block(5, right=5), 5),
    ("left above", sides + block(9), 5),
    ("right below", block(5) + block(9, right=5), 5),
    # 6: one number twice
    ("two blocks alike", block(5) + block(5), 6),
    ("two blocks of one number, apart", block(5) + block(7) + block(9) + block(5, leaving=1), 6),
    # 7: a name without a block
    ("left absent", block(5, left=3), 7),
    ("right absent", block(5, right=9), 7),
    ("an introduction of an absent station", block(5, bag=[(REMOVE_LEFT, 0), (INTRODUCTION, 6)]), 7),
    ("absent between present ones", block(3) + block(9, bag=[(INTRODUCTION, 5)]), 7),
    # two faults, in both orders of the blocks
    ("3 and 4", spoilt + field, 3),
    ("4 and 3", field + spoilt, 3),
    ("4 and 5", field + sides, 4),
    ("5 and 4", sides + field, 4),
    ("3 and 5", spoilt + block(9, right=5), 3),
    ("5 and 3", block(9, right=5) + spoilt, 3),
    ("5 and 6", sides + block(9) + block(9), 5),
    ("6 and 5", block(9) + block(9) + sides, 5),
    ("6 and 7", block(5) + block(5) + block(7, left=3), 6),
    ("7 and 6", block(7, left=3) + block(5) + block(5), 6),
    ("4 and 7", block(5, left=3) + field, 4),
    ("7 and 4", field + block(5, left=3), 4),
    ("3 and 4 in one block", changed(block(5, layout=2), 500, 1), 3),
]

# "a site code, 0 to 9,999, with 0 for none", "a code above 9,999 with 4" (document 02, T-05)
coded = block(9, site=10000)                # 4
sites = [
    ("site 1", block(5, site=1), 0),
    ("site 255", block(5, site=255), 0),
    ("site 256", block(5, site=256), 0),
    ("site 9,999", block(5, site=9999), 0),
    ("sites of the four stations", b"".join(map(at_site, good, (9999, 256, 0, 9999))), 0),
    ("site 10,000, behind three that are good", b"".join(map(at_site, good, (9999, 255, 1, 10000))), 4),
    ("site 10,255, whose low byte is that of 9,999", block(5, site=10255), 4),
    ("site 32,768", block(5, site=32768), 4),
    ("site 65,535", block(5, site=65535), 4),
    ("site 9,999, under the check word of none", changed(changed(block(5), 18, 15), 19, 39), 3),
    ("site 3 is no station 3", block(5, left=3, site=3) + block(7, site=3), 7),
    ("two sites of one station", block(5, site=1) + block(5, site=2), 6),
    # two faults, in both orders of the blocks
    ("3 and a site", spoilt + coded, 3),
    ("a site and 3", coded + spoilt, 3),
    ("a site and 5", coded + sides, 4),
    ("5 and a site", sides + coded, 4),
    ("a site and 6", coded + block(5) + block(5), 4),
    ("6 and a site", block(5) + block(5) + coded, 4),
    ("a site and 7", coded + block(5, left=3), 4),
    ("7 and a site", block(5, left=3) + coded, 4),
    ("3 and a site in one block", changed(coded, 500, 1), 3),
    ("a site and 5 in one block", block(5, left=5, site=10000), 4),
]
cases += sites

if __name__ == "__main__":
    put("crates/checks/data/cases.bin", b"".join(struct.pack("<I", len(table)) + table for _, table, _ in cases))
    put("crates/checks/stdout", "".join("%d %d\n" % (k, number) for k, (_, _, number) in enumerate(cases, 1)))
    print(len(cases), "cases")
