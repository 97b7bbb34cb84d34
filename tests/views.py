#!/usr/bin/env python3
"""Writes the tables that the program `view_walk` reads, and what it must print.

The blocks are laid out from document 01 ("The block") alone (layout.py), with no help from the crates. Run it in the
repository's root; it writes crates/view_walk/data and crates/view_walk/stdout, which are kept in the repository (outputs.py: or writes
them below another folder).
"""
from layout import INTRODUCTION, block, changed
from outputs import put

stored = [9, 3, 7, 5]
accepted = block(9, left=5) + block(3, right=5) + block(7) + block(5, left=3, right=9, bag=[(INTRODUCTION, 7)])
refused = changed(accepted, 3 * 512 + 4, 6)  # 3: the station number of the last block, under its old check word

put("crates/view_walk/data/accepted.bin", accepted)
put("crates/view_walk/data/refused.bin", refused)
put("crates/view_walk/data/empty.bin", b"")
put("crates/view_walk/stdout",
    "number 0\n" + "".join("%d\n" % n for n in stored) + 3 * "end\n" + "number 3\n" + 5 * "end\n" + "number 0\n" + 2 * "end\n")
