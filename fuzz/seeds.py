#!/usr/bin/env python3
"""Writes the seeds of fuzz/corpus: the printed example of document 01, the shorter cases of crates/situations/data/cases.bin, tables for the
list of allowed steps, one for each thing that may hold a station, roll calls, tables in line or not for one cause, and tables with site
codes. Run it in the repository's root; with one argument it writes them below that folder. An input is four numbers of 32 bits (length of
the table, of the step list, of the room; the station asked about), the table and the step list."""
import pathlib
import struct
import sys

sys.path.insert(0, "tests")
from layout import DELIVER, EXIT, INTRODUCTION, REMOVE_LEFT, REMOVE_RIGHT, TIMEOUT, at_site, block, step

MOST = 3000
corpus = pathlib.Path(sys.argv[1] if len(sys.argv) > 1 else ".", "fuzz/corpus")


def seed(name, table, steps, room, station=None):
    """The station asked about is the first one stored, unless said."""
    if station is None:
        station = struct.unpack("<I", table[4:8])[0] if len(table) >= 8 else 5
    (corpus / name).write_bytes(struct.pack("<IIII", len(table), len(steps), room, station) + table + steps)


corpus.mkdir(parents=True, exist_ok=True)
example = pathlib.Path("examples/table.bin").read_bytes()
seed("example", example, pathlib.Path("examples/steps.bin").read_bytes(), len(example))
data = pathlib.Path("crates/situations/data/cases.bin").read_bytes()
at = case = 0
seen = set()
while at < len(data):
    table_len, steps_len, room = struct.unpack_from("<III", data, at)
    table, steps = data[at + 12:at + 12 + table_len], data[at + 12 + table_len:at + 12 + table_len + steps_len]
    if table_len + steps_len <= MOST and (table, steps) not in seen:
        seen.add((table, steps))
        seed(f"situation-{case:03}", table, steps, room)
    at += 12 + table_len + steps_len
    case += 1


def departure(held):
    """5 may exit between 3 and 9, whose bag holds so many."""
    return block(9, bag=[(REMOVE_LEFT, 0)] * held) + block(5, left=3, right=9, leaving=1) + block(3)


copies = [(REMOVE_RIGHT, 0), (INTRODUCTION, 9), (REMOVE_LEFT, 0), (INTRODUCTION, 5), (REMOVE_RIGHT, 0), (INTRODUCTION, 9)]
waiting = block(3, right=5, bag=[(REMOVE_RIGHT, 0)] * 32) + block(5, left=3, bag=[(REMOVE_LEFT, 0)] * 32)
seed("allowed-copies", block(9) + block(5, bag=copies), b"", 6 * 12)
seed("allowed-short", block(9) + block(5, bag=copies), b"", 6 * 12 - 1)
seed("allowed-exit", departure(31), b"", 5 * 12)
seed("allowed-full", departure(32), b"", 3 * 12)
seed("allowed-none", waiting, b"", 0)


def held(name, bag5=(), right3=0, bag6=(), left9=0):
    """5 would exit among 9, 6 and 3, which may hold it; they are stored by falling number."""
    table = block(9, left=left9) + block(6, bag=bag6) + block(5, leaving=1, bag=bag5) + block(3, right=right3)
    seed("leave-" + name, table, step(EXIT, 5), len(table), 5)


introduced = [(REMOVE_LEFT, 0), (INTRODUCTION, 5)]
held("yes")
held("own-bag", [(REMOVE_LEFT, 0)], 5, introduced, 5)
held("own-bag-itself", [(INTRODUCTION, 5)])
held("held-by-neighbour", left9=5)
held("held-by-introduction", bag6=introduced)
held("held-by-introduction-below-neighbour", bag6=introduced, left9=5)
held("held-by-smallest", (), 5, introduced, 5)


def roll_call(name, questions, station, right3=5):
    """So many questions, which the room's length says. The first is about 3, with one record less than questions; 5, with just as many; or
    8, which is absent, with one more. The step list has two absent numbers as well."""
    table = block(9, left=5) + block(7, bag=introduced) + block(5, leaving=1) + block(3, right=right3) + block(2, right=3)
    seed("roll-" + name, table, step(TIMEOUT, 4) + step(TIMEOUT, 999999), 40 * 70 + questions, station)


roll_call("none", 0, 3)
roll_call("one", 1, 5)
roll_call("absent", 17, 8)
roll_call("short", 17, 3)
roll_call("most", 64, 5)
roll_call("many", 65, 8)
roll_call("many-short", 65, 3)
roll_call("refused", 65, 3, right3=4)


def line(name, bag5=(), right3=5, leaving9=0):
    """3, 5 and 9, stored by falling number, with introductions that wait for 9 and 3."""
    table = block(9, left=5, leaving=leaving9, bag=[(INTRODUCTION, 3)] * 32) + block(5, left=3, right=9, bag=bag5) + block(3, right=right3, bag=[(INTRODUCTION, 9)])
    seed("line-" + name, table, step(TIMEOUT, 5), len(table))


introductions = [(INTRODUCTION, n) for n in (3, 5, 9)] * 10 + [(INTRODUCTION, 5)]
line("waiting", introductions)
line("neighbours", introductions, right3=9)
line("remove-left", introductions + [(REMOVE_LEFT, 0)])
line("remove-right", [(REMOVE_RIGHT, 0)] + introductions)
line("leaving", introductions, leaving9=1)


def sites(name, codes, steps):
    """5 may exit between 3 and 9, and the bag of 7 introduces 3; they are stored by falling number, and have these site codes."""
    stations = block(9), block(7, bag=[(INTRODUCTION, 3)]), block(5, left=3, right=9, leaving=1), block(3)
    table = b"".join(map(at_site, stations, codes))
    seed("site-" + name, table, steps, len(table), 5)


departing = step(EXIT, 5) + step(DELIVER, 9, INTRODUCTION, 3) + step(DELIVER, 3, INTRODUCTION, 9) + step(TIMEOUT, 3)
delivered = step(TIMEOUT, 5) + step(DELIVER, 7, INTRODUCTION, 3) + step(DELIVER, 3, REMOVE_RIGHT) + step(TIMEOUT, 7)
sites("mixed", (9999, 0, 255, 256), delivered)
sites("most", (9999, 9999, 9999, 9999), delivered + departing)
sites("number", (5, 3, 9, 5), departing)
sites("above", (9999, 10000, 1, 0), delivered)
sites("above-low", (1, 2, 10255, 3), delivered)
sites("exit", (1, 2, 3000, 4), departing)
sites("exit-alone", (0, 0, 3000, 0), departing)
