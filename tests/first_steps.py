#!/usr/bin/env python3
"""Writes the tables over which the program `first_steps` lists what may happen next, and what it must print.

The list is made from documents 01 and 02 (request T-01) in the plainest way: at each station, by rising number, the timeout, each
different message that its bag holds, by kind and number, and the exit are each run alone by the reading of document 01 in situations.py;
those answered 0 are listed. Most cases also say by hand what must be listed, and the script stops if the reading gives another.
Run it in the repository's root; it writes crates/first_steps/data/cases.bin and crates/first_steps/stdout, which are kept in the
repository (outputs.py: or writes them below another folder).

A case in cases.bin is two numbers of 32 bits (length of the table, of the room) and the table.
"""
import struct

import situations
import tables
from layout import DELIVER, EXIT, INTRODUCTION, REMOVE_LEFT, REMOVE_RIGHT, TIMEOUT, at_site, block, line64, step
from outputs import put
from situations import L, R, Shuffle, almost, around, check, do_step, four, full, i, mixed, read_table, stored, unnamed, write_table

# ---- the list, from documents 01 and 02 ----


def candidates(line):
    """Every step that could be listed, in the order of the list."""
    for p in sorted(line):
        yield step(TIMEOUT, p)
        for kind, number in sorted(set(line[p].bag)):
            yield step(DELIVER, p, kind, number)
        yield step(EXIT, p)


def first_steps(table):
    """The steps of an accepted table that a run does as its first."""
    return [record for record in candidates(read_table(table)) if do_step(read_table(table), record) == 0]


def allowed(table, room):
    """The answer and the steps filled."""
    fault = check(table)
    if fault:
        return fault, []
    listed = first_steps(table)
    return (9, []) if room is not None and room < 12 * len(listed) else (0, listed)


# ---- what is said by hand ----

WORDS = {"t": (TIMEOUT, 0), "l": (DELIVER, REMOVE_LEFT), "r": (DELIVER, REMOVE_RIGHT), "x": (EXIT, 0)}


def by_hand(says):
    """The steps of a text as '3 t | 5 t i7 l x': a station, and behind it t for the timeout, i with a number, l or r for a delivery, x
    for the exit. A station with no step is left out."""
    steps = []
    for station, *words in map(str.split, filter(None, says.split(" | "))):
        for word in words:
            action, kind = WORDS.get(word, (DELIVER, INTRODUCTION))
            steps.append(step(action, int(station), kind, 0 if word in WORDS else int(word[1:])))
    return steps


# ---- the cases ----

BUFFER = 40000  # what the program fills; the room is the front of it

cases = []


def case(title, table, says=None, room=None):
    """Adds a case. The room is 31 bytes longer than the list unless said; `says` is the list by hand, or the number that refuses."""
    table = b"".join(table)
    answer, listed = allowed(table, room)
    if says is not None:
        assert (answer, listed) == ((says, []) if isinstance(says, int) else (0, by_hand(says))), (title, answer, listed)
    room = 12 * len(listed) + 31 if room is None else room
    assert len(table) <= 33280 and room <= BUFFER and len(listed) <= 2112, title
    cases.append((title, table, room, answer, listed))


# The empty table, and lists with nothing in them: each bag is full, and each step would send into the other.
waiting = [block(3, right=5, bag=[R] * 32), block(5, left=3, bag=[L] * 32)]
case("the empty table, no room", [], "", 0)
case("the empty table, some room", [], "", 700)
case("two that wait for each other, no room", waiting, "", 0)
case("two that wait for each other, a room too short for a step", waiting, "", 11)
case("two that wait for each other, some room", waiting, "")

# The printed listing, and the thirteen situations as they start.
case("the printed listing", four, "3 t | 5 t i7 | 7 t | 9 t")
starts = {title: table for title, table, *_ in situations.cases if title.startswith("situation ")}
for title, says in [
        ("situation 1", "3 t | 5 t i7 | 7 t | 9 t"),
        ("situation 2, with two copies", "3 t | 5 t i9 | 9 t"),
        ("situation 3", "3 t | 5 t i12 | 9 t | 12 t"),
        ("situation 4", "3 t | 5 t i12 | 9 t | 12 t"),
        ("situation 5, with two copies", "3 t | 5 t i5 | 9 t"),
        ("situation 6", "3 t | 5 t l | 9 t"),
        ("situation 7, with two copies", "3 t | 5 t l | 9 t"),
        ("situation 8", "3 t | 5 t r | 9 t"),
        ("situation 9", "3 t | 5 t | 9 t"),
        ("situation 10", "3 t | 5 t x | 9 t"),
        ("situation 11", "3 t | 5 t l | 9 t"),
        ("situation 12, 32 in the bag of 9", "3 t | 9 t i3 l r"),
        ("situation 12, 31 in the bag of 9", "3 t | 5 t | 9 t i3 l r"),
        ("situation 13", "5 t x")]:
    case(title, [starts.pop(title)], says)
assert not starts

# Rooms: the list of the printed listing has five steps, 60 bytes.
case("a room of the list's length", four, "3 t | 5 t i7 | 7 t | 9 t", 60)
case("a room one byte longer", four, "3 t | 5 t i7 | 7 t | 9 t", 61)
case("a room as long as the buffer", four, "3 t | 5 t i7 | 7 t | 9 t", BUFFER)
case("a room one byte too short", four, 9, 59)
case("a room one step too short", four, 9, 48)
case("a room for one step", four, 9, 12)
case("no room", four, 9, 0)
case("a room of one step for one step", [block(5)], "5 t", 12)
case("a room one byte too short for one step", [block(5)], 9, 11)

# A receiver's bag: with 31 in it the step is allowed, with 32 it isn't.
case("introduction between, 31", unnamed(block(7, bag=almost), leaving=0, bag=[i(7)]), "3 t | 5 t i7 | 7 t i3 l r | 9 t")
case("introduction between, 32", unnamed(block(7, bag=full), leaving=0, bag=[i(7)]), "3 t | 5 t | 7 t i3 l r | 9 t")
case("introduction between on the left, 31", unnamed(block(4, bag=almost), leaving=0, bag=[i(4)]), "3 t | 4 t i3 l r | 5 t i4 | 9 t")
case("introduction between on the left, 32", unnamed(block(4, bag=full), leaving=0, bag=[i(4)]), "3 t | 4 t i3 l r | 5 t | 9 t")
case("introduction that goes on, 31", unnamed(block(12), leaving=0, bag=[i(12)], bag9=almost), "3 t | 5 t i12 | 9 t i3 l r | 12 t")
case("introduction that goes on, 32", unnamed(block(12), leaving=0, bag=[i(12)], bag9=full), "3 t | 9 t i3 l r | 12 t")
case("remove-left, 31", unnamed(leaving=0, bag=[L], bag3=almost), "3 t i3 l r | 5 t l | 9 t")
case("remove-left, 32", unnamed(leaving=0, bag=[L], bag3=full), "3 t i3 l r | 9 t")
case("remove-right, 31", unnamed(bag=[R], bag9=almost), "3 t | 5 t r | 9 t i3 l r")
case("remove-right, 32", unnamed(bag=[R], bag9=full), "3 t | 9 t i3 l r")
case("exit, 31 at the left", unnamed(bag3=almost), "3 t i3 l r | 5 t x | 9 t")
case("exit, 32 at the left", unnamed(bag3=full), "3 t i3 l r | 9 t")
case("exit, 31 at the right", unnamed(bag9=almost), "3 t | 5 t x | 9 t i3 l r")
case("exit, 32 at the right", unnamed(bag9=full), "3 t | 9 t i3 l r")
case("an exit that sends nothing, left full: the timeout would", unnamed(right=0, bag3=full), "3 t i3 l r | 5 x | 9 t")
case("an exit that sends nothing, right full: the timeout would", unnamed(left=0, bag9=full), "3 t | 5 x | 9 t i3 l r")
case("remove-left, leaving, left full: nothing is sent", unnamed(bag=[L], bag3=full), "3 t i3 l r | 5 l | 9 t")
case("introductions of both neighbours, both full: nothing is sent", unnamed(leaving=0, bag=[i(9), i(3)], bag3=full, bag9=full),
     "3 t i3 l r | 5 i3 i9 | 9 t i3 l r")
case("a full bag at the station itself", unnamed(leaving=0, bag=full), "3 t | 5 t i3 l r | 9 t")

# Copies are one delivery; kinds before numbers, whatever the order in the bag.
case("copies of three messages", [block(5, bag=[R, i(9), L, i(5), R, i(9)]), block(9)], "5 t i5 i9 l r | 9 t")
case("32 copies of one message", [block(5, bag=[i(5)] * 32)], "5 t i5")
case("31 copies and another", [block(5, bag=[R] * 31 + [L])], "5 t l r")
case("remove-left and remove-right", [block(5, bag=[L, R])], "5 t l r")
case("remove-right and remove-left", [block(5, bag=[R, L])], "5 t l r")
case("removals and the largest station", [block(5, bag=[R, L, i(999999)]), block(999999)], "5 t i999999 l r | 999999 t")
case("numbers by size, not by digits", [block(5, bag=[i(100), i(9), i(20), i(5)]), block(9), block(20), block(100)],
     "5 t i5 i9 i20 i100 | 9 t | 20 t | 100 t")

# Who may exit.
case("a sole leaving station", [block(5, leaving=1)], "5 t x")
case("a sole leaving station, the largest", [block(999999, leaving=1)], "999999 t x")
case("a sole staying station", [block(5)], "5 t")
case("staying, though nothing names it", unnamed(leaving=0), "3 t | 5 t | 9 t")
case("leaving, its own introduction in its bag", [block(5, leaving=1, bag=[i(5)])], "5 t i5")
case("leaving, a bag introduces it", unnamed(block(12, bag=[i(3), i(5)])), "3 t | 5 t | 9 t | 12 t i3 i5")
case("leaving, its left neighbour's bag introduces it", unnamed(bag3=[i(5)]), "3 t i5 | 5 t | 9 t")
case("leaving, the right of another", unnamed(block(2, right=5)), "2 t | 3 t | 5 t | 9 t")
case("leaving, the left of another", unnamed(block(12, left=5)), "3 t | 5 t | 9 t | 12 t")
case("leaving, its neighbours hold it", around(leaving=1), "3 t | 5 t | 9 t")
case("leaving, a remove in another bag names nobody", [block(3, bag=[L, R]), block(5, leaving=1, left=3)], "3 t l r | 5 t x")
case("leaving, all of three", [block(5, leaving=1, right=9), block(7, leaving=1), block(9, leaving=1, left=7)], "5 t x | 7 t | 9 t")

# 64 stations: in a line, and with full bags. The longest list has 64 timeouts and 32 deliveries at each station.
longest = [block(k, bag=[i(q) for q in range(32, 0, -1)]) for k in range(1, 65)]
longest_says = " | ".join("%d t " % k + " ".join("i%d" % q for q in range(1, 33)) for k in range(1, 65))
case("64 in a line", line64, " | ".join("%d t" % k for k in range(1, 65)))
case("the longest list, in a room of its length", longest, longest_says, 25344)
case("the longest list, in a room one byte too short", longest, 9, 25343)
case("the longest list, in a longer room", longest, longest_says, BUFFER)
case("64 that may all exit", [block(k, leaving=1) for k in range(64, 0, -1)], " | ".join("%d t x" % k for k in range(1, 65)))


def crowded(leaving):
    """64 in a line, each with a full bag: its neighbours and itself introduced, and the rest removals."""
    bags = {k: [i(q) for q in (k - 1, k, k + 1) if 1 <= q <= 64] for k in range(1, 65)}
    return [block(k, k - 1, (k + 1) % 65, leaving, bag + [L] * 15 + [R] * (17 - len(bag))) for k, bag in bags.items()]


case("64 in a line with full bags", crowded(0),
     " | ".join(["1 i1 i2 l"] + ["%d i%d i%d i%d" % (k, k - 1, k, k + 1) for k in range(2, 64)] + ["64 i63 i64 r"]))
case("64 in a line with full bags, all leaving", crowded(1),
     " | ".join(["1 i1 i2 l"] + ["%d i%d i%d i%d l" % (k, k - 1, k, k + 1) for k in range(2, 64)] + ["64 i63 i64 l r"]))


# The same table stored in other orders gives the same list.
def same_list(title, table, seeds, says=None):
    """The table in written order and then shuffled."""
    line = read_table(b"".join(table))
    first = len(cases)
    case(title, [write_table(line)], says)
    for seed in seeds:
        case(title + ", shuffled", stored(line, Shuffle(seed)), says)
    assert len({table for _, table, *_ in cases[first:]}) == 1 + len(seeds), title
    assert all(listed == cases[first][4] for *_, listed in cases[first:]), title


same_list("a mixed table", mixed, (1, 2, 3), "1 t i2 i8 r | 2 t l r | 5 t i1 i2 i5 i9 | 8 t i1 i9 l r | 9 t | 999999 t i2 i5 i8 l")
same_list("64 in a line with full bags", crowded(0), (4,))
same_list("the start of the long run", [write_table(situations.start)], (5, 6))
same_list("the table that the long run leaves", [write_table(situations.line)], (7,))

# A table that is refused, in a long room, and in none: 1 to 7 before 9.
refused = [(title, table, number) for title, table, number in tables.cases if number and (title, table, number) not in tables.sites]
for title, table, number in refused:
    case(title, [table], number, 26000)
for number in range(1, 8):
    title, table = next((title, table) for title, table, fault in refused if fault == number)
    case(title + ", no room", [table], number, 0)
case("four stations and a byte, a room one byte too short for the list of the four", four + [b"\0"], 1, 59)
case("the longest list's table with its last block spoilt, a short room", longest[:63] + [bytes(512)], 3, 25343)

# Every other table of the program `situations`.
for title, table, *_ in situations.cases:
    if table not in [known for _, known, *_ in cases]:
        case("before the run: " + title, [table])

# Tables with site codes (document 02, T-05), which play no part, and those refused for one.
case("codes that are the numbers of stations", map(at_site, mixed, (8, 9, 2, 5, 1, 9999)),
     "1 t i2 i8 r | 2 t l r | 5 t i1 i2 i5 i9 | 8 t i1 i9 l r | 9 t | 999999 t i2 i5 i8 l")
case("codes that are the number of the one that may exit", map(at_site, unnamed(bag3=almost), (5, 5, 5)), "3 t i3 l r | 5 t x | 9 t")
case("codes of the longest list", [at_site(data, 9999) for data in longest], longest_says, 25344)
case("codes of the longest list, in a room one byte too short", [at_site(data, 9999) for data in longest], 9, 25343)
for title, table, number in tables.sites:
    case(title, [table], number or None, 26000)
case("site 10,000, no room", [block(5, site=10000)], 4, 0)

assert {answer for _, _, _, answer, _ in cases} == {0, 1, 2, 3, 4, 5, 6, 7, 9}

# ---- what is written ----


def printed(place, answer, listed):
    """The lines of a case."""
    return (["case %d" % place, "answer %d filled %d" % (answer, len(listed))]
            + ["%d %d %d %d" % struct.unpack("<HHII", record) for record in listed] + ["rest kept"])


if __name__ == "__main__":
    put("crates/first_steps/data/cases.bin", b"".join(struct.pack("<II", len(table), room) + table for _, table, room, _, _ in cases))
    put("crates/first_steps/stdout", "".join("\n".join(printed(k, answer, listed)) + "\n"
                                             for k, (_, _, _, answer, listed) in enumerate(cases, 1)))
    print("%d cases, %d steps listed" % (len(cases), sum(len(listed) for *_, listed in cases)))
