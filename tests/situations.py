#!/usr/bin/env python3
"""Writes the runs that the program `situations` makes, and what it must print.

Below is a reading of document 01 in plain Python, made from the document before the crates of the machine were opened: the check
(1 to 7), the run (8 to 15), the two questions and the printed listing; and of document 02: why a station may not leave (T-02), what
lasts in line (T-04), and the site codes (T-05). The thirteen situations, the printed example and most other cases also say by hand what
must be printed, and the script stops if the reading gives another. Run it in the repository's root; it writes
crates/situations/data/cases.bin, crates/situations/stdout and tests/questions.txt, which are kept in the repository (outputs.py: or
writes them below another folder).

A case in cases.bin is three numbers of 32 bits (length of the table, of the step list, of the room), the table and the
step list. A line of questions.txt is a case and a question that is asked of its table as it is before the run: `leave`, a
station, the number answered, the reason and the holder; or `line`, the number answered and yes (1) or no (0), which is 0 at
every number but 0.

first_steps.py takes the reading and the tables from here; nothing is written then.
"""
import struct

import tables
from layout import DELIVER, EXIT, INTRODUCTION, REMOVE_LEFT, REMOVE_RIGHT, TIMEOUT
from layout import at_site, block, changed, line64, resealed, step
from outputs import put

# ---- the reading of documents 01 and 02 ----

NO_REASON, MAY_LEAVE, OWN_BAG, HELD_BY = range(4)       # as include/station_line.h has them


class Station:
    def __init__(self, left, right, leaving, bag, site=0):
        self.left, self.right, self.leaving, self.bag, self.site = left, right, leaving, bag, site


def is_number(n):
    return 1 <= n <= 999999


def is_message(kind, number):
    return is_number(number) if kind == INTRODUCTION else kind in (REMOVE_LEFT, REMOVE_RIGHT) and number == 0


def blocks_of(table):
    return [table[a:a + 512] for a in range(0, len(table), 512)]


def well_summed(data):
    return sum(struct.unpack("<256H", data)) % 65536 == 65535


def in_layout(data):
    layout, mark, station, left, right, count, site = struct.unpack("<HHIIIHH", data[:20])
    places = [struct.unpack("<HHI", data[a:a + 8]) for a in range(20, 276, 8)]
    return (layout == 1 and mark in (0, 1) and is_number(station)
            and (left == 0 or is_number(left)) and (right == 0 or is_number(right)) and count <= 32
            and site <= 9999        # "It refuses a code above 9,999 with 4" (document 02, T-05)
            and all(is_message(kind, number) and zero == 0 for kind, zero, number in places[:count])
            and all(place == (0, 0, 0) for place in places[count:]) and not any(data[276:510]))


def read_block(data):
    _, mark, station, left, right, count, site = struct.unpack("<HHIIIHH", data[:20])
    bag = [struct.unpack("<HxxI", data[a:a + 8]) for a in range(20, 20 + 8 * count, 8)]
    return station, Station(left, right, mark == 1, bag, site)


def names(here):
    """The stations that a station is linked to."""
    return [q for q in (here.left, here.right) if q] + [q for kind, q in here.bag if kind == INTRODUCTION]


def check(table):
    """The smallest number of 1 to 7 that applies, or 0."""
    if len(table) % 512 != 0:
        return 1
    blocks = blocks_of(table)
    if len(blocks) > 64:
        return 2
    if not all(well_summed(b) for b in blocks):
        return 3
    if not all(in_layout(b) for b in blocks):
        return 4
    stations = [read_block(b) for b in blocks]
    if any((s.left and s.left >= p) or (s.right and s.right <= p) for p, s in stations):
        return 5
    present = [p for p, _ in stations]
    if len(set(present)) < len(present):
        return 6
    if any(q not in present for _, s in stations for q in names(s)):
        return 7
    return 0


def read_table(table):
    return dict(read_block(b) for b in blocks_of(table))


def write_table(line):
    """Blocks by rising station number, messages by kind and then by number."""
    return b"".join(block(p, s.left, s.right, int(s.leaving), sorted(s.bag), site=s.site) for p, s in sorted(line.items()))


def leave_reason(line, p):
    """What the leave question finds (document 02, T-02): a reason, and the smallest holder or 0."""
    if line[p].bag:
        return OWN_BAG, 0
    holders = [q for q, s in line.items() if q != p and p in names(s)]
    return (HELD_BY, min(holders)) if holders else (MAY_LEAVE, 0)


def nidec(line, p):
    return leave_reason(line, p) == (MAY_LEAVE, 0)


def after_introduction(p, here, q):
    """Left and right after an introduction of q is delivered to p, and what is sent."""
    left, right = here.left, here.right
    if q > p:
        if not right:
            return left, q, []
        if q < right:
            return left, q, [(q, (INTRODUCTION, right))]
        if q == right:
            return left, right, []
        return left, right, [(right, (INTRODUCTION, q))]
    if q < p:
        if not left:
            return q, right, []
        if q > left:
            return q, right, [(q, (INTRODUCTION, left))]
        if q == left:
            return left, right, []
        return left, right, [(left, (INTRODUCTION, q))]
    return left, right, []


def after(p, here, action, kind, number):
    """Left and right after a step at p that may be done, and what is sent: pairs of a receiver and a message."""
    left, right = here.left, here.right
    if action == TIMEOUT:
        to_left = (REMOVE_RIGHT, 0) if here.leaving else (INTRODUCTION, p)
        to_right = (REMOVE_LEFT, 0) if here.leaving else (INTRODUCTION, p)
        return left, right, [(q, m) for q, m in ((left, to_left), (right, to_right)) if q]
    if action == EXIT:
        return 0, 0, [(right, (INTRODUCTION, left)), (left, (INTRODUCTION, right))] if left and right else []
    if kind == INTRODUCTION:
        return after_introduction(p, here, number)
    if kind == REMOVE_LEFT and left and not here.leaving:
        return 0, right, [(left, (INTRODUCTION, p))]
    if kind == REMOVE_RIGHT and right:
        return left, 0, [(right, (INTRODUCTION, p))]
    return left, right, []


def malformed(action, kind, p, number):
    if action not in (TIMEOUT, DELIVER, EXIT) or not is_number(p):
        return True
    return not is_message(kind, number) if action == DELIVER else (kind, number) != (0, 0)


def do_step(line, record):
    """One step over the line, which is changed where the number returned is 0 and else is left as it was."""
    action, kind, p, number = struct.unpack("<HHII", record)
    if malformed(action, kind, p, number):
        return 10
    if p not in line:
        return 11
    here = line[p]
    if action == DELIVER and (kind, number) not in here.bag:
        return 12
    if action == EXIT and not here.leaving:
        return 13
    if action == EXIT and not nidec(line, p):
        return 14
    left, right, sent = after(p, here, action, kind, number)
    receivers = [q for q, _ in sent]
    assert p not in receivers and len(set(receivers)) == len(receivers)
    if any(len(line[q].bag) >= 32 for q in receivers):
        return 15
    if action == DELIVER:
        here.bag.remove((kind, number))
    here.left, here.right = left, right
    for q, message in sent:
        line[q].bag.append(message)
    if action == EXIT:
        del line[p]
    return 0


def run(table, steps, room):
    """The answer, the steps done, the reason with its holder, and the table written, None where no table is."""
    nothing = NO_REASON, 0
    fault = check(table)
    if fault:
        return fault, 0, nothing, None
    if len(steps) % 12 != 0 or len(steps) > 4096 * 12:
        return 8, 0, nothing, None
    if room < len(table):
        return 9, 0, nothing, None
    line, done = read_table(table), 0
    for a in range(0, len(steps), 12):
        answer = do_step(line, steps[a:a + 12])
        if answer:
            held, = struct.unpack_from("<I", steps, a + 4)
            return answer, done, leave_reason(line, held) if answer == 14 else nothing, write_table(line)
        done += 1
    return 0, done, nothing, write_table(line)


def may_leave(table, p):
    """The leave question: its number, the reason and the holder."""
    fault = check(table)
    if fault:
        return fault, NO_REASON, 0
    line = read_table(table)
    return (0, *leave_reason(line, p)) if p in line else (11, NO_REASON, 0)


def in_line(table):
    """The line question: its number, and yes or no."""
    fault = check(table)
    if fault:
        return fault, 0
    line = read_table(table)
    present = [0] + sorted(line) + [0]
    neighbours = all((line[p].left, line[p].right) == (below, above) for below, p, above in zip(present, present[1:], present[2:]))
    # "no bag holds a remove-left or remove-right, and no station is leaving" (document 02, T-04)
    waiting = {kind for s in line.values() for kind, _ in s.bag}
    return 0, int(neighbours and waiting <= {INTRODUCTION} and not any(s.leaving for s in line.values()))


def word(message):
    kind, number = message
    return "i%d" % number if kind == INTRODUCTION else "l" if kind == REMOVE_LEFT else "r"


def listing(answer, done, reason, table):
    """The lines of the printed listing; the stations come from the table as it is written."""
    # "the printed first line then ends in `bag`, or `held-by` and the station number" (document 02, T-02)
    why = {(NO_REASON, 0): "", (OWN_BAG, 0): " bag"}.get(reason, " held-by %d" % reason[1])
    lines = ["answer %d done %d stations %d%s" % (answer, done, len(table or b"") // 512, why)]
    for data in blocks_of(table or b""):
        p, s = read_block(data)
        sides = ["%d" % q if q else "-" for q in (s.left, s.right)]
        # "its code at the end as one word, `@` with the number, or nothing for 0" (document 02, T-05)
        site = ["@%d" % s.site] if s.site else []
        lines.append(" ".join(["%d" % p] + sides + ["leave" if s.leaving else "stay"] + [word(m) for m in s.bag] + site))
    return lines


# ---- the cases ----

cases = []


def case(title, table, steps=b"", room=None, says=None):
    """Adds a case. The room is longer than the table unless said; `says` is the listing that document 01 asks for."""
    table, steps = b"".join(table), b"".join(steps)
    room = len(table) + 600 if room is None else room
    assert len(table) <= 33280 and len(steps) <= 49164 and room <= 40000, title
    answer, done, reason, written = run(table, steps, room)
    assert (written is None) == (1 <= answer <= 9), title
    assert written is None or (check(written) == 0 and len(written) <= len(table)), title
    assert (answer == 14) == (reason[0] in (OWN_BAG, HELD_BY)) == (reason[0] != NO_REASON), title
    lines = listing(answer, done, reason, written)
    assert says is None or lines == says.split(" | "), (title, lines)
    cases.append((title, table, steps, room, answer, lines))
    return written


def i(number):
    return INTRODUCTION, number


L, R = (REMOVE_LEFT, 0), (REMOVE_RIGHT, 0)


def timeout(p):
    return step(TIMEOUT, p)


def deliver(p, message):
    return step(DELIVER, p, *message)


def leave(p):
    return step(EXIT, p)


def around(*others, left=3, right=9, leaving=0, bag=()):
    """Station 5 between 3 and 9, and other blocks."""
    return [block(3, right=5), block(5, left, right, leaving, bag), block(9, left=5), *others]


def unnamed(*others, left=3, right=9, leaving=1, bag=(), bag3=(), bag9=()):
    """The same, but 3 and 9 have no neighbours: nothing names 5."""
    return [block(3, bag=bag3), block(5, left, right, leaving, bag), block(9, bag=bag9), *others]


full = [i(3)] * 20 + [L] * 7 + [R] * 5
full_words = " i3" * 20 + " l" * 7 + " r" * 5
almost = [i(3)] * 20 + [L] * 6 + [R] * 5
four = [block(3, right=5), block(5, left=3, right=9, bag=[i(7)]), block(7), block(9, left=5)]

# The thirteen situations, and the example of the printed listing.
case("the printed listing", four, [deliver(5, i(7))], None,
     "answer 0 done 1 stations 4 | 3 - 5 stay | 5 3 7 stay | 7 - - stay i9 | 9 5 - stay")
case("situation 1", around(block(7), bag=[i(7)]), [deliver(5, i(7))], None,
     "answer 0 done 1 stations 4 | 3 - 5 stay | 5 3 7 stay | 7 - - stay i9 | 9 5 - stay")
case("situation 2, with two copies", around(bag=[i(9), i(9)]), [deliver(5, i(9))], None,
     "answer 0 done 1 stations 3 | 3 - 5 stay | 5 3 9 stay i9 | 9 5 - stay")
case("situation 3", around(block(12), bag=[i(12)]), [deliver(5, i(12))], None,
     "answer 0 done 1 stations 4 | 3 - 5 stay | 5 3 9 stay | 9 5 - stay i12 | 12 - - stay")
case("situation 4", around(block(12), right=0, bag=[i(12)]), [deliver(5, i(12))], None,
     "answer 0 done 1 stations 4 | 3 - 5 stay | 5 3 12 stay | 9 5 - stay | 12 - - stay")
case("situation 5, with two copies", around(bag=[i(5), i(5)]), [deliver(5, i(5))], None,
     "answer 0 done 1 stations 3 | 3 - 5 stay | 5 3 9 stay i5 | 9 5 - stay")
case("situation 6", around(bag=[L]), [deliver(5, L)], None,
     "answer 0 done 1 stations 3 | 3 - 5 stay i5 | 5 - 9 stay | 9 5 - stay")
case("situation 7, with two copies", around(leaving=1, bag=[L, L]), [deliver(5, L)], None,
     "answer 0 done 1 stations 3 | 3 - 5 stay | 5 3 9 leave l | 9 5 - stay")
case("situation 8", around(leaving=1, bag=[R]), [deliver(5, R)], None,
     "answer 0 done 1 stations 3 | 3 - 5 stay | 5 3 - leave | 9 5 - stay i5")
case("situation 9", around(leaving=1), [timeout(5)], None,
     "answer 0 done 1 stations 3 | 3 - 5 stay r | 5 3 9 leave | 9 5 - stay l")
case("situation 10", unnamed(), [leave(5)], None,
     "answer 0 done 1 stations 2 | 3 - - stay i9 | 9 - - stay i3")
case("situation 11", unnamed(bag=[L]), [leave(5)], None,
     "answer 14 done 0 stations 3 bag | 3 - - stay | 5 3 9 leave l | 9 - - stay")
case("situation 12, 32 in the bag of 9", unnamed(leaving=0, bag9=full), [timeout(5)], None,
     "answer 15 done 0 stations 3 | 3 - - stay | 5 3 9 stay | 9 - - stay" + full_words)
case("situation 12, 31 in the bag of 9", unnamed(leaving=0, bag9=almost), [timeout(5)], None,
     "answer 0 done 1 stations 3 | 3 - - stay i5 | 5 3 9 stay | 9 - - stay" + " i3" * 20 + " i5" + " l" * 6 + " r" * 5)
written = case("situation 13", [block(5, leaving=1)], [leave(5)], None, "answer 0 done 1 stations 0")
assert written == b""

# The edges that the document names.
case("64 blocks are read", line64, [], None,
     " | ".join(["answer 0 done 0 stations 64", "1 - 2 stay"] + ["%d %d %d stay" % (k, k - 1, k + 1) for k in range(2, 64)]
                + ["64 63 - stay"]))
case("65 blocks", line64 + [block(65)], [], None, "answer 2 done 0 stations 0")
case("the empty table with the empty list, no room", [], [], 0, "answer 0 done 0 stations 0")
case("the empty table with the empty list, some room", [], [], 700, "answer 0 done 0 stations 0")
case("the check word of the document", [block(5, right=9, bag=[i(7)])[:510] + b"\xe7\xff", block(7), block(9)], [], None,
     "answer 0 done 0 stations 3 | 5 - 9 stay i7 | 7 - - stay | 9 - - stay")
case("an all-zero block", [bytes(512)], [], None, "answer 3 done 0 stations 0")
case("a step list of 13 bytes", four, [deliver(5, i(7)), b"\0"], None, "answer 8 done 0 stations 0")
pairs = [timeout(5), deliver(9, i(5))] * 2048
case("4,096 steps", [block(5, right=9), block(9)], pairs, None, "answer 0 done 4096 stations 2 | 5 - 9 stay | 9 5 - stay")
case("4,097 steps", [block(5, right=9), block(9)], pairs + [timeout(5)], None, "answer 8 done 0 stations 0")
case("a room of the table's length", four, [deliver(5, i(7))], 2048,
     "answer 0 done 1 stations 4 | 3 - 5 stay | 5 3 7 stay | 7 - - stay i9 | 9 5 - stay")
case("a longer room", four, [deliver(5, i(7))], 40000,
     "answer 0 done 1 stations 4 | 3 - 5 stay | 5 3 7 stay | 7 - - stay i9 | 9 5 - stay")
case("a room one byte too short", four, [deliver(5, i(7))], 2047, "answer 9 done 0 stations 0")
case("no room", four, [], 0, "answer 9 done 0 stations 0")
case("a room too short for the table read, though not for the one left", [block(5, leaving=1)], [leave(5)], 511,
     "answer 9 done 0 stations 0")
case("64 blocks in a room of their length", line64, [timeout(64)], 32768)
case("64 blocks in a room one byte too short", line64, [timeout(64)], 32767, "answer 9 done 0 stations 0")
case("the largest station", [block(999999, bag=[i(1)]), block(1, right=999999)], [deliver(999999, i(1)), timeout(1)], None,
     "answer 0 done 2 stations 2 | 1 - 999999 stay | 999999 1 - stay i1")
case("a bag of 31", [block(3, bag=almost), block(9)], [], None,
     "answer 0 done 0 stations 2 | 3 - - stay" + " i3" * 20 + " l" * 6 + " r" * 5 + " | 9 - - stay")
case("a bag of 32", [block(3, bag=full), block(9)], [], None,
     "answer 0 done 0 stations 2 | 3 - - stay" + full_words + " | 9 - - stay")

# A table that is refused, with a step that could be done.
spoilt = changed(block(5), 500, 1)
for title, table, number in [
        ("511 bytes", [block(5)[:511]], 1),
        ("one byte", [b"\1"], 1),
        ("33,279 bytes", [b"".join(line64 + [block(65)])[:33279]], 1),
        ("513 bytes, with a check that fails", [spoilt, b"\0"], 1),
        ("65 blocks, all of them zero", [bytes(33280)], 2),
        ("a byte changed", [spoilt], 3),
        ("the last of 64 blocks spoilt", line64[:63] + [changed(line64[63], 511, 1)], 3),
        ("layout 2", [block(5, layout=2)], 4),
        ("flag bit 1", [block(5, leaving=2)], 4),
        ("a count of 33", [block(5, bag=[i(5)] * 33)], 4),
        ("a count of 33 over 32 places", [block(5, bag=[i(5)] * 32, count=33)], 4),
        ("a count below the places used", [block(5, bag=[i(5)] * 2, count=1)], 4),
        ("site 10,000", [block(5, site=10000)], 4),
        ("a gap byte of a place", [resealed(block(5, bag=[i(5)]), 22, 1)], 4),
        ("byte 509", [resealed(block(5), 509, 1)], 4),
        ("left above", [block(5, left=9), block(9)], 5),
        ("left is the station itself", [block(5, left=5)], 5),
        ("right is the station itself", [block(5, right=5)], 5),
        ("two blocks of one number, apart", [block(5), block(9), block(5, leaving=1)], 6),
        ("left absent", [block(5, left=3)], 7),
        ("an introduction of an absent station", [block(5, bag=[i(6)])], 7),
        ("3 and 4", [spoilt, block(9, layout=2)], 3),
        ("4 and 3", [block(9, layout=2), spoilt], 3),
        ("6 and 7", [block(5), block(5), block(7, left=3)], 6),
        ("7 and 6", [block(7, left=3), block(5), block(5)], 6)]:
    case(title, table, [timeout(5)], None, "answer %d done 0 stations 0" % number)

# 7 before 8, 8 before 9, 9 before 10, 8 before 10.
case("7 before 8", [block(5, left=3)], [b"\0"], None, "answer 7 done 0 stations 0")
case("1 before 9", [block(5)[:511]], [], 0, "answer 1 done 0 stations 0")
case("8 before 9", [block(5)], [b"\0" * 11], 511, "answer 8 done 0 stations 0")
case("8 before 10, a list too long", [block(5)], [bytes(4097 * 12)], None, "answer 8 done 0 stations 0")
case("8 before 10, not a multiple of 12", [block(5)], [bytes(4096 * 12 + 1)], None, "answer 8 done 0 stations 0")
case("9 before 10", [block(5)], [bytes(12)], 511, "answer 9 done 0 stations 0")

# 10, each way; the station of the step is present unless it can't be.
for title, record in [
        ("action 0", step(0, 5)),
        ("action 4", step(4, 5)),
        ("action 257", step(257, 5)),
        ("all zero", bytes(12)),
        ("all ones", b"\xff" * 12),
        ("a timeout with a kind", step(TIMEOUT, 5, 1, 5)),
        ("a timeout with a kind that needs no number", step(TIMEOUT, 5, 2)),
        ("a timeout with a number", step(TIMEOUT, 5, 0, 5)),
        ("an exit with a kind", step(EXIT, 5, 3)),
        ("an exit with a number", step(EXIT, 5, 0, 5)),
        ("a delivery of kind 0", step(DELIVER, 5, 0, 0)),
        ("a delivery of kind 0 with a number", step(DELIVER, 5, 0, 5)),
        ("a delivery of kind 4", step(DELIVER, 5, 4, 0)),
        ("a delivery of kind 257", step(DELIVER, 5, 257, 5)),
        ("a delivery of an introduction of 0", step(DELIVER, 5, 1, 0)),
        ("a delivery of an introduction of 1,000,000", step(DELIVER, 5, 1, 1000000)),
        ("a delivery of an introduction above three bytes", step(DELIVER, 5, 1, 5 + (1 << 24))),
        ("a delivery of remove-left with a number", step(DELIVER, 5, 2, 5)),
        ("a delivery of remove-right with a number", step(DELIVER, 5, 3, 5)),
        ("station 0", step(TIMEOUT, 0)),
        ("station 1,000,000", step(TIMEOUT, 1000000)),
        ("station above three bytes", step(TIMEOUT, 5 + (1 << 24))),
        ("10 before 11", step(TIMEOUT, 6, 1, 5)),
        ("10 before 11, at a delivery", step(DELIVER, 6, 2, 5)),
        ("10 before 13", step(EXIT, 5, 0, 1))]:
    case(title, [block(5, bag=[i(5), L, R])], [record], None, "answer 10 done 0 stations 1 | 5 - - stay i5 l r")

# 11 to 15, and which goes before which.
for title, record in [("timeout", timeout(6)), ("delivery", deliver(6, i(5))), ("exit", leave(6)),
                      ("999,999", timeout(999999))]:
    case("11, " + title, around(), [record], None, "answer 11 done 0 stations 3 | 3 - 5 stay | 5 3 9 stay | 9 5 - stay")
case("11, any station over the empty table", [], [timeout(5)], None, "answer 11 done 0 stations 0")
case("12, another number of the same kind", around(bag=[i(3)]), [deliver(5, i(9))], None,
     "answer 12 done 0 stations 3 | 3 - 5 stay | 5 3 9 stay i3 | 9 5 - stay")
case("12, another kind", around(bag=[L]), [deliver(5, R)], None,
     "answer 12 done 0 stations 3 | 3 - 5 stay | 5 3 9 stay l | 9 5 - stay")
case("12, a message of another bag", around(block(12, bag=[i(9)])), [deliver(5, i(9))], None,
     "answer 12 done 0 stations 4 | 3 - 5 stay | 5 3 9 stay | 9 5 - stay | 12 - - stay i9")
case("12, an absent station introduced", around(), [deliver(5, i(999999))], None,
     "answer 12 done 0 stations 3 | 3 - 5 stay | 5 3 9 stay | 9 5 - stay")
case("12 before 15", unnamed(bag9=full, bag3=full), [deliver(5, R)], None,
     "answer 12 done 0 stations 3 | 3 - - stay%s | 5 3 9 leave | 9 - - stay%s" % (full_words, full_words))
case("12, the one copy is gone", around(bag=[i(9)]), [deliver(5, i(9))] * 2, None,
     "answer 12 done 1 stations 3 | 3 - 5 stay | 5 3 9 stay | 9 5 - stay")
case("13, though NIDEC holds", unnamed(leaving=0), [leave(5)], None,
     "answer 13 done 0 stations 3 | 3 - - stay | 5 3 9 stay | 9 - - stay")
case("13 where NIDEC is false too", around(bag=[L]), [leave(5)], None,
     "answer 13 done 0 stations 3 | 3 - 5 stay | 5 3 9 stay l | 9 5 - stay")
case("13 before 15", unnamed(leaving=0, bag9=full), [leave(5)], None,
     "answer 13 done 0 stations 3 | 3 - - stay | 5 3 9 stay | 9 - - stay" + full_words)
case("14, the right of another", unnamed(block(2, right=5)), [leave(5)], None,
     "answer 14 done 0 stations 4 held-by 2 | 2 - 5 stay | 3 - - stay | 5 3 9 leave | 9 - - stay")
case("14, the left of another", unnamed(block(12, left=5)), [leave(5)], None,
     "answer 14 done 0 stations 4 held-by 12 | 3 - - stay | 5 3 9 leave | 9 - - stay | 12 5 - stay")
case("14, an introduction in a bag", unnamed(block(12, bag=[i(3), i(5)])), [leave(5)], None,
     "answer 14 done 0 stations 4 held-by 12 | 3 - - stay | 5 3 9 leave | 9 - - stay | 12 - - stay i3 i5")
case("14, its own introduction", [block(5, leaving=1, bag=[i(5)])], [leave(5)], None,
     "answer 14 done 0 stations 1 bag | 5 - - leave i5")
case("14 before 15", unnamed(bag=[L], bag9=full), [leave(5)], None,
     "answer 14 done 0 stations 3 bag | 3 - - stay | 5 3 9 leave l | 9 - - stay" + full_words)
case("an exit, messages elsewhere that name others", unnamed(bag3=[i(9), L, R], bag9=[i(3), i(3)]), [leave(5)], None,
     "answer 0 done 1 stations 2 | 3 - - stay i9 i9 l r | 9 - - stay i3 i3 i3")
case("15, exit, left full", unnamed(bag3=full), [leave(5)], None,
     "answer 15 done 0 stations 3 | 3 - - stay%s | 5 3 9 leave | 9 - - stay" % full_words)
case("15, exit, right full", unnamed(bag9=full), [leave(5)], None,
     "answer 15 done 0 stations 3 | 3 - - stay | 5 3 9 leave | 9 - - stay" + full_words)
case("an exit that sends nothing, left full", unnamed(right=0, bag3=full), [leave(5)], None,
     "answer 0 done 1 stations 2 | 3 - - stay%s | 9 - - stay" % full_words)
case("an exit that sends nothing, right full", unnamed(left=0, bag9=full), [leave(5)], None,
     "answer 0 done 1 stations 2 | 3 - - stay | 9 - - stay" + full_words)
case("15, timeout, left full", unnamed(leaving=0, bag3=full), [timeout(5)], None,
     "answer 15 done 0 stations 3 | 3 - - stay%s | 5 3 9 stay | 9 - - stay" % full_words)
case("15, leaving timeout, right full", unnamed(bag9=full), [timeout(5)], None,
     "answer 15 done 0 stations 3 | 3 - - stay | 5 3 9 leave | 9 - - stay" + full_words)
case("15, an introduction between", unnamed(block(7, bag=full), leaving=0, bag=[i(7)]), [deliver(5, i(7))], None,
     "answer 15 done 0 stations 4 | 3 - - stay | 5 3 9 stay i7 | 7 - - stay%s | 9 - - stay" % full_words)
case("15, an introduction that goes on", unnamed(block(12), leaving=0, bag=[i(12)], bag9=full), [deliver(5, i(12))], None,
     "answer 15 done 0 stations 4 | 3 - - stay | 5 3 9 stay i12 | 9 - - stay%s | 12 - - stay" % full_words)
case("15, remove-left", unnamed(leaving=0, bag=[L], bag3=full), [deliver(5, L)], None,
     "answer 15 done 0 stations 3 | 3 - - stay%s | 5 3 9 stay l | 9 - - stay" % full_words)
case("15, remove-right", unnamed(bag=[R], bag9=full), [deliver(5, R)], None,
     "answer 15 done 0 stations 3 | 3 - - stay | 5 3 9 leave r | 9 - - stay" + full_words)
case("remove-left, leaving, left full: nothing is sent", unnamed(bag=[L], bag3=full), [deliver(5, L)], None,
     "answer 0 done 1 stations 3 | 3 - - stay%s | 5 3 9 leave | 9 - - stay" % full_words)
case("a full bag at the station itself", unnamed(leaving=0, bag=full), [deliver(5, L), timeout(5), deliver(5, R)], None,
     "answer 0 done 3 stations 3 | 3 - - stay i5 | 5 - - stay%s | 9 - - stay i5 i5" % full_words[:-2].replace(" l", "", 1))

# The rest of what a step does.
case("the mirror image of 1", around(block(4), bag=[i(4)]), [deliver(5, i(4))], None,
     "answer 0 done 1 stations 4 | 3 - 5 stay | 4 - - stay i3 | 5 4 9 stay | 9 5 - stay")
case("the mirror image of 2", around(bag=[i(3), i(3)]), [deliver(5, i(3))], None,
     "answer 0 done 1 stations 3 | 3 - 5 stay | 5 3 9 stay i3 | 9 5 - stay")
case("the mirror image of 3", around(block(2), bag=[i(2)]), [deliver(5, i(2))], None,
     "answer 0 done 1 stations 4 | 2 - - stay | 3 - 5 stay i2 | 5 3 9 stay | 9 5 - stay")
case("the mirror image of 4", around(block(2), left=0, bag=[i(2)]), [deliver(5, i(2))], None,
     "answer 0 done 1 stations 4 | 2 - - stay | 3 - 5 stay | 5 2 9 stay | 9 5 - stay")
case("situations 1 and 3, leaving", around(block(7), block(12), leaving=1, bag=[i(12), i(7)]),
     [deliver(5, i(12)), deliver(5, i(7))], None,
     "answer 0 done 2 stations 5 | 3 - 5 stay | 5 3 7 leave | 7 - - stay i9 | 9 5 - stay i12 | 12 - - stay")
case("staying, remove-right", around(bag=[R]), [deliver(5, R)], None,
     "answer 0 done 1 stations 3 | 3 - 5 stay | 5 3 - stay | 9 5 - stay i5")
case("no left to remove, no right to remove", [block(5, bag=[L, L, R, R])], [deliver(5, R), deliver(5, L)], None,
     "answer 0 done 2 stations 1 | 5 - - stay l r")
case("the named message of several", around(block(7), bag=[i(9), i(7), i(3), R, L]), [deliver(5, i(7))], None,
     "answer 0 done 1 stations 4 | 3 - 5 stay | 5 3 7 stay i3 i9 l r | 7 - - stay i9 | 9 5 - stay")
case("staying, timeout", around(), [timeout(5)], None,
     "answer 0 done 1 stations 3 | 3 - 5 stay i5 | 5 3 9 stay | 9 5 - stay i5")
case("timeouts at both ends and alone", around(block(12)), [timeout(3), timeout(9), timeout(12)], None,
     "answer 0 done 3 stations 4 | 3 - 5 stay | 5 3 9 stay i3 i9 | 9 5 - stay | 12 - - stay")
case("leaving timeouts at both ends and alone", [block(3, right=5, leaving=1), block(5), block(9, left=5, leaving=1),
                                                 block(12, leaving=1)], [timeout(3), timeout(9), timeout(12)], None,
     "answer 0 done 3 stations 4 | 3 - 5 leave | 5 - - stay l r | 9 5 - leave | 12 - - leave")
case("equal messages add up", around(), [timeout(5)] * 3, None,
     "answer 0 done 3 stations 3 | 3 - 5 stay i5 i5 i5 | 5 3 9 stay | 9 5 - stay i5 i5 i5")
case("33 timeouts: the last is refused", unnamed(leaving=0), [timeout(5)] * 33, None,
     "answer 15 done 32 stations 3 | 3 - - stay%s | 5 3 9 stay | 9 - - stay%s" % (" i5" * 32, " i5" * 32))

# Refused in the middle: what was done is kept and written, what follows isn't done.
for answer, record, why in [(10, bytes(12), ""), (11, timeout(4), ""), (12, deliver(5, i(7)), ""), (13, leave(3), ""),
                            (14, leave(9), " held-by 7")]:
    case("%d after three steps" % answer, four[:3] + [block(9, left=5, leaving=1)],
         [deliver(5, i(7)), timeout(3), deliver(7, i(9)), record, timeout(7)], None,
         "answer %d done 3 stations 4%s | 3 - 5 stay | 5 3 7 stay i3 | 7 - 9 stay | 9 5 - leave" % (answer, why))
case("an exit, then a step of the one gone", unnamed(), [leave(5), deliver(9, i(3)), timeout(5), deliver(3, i(9))], None,
     "answer 11 done 2 stations 2 | 3 - - stay i9 | 9 3 - stay")
case("an exit, then both sides meet", unnamed(), [leave(5), deliver(9, i(3)), deliver(3, i(9))], None,
     "answer 0 done 3 stations 2 | 3 - 9 stay | 9 3 - stay")
case("three leave one after another", [block(5, leaving=1, right=9), block(7, leaving=1), block(9, leaving=1, left=7)],
     [leave(5), leave(9), leave(7), timeout(7)], None, "answer 11 done 3 stations 0")
case("a leaving station takes itself out", around(leaving=1),
     [timeout(5), deliver(3, R), deliver(9, L), leave(5), deliver(5, i(3)), deliver(5, i(9)), leave(5)], None,
     "answer 14 done 3 stations 3 bag | 3 - - stay | 5 3 9 leave i3 i9 | 9 - - stay")
case("the same, once its bag is empty", around(leaving=1),
     [timeout(5), deliver(3, R), deliver(9, L), deliver(5, i(3)), deliver(5, i(9)), leave(5), deliver(3, i(9)),
      deliver(9, i(3))], None,
     "answer 0 done 8 stations 2 | 3 - 9 stay | 9 3 - stay")

# Tables for the questions.
case("NIDEC holds for a staying station", [block(5)], [], None, "answer 0 done 0 stations 1 | 5 - - stay")
case("a remove in another bag names nobody", [block(3, bag=[L, R]), block(5, leaving=1, left=3)], [], None,
     "answer 0 done 0 stations 2 | 3 - - stay l r | 5 3 - leave")
case("in line, with messages", [block(3, right=5), block(5, left=3, bag=[i(3)])])
case("in line but for a left", [block(3, right=5), block(5)])
case("in line but for a right", [block(3), block(5, left=3)])
case("a neighbour passed over", [block(3, right=9), block(5, left=3, right=9), block(9, left=5)])


# The same table stored in other orders.
class Shuffle:
    """A fixed row of numbers, the same on every machine."""

    def __init__(self, seed):
        self.state = seed

    def below(self, n):
        self.state = (self.state * 6364136223846793005 + 1442695040888963407) % (1 << 64)
        return (self.state >> 33) % n

    def pick(self, items):
        return items[self.below(len(items))]

    def of(self, items):
        items = list(items)
        for k in range(len(items) - 1, 0, -1):
            j = self.below(k + 1)
            items[k], items[j] = items[j], items[k]
        return items


def stored(line, shuffle):
    """The blocks of a line, in some order and each with its messages in some order."""
    return [block(p, s.left, s.right, int(s.leaving), shuffle.of(s.bag), site=s.site) for p, s in shuffle.of(sorted(line.items()))]


def same_output(title, table, steps, seeds):
    """The table in written order and then shuffled; all give the same lines."""
    table = write_table(read_table(b"".join(table)))
    first = len(cases)
    case(title, [table], steps, len(table))
    for seed in seeds:
        case(title + ", shuffled", stored(read_table(table), Shuffle(seed)), steps, len(table) + 100 * seed)
    assert all(lines == cases[first][5] for _, _, _, _, _, lines in cases[first:])


mixed = [block(1, right=8, bag=[i(8), i(2), R, i(2)]), block(2, left=1, right=5, leaving=1, bag=[L, R, L]),
         block(5, left=2, right=8, bag=[i(9), i(1), i(5), i(9), i(2)]), block(9, leaving=1),
         block(8, left=5, right=999999, bag=[R, L, i(9), i(1), R]), block(999999, left=9, bag=[i(8), i(2), L, i(5)])]
same_output("a mixed table", mixed, [], (1, 2, 3))
same_output("steps over a mixed table", mixed,
            [deliver(5, i(9)), deliver(1, i(2)), timeout(2), deliver(8, R), deliver(999999, i(5)), timeout(999999),
             deliver(8, i(1)), deliver(2, L), deliver(5, i(5)), deliver(999999, L), deliver(1, R)], (4, 5))
same_output("steps over a mixed table, one refused", mixed, [deliver(5, i(9)), deliver(1, i(2)), leave(9), timeout(2)], (6,))

# A long run over 64 stations, chosen step by step among those that can be done; stations that may exit do.
shuffle = Shuffle(64)
numbers = sorted({1, 999999} | {1 + (k * k * 7919 + k * 104729) % 999998 for k in range(2, 64)})
assert len(numbers) == 64
start = {}
for k, p in enumerate(numbers):
    below, above = numbers[max(0, k - 6):k], numbers[k + 1:k + 7]
    bag = [i(shuffle.pick(numbers)) for _ in range(shuffle.below(4))]
    bag += [shuffle.pick([L, R]) for _ in range(shuffle.below(3))]
    start[p] = Station(shuffle.pick(below + [0]), shuffle.pick(above + [0]), k % 3 == 1, bag)

line = read_table(write_table(start))
chosen, exits = [], 0
while len(chosen) < 4096:
    ready = [p for p in sorted(line) if line[p].leaving and nidec(line, p)]
    holding = [p for p in sorted(line) if line[p].bag]
    if ready and shuffle.below(4):
        record = leave(shuffle.pick(ready))
    elif holding and shuffle.below(6):
        p = shuffle.pick(holding)
        record = deliver(p, shuffle.pick(sorted(line[p].bag)))
    else:
        record = timeout(shuffle.pick(sorted(line)))
    if do_step(line, record) == 0:
        chosen.append(record)
        exits += record[0] == EXIT
assert exits >= 12
same_output("a long run over 64 stations", [write_table(start)], chosen, (7,))
case("the long run, refused after 1,500 steps", stored(start, Shuffle(8)),
     chosen[:1500] + [timeout(999998)] + chosen[1500:-1])
half = case("the first half of the long run", stored(start, Shuffle(9)), chosen[:2048])
case("its second half", [half], chosen[2048:])
assert cases[-1][5][1:] == cases[-5][5][1:]
case("the table that the long run leaves", stored(line, Shuffle(10)))

# 64 stations in a line: every bag receives, a bag fills, the middle leaves.
case("a timeout at each of 64", line64, [timeout(k) for k in range(1, 65)])
case("a full bag in the middle of 64", line64, [timeout(32)] * 20 + [timeout(30)] * 32 + [timeout(32)] + [timeout(1)])

# What still holds a leaving station (document 02, T-02): each reason, and which of several is given.
leaver = block(5, leaving=1)
case("14, the smallest of three that hold it, stored last",
     [block(12, left=5), block(9, bag=[L, i(5)]), leaver, block(3, right=5)], [leave(5)], None,
     "answer 14 done 0 stations 4 held-by 3 | 3 - 5 stay | 5 - - leave | 9 - - stay i5 l | 12 5 - stay")
case("14, an introduction below a neighbour", [block(12, left=5), block(4, leaving=1, bag=[R, i(5), i(12)]), leaver],
     [leave(5)], None, "answer 14 done 0 stations 3 held-by 4 | 4 - - leave i5 i12 r | 5 - - leave | 12 5 - stay")
case("14, a neighbour below an introduction", [block(12, bag=[i(5)] * 32), block(7, left=5), leaver], [leave(5)], None,
     "answer 14 done 0 stations 3 held-by 7 | 5 - - leave | 7 5 - stay | 12 - - stay" + " i5" * 32)
case("14, its bag before a neighbour", around(leaving=1, bag=[R]), [leave(5)], None,
     "answer 14 done 0 stations 3 bag | 3 - 5 stay | 5 3 9 leave r | 9 5 - stay")
case("14, its own introduction before another's", unnamed(bag=[i(5)], bag3=[i(5)]), [leave(5)], None,
     "answer 14 done 0 stations 3 bag | 3 - - stay i5 | 5 3 9 leave i5 | 9 - - stay")
case("14, held by the largest", [leaver, block(999999, left=5), block(1, bag=[L, R])], [leave(5)], None,
     "answer 14 done 0 stations 3 held-by 999999 | 1 - - stay l r | 5 - - leave | 999999 5 - stay")
case("14, the holder is another one later", around(leaving=1),
     [timeout(5), deliver(3, R), deliver(5, i(3)), leave(5), deliver(9, L)], None,
     "answer 14 done 3 stations 3 held-by 9 | 3 - - stay | 5 3 9 leave | 9 5 - stay l")
case("14, the holder has passed the introduction on", [block(7, left=3, bag=[i(2)]), block(3), block(2, leaving=1)],
     [deliver(7, i(2)), leave(2)], None, "answer 14 done 1 stations 3 held-by 3 | 2 - - leave | 3 - - stay i2 | 7 3 - stay")
case("14, the holder has taken it as a neighbour", [block(3, bag=[i(5)]), leaver], [deliver(3, i(5)), leave(5)], None,
     "answer 14 done 1 stations 2 held-by 3 | 3 - 5 stay | 5 - - leave")
several = [block(1, right=9, bag=[i(8), i(2)]), block(2, left=1, right=5, bag=[L, R, L]), block(5, left=2, bag=[i(9)]),
           block(8, left=5, right=9), block(9, leaving=1), block(999999, left=9)]
same_output("14, five hold it", several, [timeout(9), leave(9)], (11, 12))
bags = {k: [L] * 31 + [i(40) if k == 1 else R] for k in range(64, 0, -1)}
case("14, the last place of the last of 63 full bags",
     [block(40, leaving=1)] + [block(k, bag=bags[k]) for k in bags if k != 40], [leave(40)])
assert cases[-1][5][0] == "answer 14 done 0 stations 64 held-by 1"

# In line (document 02, T-04), asked by the questions below: what may wait, and each cause of a no by itself.


def lined(title, yes, table, steps=(), says=None):
    case(title, table, steps, None, says)
    assert in_line(b"".join(table)) == (0, int(yes)), title


def three(bag5=(), right3=5, left9=5, leaving9=0):
    return [block(9, left=left9, leaving=leaving9, bag=[i(3)] * 2), block(3, right=right3, bag=[i(5), i(9)]), block(5, left=3, right=9, bag=bag5)]


itself = [i(5), i(3), i(9)]
lined("in line, every introduction that waits is delivered", True, three(itself),
      [deliver(9, i(3)), deliver(3, i(9)), deliver(5, i(5)), deliver(5, i(9)), deliver(5, i(9)), deliver(5, i(3)), deliver(5, i(3)), deliver(3, i(5)), deliver(9, i(3))],
      "answer 0 done 9 stations 3 | 3 - 5 stay | 5 3 9 stay i3 | 9 5 - stay")
lined("in line, a full bag refuses what would be passed on", True, three([i(5)] * 32), [deliver(3, i(9))],
      "answer 15 done 0 stations 3 | 3 - 5 stay i5 i9 | 5 3 9 stay" + " i5" * 32 + " | 9 5 - stay i3 i3")
lined("in line, a sole station", True, [block(5, bag=[i(5)] * 32)])
lined("not in line, a right that passes 5 over", False, three(itself, right3=9))
lined("not in line, a left missing", False, three(itself, left9=0))
lined("not in line, a remove-left in the last place", False, three([i(5)] * 31 + [L]), [deliver(5, L)],
      "answer 0 done 1 stations 3 | 3 - 5 stay i5 i5 i9 | 5 - 9 stay" + " i5" * 31 + " | 9 5 - stay i3 i3")
lined("not in line, a remove-right in the first place", False, three([R] + itself))
lined("not in line, a remove-right without a right", False, [block(5, bag=[R])])
lined("not in line, one station leaving", False, three(itself, leaving9=1))
lined("not in line, a sole station leaving", False, [block(5, leaving=1)])


def sixty_four(last):
    """64 stations in line with full bags of introductions; the first station's last message is the one given."""
    return [block(k, left=k - 1, right=(k + 1) % 65, bag=[i(k)] * 31 + [last if k == 1 else i(65 - k)]) for k in range(64, 0, -1)]


lined("in line, 64 full bags", True, sixty_four(i(1)))
lined("not in line, a removal in the last place of the last of 64 full bags", False, sixty_four(R))

# Site codes (document 02, T-05): "Every step carries it unchanged. It plays no part in any order, step rule or NIDEC."


def answered(table, steps):
    """What a run and the questions say, with the codes left out of the lines printed."""
    stations = sorted(read_table(table)) if check(table) == 0 else []
    listed = [text.split(" @")[0] for text in listing(*run(table, steps, len(table)))]
    return listed, in_line(table), [may_leave(table, p) for p in stations]


def coded(title, codes, table, steps=(), says=None):
    """A case whose blocks have these codes in stored order. With none of them the answers are the same, but for the codes printed."""
    assert len(codes) == len(table), title
    with_codes = [at_site(b, code) for b, code in zip(table, codes)]
    assert answered(b"".join(with_codes), b"".join(steps)) == answered(b"".join(table), b"".join(steps)), title
    return case(title, with_codes, steps, None, says)


def over(title, codes, table, steps=(timeout(5),)):
    """Blocks that are good but for their codes."""
    assert len(codes) == len(table) and check(b"".join(table)) == 0, title
    case(title, map(at_site, table, codes), steps, None, "answer 4 done 0 stations 0")


# What a step does, at stations with codes: 3, 5, 9, and then the others.
coded("codes, an introduction between", (31, 52, 93, 74), around(block(7), bag=[i(7)]), [deliver(5, i(7))],
      "answer 0 done 1 stations 4 | 3 - 5 stay @31 | 5 3 7 stay @52 | 7 - - stay i9 @74 | 9 5 - stay @93")
coded("codes, an introduction between on the left", (31, 52, 93, 44), around(block(4), bag=[i(4)]), [deliver(5, i(4))],
      "answer 0 done 1 stations 4 | 3 - 5 stay @31 | 4 - - stay i3 @44 | 5 4 9 stay @52 | 9 5 - stay @93")
coded("codes, a first right", (31, 52, 93, 124), around(block(12), right=0, bag=[i(12), L]), [deliver(5, i(12))],
      "answer 0 done 1 stations 4 | 3 - 5 stay @31 | 5 3 12 stay l @52 | 9 5 - stay @93 | 12 - - stay @124")
coded("a code at the one that receives, and nowhere else", (0, 0, 1, 0), around(block(12), bag=[i(12)]), [deliver(5, i(12))],
      "answer 0 done 1 stations 4 | 3 - 5 stay | 5 3 9 stay | 9 5 - stay i12 @1 | 12 - - stay")
coded("a code at the one that sends, and nowhere else", (0, 1, 0, 0), around(block(12), bag=[i(12)]), [deliver(5, i(12))],
      "answer 0 done 1 stations 4 | 3 - 5 stay | 5 3 9 stay @1 | 9 5 - stay i12 | 12 - - stay")
coded("codes, remove-left", (300, 500, 900), around(bag=[L]), [deliver(5, L)],
      "answer 0 done 1 stations 3 | 3 - 5 stay i5 @300 | 5 - 9 stay @500 | 9 5 - stay @900")
coded("codes, remove-left at one that leaves", (300, 500, 900), around(leaving=1, bag=[L]), [deliver(5, L)],
      "answer 0 done 1 stations 3 | 3 - 5 stay @300 | 5 3 9 leave @500 | 9 5 - stay @900")
coded("codes, remove-right", (300, 500, 900), around(bag=[R]), [deliver(5, R)],
      "answer 0 done 1 stations 3 | 3 - 5 stay @300 | 5 3 - stay @500 | 9 5 - stay i5 @900")
coded("codes, remove-right at one that leaves", (300, 500, 900), around(leaving=1, bag=[R]), [deliver(5, R)],
      "answer 0 done 1 stations 3 | 3 - 5 stay @300 | 5 3 - leave @500 | 9 5 - stay i5 @900")
coded("codes, staying, timeout", (3000, 5000, 9000), around(), [timeout(5)],
      "answer 0 done 1 stations 3 | 3 - 5 stay i5 @3000 | 5 3 9 stay @5000 | 9 5 - stay i5 @9000")
coded("codes, leaving, timeout", (3000, 5000, 9000), around(leaving=1), [timeout(5)],
      "answer 0 done 1 stations 3 | 3 - 5 stay r @3000 | 5 3 9 leave @5000 | 9 5 - stay l @9000")
coded("codes, an exit between two", (3333, 5555, 9999), unnamed(), [leave(5)],
      "answer 0 done 1 stations 2 | 3 - - stay i9 @3333 | 9 - - stay i3 @9999")
coded("a code that goes with its station", (0, 5555, 0), unnamed(), [leave(5)],
      "answer 0 done 1 stations 2 | 3 - - stay i9 | 9 - - stay i3")
coded("codes on both sides of an exit without one", (3333, 0, 9999), unnamed(), [leave(5), deliver(9, i(3)), deliver(3, i(9))],
      "answer 0 done 3 stations 2 | 3 - 9 stay @3333 | 9 3 - stay @9999")
coded("codes, a leaving station takes itself out", (256, 1, 255), around(leaving=1),
      [timeout(5), deliver(3, R), deliver(9, L), deliver(5, i(3)), deliver(5, i(9)), leave(5), deliver(3, i(9)), deliver(9, i(3))],
      "answer 0 done 8 stations 2 | 3 - 9 stay @256 | 9 3 - stay @255")
assert coded("a code, a sole station exits", (9999,), [leaver], [leave(5)], "answer 0 done 1 stations 0") == b""

# The order, and the numbers from 1 to 9,999: 255 has the low byte alone, 256 the high one, and 257 both.
coded("codes that fall while the numbers rise, stored by rising code", (1, 20, 300, 4000), four[::-1], [deliver(5, i(7))],
      "answer 0 done 1 stations 4 | 3 - 5 stay @4000 | 5 3 7 stay @300 | 7 - - stay i9 @20 | 9 5 - stay @1")
coded("equal codes", (7, 7, 7, 7), four, [deliver(5, i(7)), timeout(9)],
      "answer 0 done 2 stations 4 | 3 - 5 stay @7 | 5 3 7 stay i9 @7 | 7 - - stay i9 @7 | 9 5 - stay @7")
coded("codes that are the numbers of other stations", (5, 9, 3, 5), four, [deliver(5, i(7)), deliver(7, i(9))],
      "answer 0 done 2 stations 4 | 3 - 5 stay @5 | 5 3 7 stay @9 | 7 - 9 stay @3 | 9 5 - stay @5")
coded("codes of one byte and of two", (9999, 255, 256, 257, 1, 10, 9998), [block(k) for k in range(1, 8)], [timeout(4)],
      "answer 0 done 1 stations 7 | 1 - - stay @9999 | 2 - - stay @255 | 3 - - stay @256 | 4 - - stay @257 | 5 - - stay @1"
      " | 6 - - stay @10 | 7 - - stay @9998")
coded("codes behind a full bag, and beside it", (9999, 1), [block(3, bag=full), block(9)], [],
      "answer 0 done 0 stations 2 | 3 - - stay%s @9999 | 9 - - stay @1" % full_words)
coded("the largest station with the largest code", (9999, 9999), [block(999999, bag=[i(1)]), block(1, right=999999)],
      [deliver(999999, i(1)), timeout(1)],
      "answer 0 done 2 stations 2 | 1 - 999999 stay @9999 | 999999 1 - stay i1 @9999")

# Refused steps: the table is written with its codes. A code that is a station's number holds nobody.
coded("codes, 10 after two steps", (1, 2, 3, 4), four, [deliver(5, i(7)), timeout(3), bytes(12)],
      "answer 10 done 2 stations 4 | 3 - 5 stay @1 | 5 3 7 stay i3 @2 | 7 - - stay i9 @3 | 9 5 - stay @4")
coded("codes, 11 after an exit", (3333, 5555, 9999), unnamed(), [leave(5), timeout(5)],
      "answer 11 done 1 stations 2 | 3 - - stay i9 @3333 | 9 - - stay i3 @9999")
coded("codes, 12", (300, 500, 900), around(bag=[i(3)]), [deliver(5, i(9))],
      "answer 12 done 0 stations 3 | 3 - 5 stay @300 | 5 3 9 stay i3 @500 | 9 5 - stay @900")
coded("codes, 13", (300, 500, 900), unnamed(leaving=0), [leave(5)],
      "answer 13 done 0 stations 3 | 3 - - stay @300 | 5 3 9 stay @500 | 9 - - stay @900")
coded("codes, 14, its own bag", (300, 500, 900), unnamed(bag=[L]), [leave(5)],
      "answer 14 done 0 stations 3 bag | 3 - - stay @300 | 5 3 9 leave l @500 | 9 - - stay @900")
coded("codes, 14, the smallest holder has the largest code", (9999, 500, 1, 2), around(block(12, left=5), leaving=1), [leave(5)],
      "answer 14 done 0 stations 4 held-by 3 | 3 - 5 stay @9999 | 5 3 9 leave @500 | 9 5 - stay @1 | 12 5 - stay @2")
coded("codes that are the number of the one that exits", (5, 5, 5), unnamed(), [leave(5)],
      "answer 0 done 1 stations 2 | 3 - - stay i9 @5 | 9 - - stay i3 @5")
coded("codes, 15, timeout", (300, 500, 900), unnamed(leaving=0, bag9=full), [timeout(5)],
      "answer 15 done 0 stations 3 | 3 - - stay @300 | 5 3 9 stay @500 | 9 - - stay%s @900" % full_words)
coded("codes, 15, exit", (300, 500, 900), unnamed(bag3=full), [leave(5)],
      "answer 15 done 0 stations 3 | 3 - - stay%s @300 | 5 3 9 leave @500 | 9 - - stay @900" % full_words)

# Above 9,999. The low byte of 10,255 is that of 9,999, and the low byte of 10,240 is 0.
over("site 10,000 behind 9,999", (9999, 9999, 9999, 10000), four)
over("site 10,000 before 9,999", (10000, 9999, 9999, 9999), four)
for code in (10255, 10240, 16384, 32768, 65535):
    over("site %d" % code, (code,), [block(5)])
over("site 65,535 at the last of 64", [0] * 63 + [65535], line64)
over("4 for a site before 8", (10000,), [block(5)], [b"\0"])

# Many of them, in line (document 02, T-04) and not.
lined("in line, with codes that fall", True, list(map(at_site, three(itself), (1, 9999, 255))), [deliver(3, i(9))],
      "answer 0 done 1 stations 3 | 3 - 5 stay i5 @9999 | 5 3 9 stay i3 i5 i9 i9 @255 | 9 5 - stay i3 i3 @1")
coded("codes of 64 full bags", [9999] * 64, sixty_four(i(1)), [deliver(1, i(1))],
      " | ".join(["answer 0 done 1 stations 64", "1 - 2 stay" + " i1" * 31 + " @9999"]
                 + ["%d %d %s stay%s @9999" % (k, k - 1, k + 1 if k < 64 else "-",
                                               "".join(" i%d" % q for q in sorted([k] * 31 + [65 - k]))) for k in range(2, 65)]))
coded("codes of 64 stations and a full bag in the middle", range(9999, 9935, -1), line64,
      [timeout(32)] * 20 + [timeout(30)] * 32 + [timeout(32)])
same_output("codes in a mixed table", map(at_site, mixed, (9999, 1, 0, 256, 255, 1)),
            [deliver(5, i(9)), timeout(2), deliver(8, R), leave(9)], (13, 14))
coded("the first half of the long run, with codes", [1 + k * 4999 % 9999 for k in range(64)], stored(start, Shuffle(15)), chosen[:2048])

assert {answer for _, _, _, _, answer, _ in cases} == set(range(16))

# The check of this reading also gives each table of the program `checks` the number that tables.py names for it.
for title, table, number in tables.cases:
    assert check(table) == number, title

# ---- what is written ----

if __name__ == "__main__":
    put("crates/situations/data/cases.bin",
        b"".join(struct.pack("<III", len(table), len(steps), room) + table + steps for _, table, steps, room, _, _ in cases))
    put("crates/situations/stdout",
        "".join("\n".join(["case %d" % k] + lines + ["rest kept"]) + "\n" for k, (_, _, _, _, _, lines) in enumerate(cases, 1)))

    found, yes = [0, 0, 0, 0], 0
    asked, questions = [], []
    for k, (_, table, _, _, _, _) in enumerate(cases, 1):
        if table in asked:
            continue
        asked.append(table)
        present = sorted(read_table(table)) if check(table) == 0 else [5]
        for p in present + [q for q in (0, 6, 1000000, 4294967295) if q not in present]:
            number, reason, holder = may_leave(table, p)
            questions.append("%d leave %d %d %d %d\n" % (k, p, number, reason, holder))
            found[reason] += 1
        number, answer = in_line(table)
        questions.append("%d line %d %d\n" % (k, number, answer))
        yes += answer
    put("tests/questions.txt", "".join(questions))
    print("%d cases, %d exits in the long run, %d stations after it" % (len(cases), exits, len(line)))
    print("questions of %d tables, yes to line %d; leave refused %d, yes %d, own bag %d, held %d" % (len(asked), yes, *found))
