#!/usr/bin/env python3
"""The station line's library from Python, by ctypes alone: line.py [LIBRARY]

Makes the first table of docs/MACHINE.md and its one step, runs it, prints the listing, asks whether station 9 may leave, and calls the roll
of all stations. LIBRARY is the shared library, libstation_line.so.2 if not given; docs/FORMAT.md has the bytes.
"""
import ctypes
import struct
import sys

BLOCK, STEP = 512, 12
KINDS = {"i": 1, "l": 2, "r": 3}
TIMEOUT, DELIVER, EXIT = 1, 2, 3
MAY_LEAVE, OWN_BAG, HELD_BY = 1, 2, 3


class Ran(ctypes.Structure):
    _fields_ = [(name, ctypes.c_uint32) for name in ("answer", "done", "stations", "reason", "holder")]


class Filled(ctypes.Structure):
    _fields_ = [(name, ctypes.c_uint32) for name in ("answer", "filled")]


class Leave(ctypes.Structure):
    _fields_ = [(name, ctypes.c_uint32) for name in ("answer", "reason", "holder")]


def load(name):
    library = ctypes.CDLL(name)
    size, octets, number = ctypes.c_size_t, ctypes.c_char_p, ctypes.c_uint32
    library.station_line_version.restype = octets
    library.station_line_words.argtypes, library.station_line_words.restype = [number], octets
    library.station_line_run.argtypes, library.station_line_run.restype = [octets, size, octets, size, octets, size], Ran
    library.station_line_may_leave.argtypes, library.station_line_may_leave.restype = [octets, size, number], Leave
    numbers, records = ctypes.POINTER(number), ctypes.POINTER(Leave)
    library.station_line_roll_call.argtypes, library.station_line_roll_call.restype = [octets, size, numbers, size, records, size], Filled
    return library


def block(station, left=0, right=0, leaving=False, messages=(), site=0):
    """The 512 bytes of a station; messages such as "i7", "l", "r"; a site code of 0 is none."""
    made = struct.pack("<HHIIIHH", 1, leaving, station, left, right, len(messages), site)
    made += b"".join(struct.pack("<HHI", KINDS[m[0]], 0, int(m[1:] or 0)) for m in messages)
    made = made.ljust(BLOCK - 2, b"\0")
    return made + struct.pack("<H", (65535 - sum(struct.unpack("<255H", made))) % 65536)


def step(action, station, message="-"):
    return struct.pack("<HHII", action, KINDS.get(message[0], 0), station, int(message[1:] or 0))


def line(bytes_):
    """The listing's line of a block."""
    _, flags, station, left, right, count, site = struct.unpack_from("<HHIIIHH", bytes_)
    words = [str(station), str(left or "-"), str(right or "-"), "leave" if flags & 1 else "stay"]
    for k in range(count):
        kind, _, number = struct.unpack_from("<HHI", bytes_, 20 + 8 * k)
        words.append("%s%s" % ("?ilr"[kind], number or ""))
    return " ".join(words + ["@%d" % site] * (site != 0))


def why(found):
    """The words for what the leave question found, or for why a run stopped with 14; none where there is no reason."""
    return {MAY_LEAVE: ["yes"], OWN_BAG: ["bag"], HELD_BY: ["held-by", found.holder]}.get(found.reason, [])


def roll_call(library, table, stations):
    """Prints a line for each of these stations, as `station-line roll-call` does."""
    asked, records = (ctypes.c_uint32 * len(stations))(*stations), (Leave * len(stations))()
    filled = library.station_line_roll_call(table, len(table), asked, len(asked), records, len(records))
    if filled.answer != 0:
        sys.exit(library.station_line_words(filled.answer).decode())
    for station, record in zip(stations, records):
        print(station, *(why(record) or ["absent"]))


def main():
    library = load(sys.argv[1] if len(sys.argv) > 1 else "libstation_line.so.2")
    table = block(3, right=5) + block(5, left=3, right=9, messages=["i7"]) + block(7) + block(9, left=5)
    steps = step(DELIVER, 5, "i7")
    room = ctypes.create_string_buffer(len(table))
    ran = library.station_line_run(table, len(table), steps, len(steps), room, len(room))
    print("answer", ran.answer, "done", ran.done, "stations", ran.stations, *why(ran))
    if ran.answer != 0:
        sys.exit(library.station_line_words(ran.answer).decode())
    for k in range(ran.stations):
        print(line(room.raw[BLOCK * k:BLOCK * (k + 1)]))
    print("may 9 leave?", *why(library.station_line_may_leave(room.raw, BLOCK * ran.stations, 9)))
    roll_call(library, room.raw[:BLOCK * ran.stations], [3, 5, 7, 9])


main()
