"""Blocks and steps laid out byte by byte from document 01 ("The block", "The step list") and document 02 (T-05), with no help from the
crates."""
import struct

INTRODUCTION, REMOVE_LEFT, REMOVE_RIGHT = 1, 2, 3
TIMEOUT, DELIVER, EXIT = 1, 2, 3


def sealed(body):
    """510 bytes with their check word: the 256 words add up to 65,535."""
    total = sum(struct.unpack("<255H", body)) % 65536
    return body + struct.pack("<H", (65535 - total) % 65536)


def block(station, left=0, right=0, leaving=0, bag=(), layout=1, site=0, count=None, rest=b""):
    places = b"".join(struct.pack("<HHI", kind, 0, number) for kind, number in bag)
    head = struct.pack("<HHIIIHH", layout, leaving, station, left, right, len(bag) if count is None else count, site)
    body = (head + places).ljust(510 - len(rest), b"\0") + rest
    return sealed(body)


def changed(data, at, value):
    """One byte of a block changed, and the check word left as it was."""
    return data[:at] + bytes([value]) + data[at + 1:]


def resealed(data, at, value):
    return sealed(changed(data, at, value)[:510])


def at_site(data, site):
    """The same block with another site code, which "stands in bytes 18-19" (document 02, T-05)."""
    return sealed(data[:18] + struct.pack("<H", site) + data[20:510])


def step(action, station, kind=0, number=0):
    return struct.pack("<HHII", action, kind, station, number)


# 1 to 64, each with the next ones as its neighbours.
line64 = [block(k, left=k - 1, right=(k + 1) % 65) for k in range(1, 65)]
