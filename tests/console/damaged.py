#!/usr/bin/env python3
"""Damaged tables at random, from the tables named: damaged.py PROGRAM COUNT TABLE..

The number of the check is the library's. Of each table `check` must name a block for 3 to 7, the smallest number that `check --all` names
must be the check's, and `dump --damaged` must read it, whatever it is. What `dump --damaged` prints of a table that is accepted,
`assemble` must turn back into it.
"""
import random
import re
import subprocess
import sys

program, count, names = sys.argv[1], int(sys.argv[2]), sys.argv[3:]
tables = [open(name, "rb").read() for name in names]
chance = random.Random(5)


def seal(table):
    """The check words made right, so that the damage is found behind them."""
    for start in range(0, len(table) - 511, 512):
        total = sum(int.from_bytes(table[at:at + 2], "little") for at in range(start, start + 510, 2))
        table[start + 510:start + 512] = ((65535 - total) % 65536).to_bytes(2, "little")


def damage():
    table = bytearray(chance.choice(tables))
    for _ in range(chance.randrange(4)):
        if table:
            start = 512 * chance.randrange(max(1, len(table) // 512))
            at = start + chance.choice([4, 8, 12, 24, chance.randrange(20), chance.randrange(20, 276), chance.randrange(512)])
            if at < len(table):
                table[at] = chance.choice([0, 1, 2, 3, 5, 9, 33, 255, chance.randrange(256)])
    if chance.random() < 0.8:
        seal(table)
    if chance.random() < 0.1:
        table = table[:chance.randrange(len(table) + 1)]
    if chance.random() < 0.1:
        table += table[:512]
    return bytes(table[:32768])


def ask(*words):
    ended = subprocess.run([program, *words], capture_output=True, text=True, timeout=60)
    return ended.returncode, ended.stdout, ended.stderr


def numbers(text):
    return [int(number) for number in re.findall(r"^station-line: damaged\.bin: (\d+): ", text, re.M)]


wrong = []
met = set()
for k in range(count):
    table = damage()
    with open("damaged.bin", "wb") as out:
        out.write(table)
    status, said, words = ask("check", "damaged.bin")
    number = int(said)
    met.add(number)
    if status != (0 if number == 0 else 1) or numbers(words) != [number] * (number > 0) or (3 <= number <= 7) != ("(block " in words):
        wrong.append("case %d: check: %d, %r" % (k, status, words))
    status, said, words = ask("check", "--all", "damaged.bin")
    if int(said) != number or min(numbers(words), default=0) != number or numbers(words) != sorted(numbers(words)):
        wrong.append("case %d: check --all: %s and %r" % (k, said, words))
    status, said, words = ask("dump", "table", "--damaged", "damaged.bin")
    if status != (0 if number == 0 else 1) or said.count("# block ") != len(table) // 512 or numbers(words) != [number] * (number > 0):
        wrong.append("case %d: dump --damaged: %d, %r" % (k, status, words))
    if number == 0:
        again = subprocess.run([program, "assemble", "table", "-"], input=said.encode(), capture_output=True)
        if again.stdout != table:
            wrong.append("case %d: assembled to other bytes" % k)
for number in (0, 1, 3, 4, 5, 6, 7):
    if number not in met:
        wrong.append("%d was never met" % number)
for line in wrong[:20]:
    print(line)
sys.exit(1 if wrong else 0)
