#!/usr/bin/env python3
"""Runs the sessions of a document word for word, in the current folder: sessions.py DOCUMENT

A block marked `console` has commands behind `$ `, each followed by what it prints, standard error too. A block marked `sh` has commands alone;
where a block marked `text` follows, it is what they print, else what they print is not looked at. All blocks run in one shell.
"""
import re
import subprocess
import sys

BLOCK = re.compile(r"^```(console|sh|text)\n(.*?)^```$", re.M | re.S)


def units(document):
    """Pairs of commands and what they print, None where that is not looked at."""
    found = []
    for kind, body in BLOCK.findall(document):
        if kind == "console":
            for part in re.split(r"^\$ ", body, flags=re.M)[1:]:
                command, _, printed = part.partition("\n")
                found.append([command + "\n", printed])
        elif kind == "sh":
            found.append([body, None])
        elif found:
            found[-1][1] = body
    return found


with open(sys.argv[1], encoding="utf-8") as text:
    session = units(text.read())
script = "".join("exec > unit.%d 2>&1\n%s" % (k, command) for k, (command, _) in enumerate(session))
ended = subprocess.run(["bash", "-c", script], timeout=900)
wrong = [] if session and ended.returncode in (0, 1) else ["no session, or it ended with %d" % ended.returncode]
for k, (command, wanted) in enumerate(session):
    with open("unit.%d" % k, encoding="utf-8", errors="replace") as printed:
        got = printed.read()
    if wanted is not None and got != wanted:
        wrong.append("%s\nprints\n%s\nand not\n%s" % (command, got, wanted))
for line in wrong:
    print(line)
sys.exit(1 if wrong else 0)
