#!/usr/bin/env python3
"""Looks at the console's own code: code.py layers FOLDER.., code.py functions FOLDER..

layers     no file knows itself by way of others: X.c and X.h are one module, which knows Y where it includes Y.h
functions  no function is over 40 lines
"""
import glob
import os
import re
import sys


def files(folders):
    return sorted(path for folder in folders for path in glob.glob(os.path.join(folder, "*.[ch]")))


def module(path):
    return os.path.basename(path).rsplit(".", 1)[0]


def layers(paths):
    modules = {module(path) for path in paths}
    knows = {name: set() for name in modules}
    for path in paths:
        with open(path, encoding="utf-8") as text:
            named = {module(name) for name in re.findall(r'^#include "([^"]+)"', text.read(), re.M)}
        knows[module(path)] |= named & modules - {module(path)}
    while True:
        lowest = [name for name in knows if not knows[name]]
        if not lowest:
            break
        knows = {name: below - set(lowest) for name, below in knows.items() if name not in lowest}
    return ["%s knows %s" % (name, ", ".join(sorted(below))) for name, below in sorted(knows.items())]


def functions(paths):
    """From the line that begins at the margin to the brace that stands there alone."""
    long = []
    for path in paths:
        start = 0
        with open(path, encoding="utf-8") as text:
            for at, line in enumerate(text.read().split("\n")):
                if line == "}" and at - start >= 40:
                    long.append("%s:%d: %d lines" % (path, start + 1, at - start + 1))
                elif line and line[0] not in " }#/*":
                    start = at
    return long


wrong = {"layers": layers, "functions": functions}[sys.argv[1]](files(sys.argv[2:]))
for line in wrong:
    print(line)
sys.exit(1 if wrong else 0)
