#!/usr/bin/env python3
"""tools/respell.py: brings the repository's own definitions and lemmas to the spelling of today's Rattle, after its port.py, once.

Words are in snake case: `faultOf` is `fault_of`. A dash joins two names, as in `sort-length`, and else is an underscore: `receivers_agree`.
Types and modules keep their camel case; functions of src/, fields and variants of its types, strings, inputs and outputs keep their names.

  tools/respell.py            respells crates/*/specs, proofs and the clauses of src
  tools/respell.py --names    prints old and new names, one pair a line
  tools/respell.py --map FILE respells by the pairs of FILE (written by --names), for a tree in which only some names stand"""
import os
import re
import sys

ROOT = os.path.dirname(os.path.dirname(os.path.abspath(__file__)))
CRATES = os.path.join(ROOT, "crates")
TOKEN = re.compile(r"[^\s(){}.,;⟨⟩]+")
# Functions on lists, of the library and of crate lists, that stand in the names of lemmas.
WORDS = set("length take drop map append mem set get_or insert sort replicate all any count keep".split())
# Names of src/ that are also the name of a lemma or field, which gives way only below these folders.
LOCAL = {
    "has_block": ("view/proofs",),
    "has_room": ("line/proofs",),
    "has_sides": ("line/proofs", "table/proofs"),
    "is_same": ("line/proofs",),
    "no_step": ("steps/proofs",),
    "remove_first": ("lists/proofs", "bag/proofs"),
    "too_many": ("roll_call/proofs",),
    "two_blocks": ("table/proofs",),
}


def files(kind):
    for folder, dirs, names in os.walk(CRATES):
        dirs[:] = sorted(d for d in dirs if d != "out")
        for name in sorted(names):
            if name.endswith(kind):
                yield os.path.join(folder, name)


def read(path):
    with open(path, encoding="utf-8") as f:
        return f.read()


def head(line):
    """The names that a line of an .antt file declares."""
    s = line.strip()
    if s.startswith(("--", "use ", "pub use ", "infix")):
        return []
    at = s.find(" : ")
    if at < 0:
        return []
    words = [w for w in s[:at].split(" ") if w not in ("abbrev", "unfoldable", "pub")]
    if not words or len(words) > 3 or "let" in words or any(re.search(r"[(){}.;,λ→=]", w) for w in words):
        return []
    return words


def own():
    """Names that the repository declares in specs/ and proofs/, and those of them that specs/ declares."""
    declared, specs = set(), set()
    for path in files(".antt"):
        walk = path.endswith("Proof.antt")
        for line in read(path).split("\n"):
            for word in head(line):
                if walk and re.search(r" : (tie|goal)\.", line):
                    continue
                declared.add(word)
                if "/specs/" in path:
                    specs.add(word)
    return declared, specs


def foreign():
    """Names that come from the library, and names of src/."""
    taken = set()
    mine = set(os.listdir(CRATES))
    for path in list(files(".antt")) + list(files(".rt")):
        for line in read(path).split("\n"):
            m = re.match(r"\s*(?:pub |ghost )?use (Rattle[^{]+|[a-z]+\.[^{]+)\{(.*)\}", line)
            if m:
                parts = m.group(1).split(".")
                if not (parts[0] == "Rattle" and parts[1] in mine):
                    taken |= {w.split(" as ")[-1].strip() for w in m.group(2).split(",")} | {w.split(" as ")[0].strip() for w in m.group(2).split(",")}
    return taken


def snake(word):
    return re.sub(r"(?<=[a-z0-9])([A-Z])(?=[a-z])", lambda m: "_" + m.group(1).lower(), word)


def respelled(word, names):
    if "◌" in word or not re.match(r"^[a-z]", word):
        return word
    parts = [p if p[:1].isupper() else snake(p) for p in word.split("-")]
    joined = parts[-1] != "spec" and all(p in names or p[:1].isupper() for p in parts)
    return ("-" if joined else "_").join(parts)


def pairs():
    declared, specs = own()
    taken = foreign()
    names = WORDS
    made = {word: respelled(word, names) for word in sorted(declared - taken)}
    # "A lemma that would have its function's name gets `_lem`"; of two lemmas the one with dashes.
    standing = set(taken)
    for word in sorted(made, key=lambda w: ("-" in w, w)):
        while made[word] in standing:
            made[word] += "_lem"
            print(f"respell: {word} is {made[word]}", file=sys.stderr)
        standing.add(made[word])
    return {old: new for old, new in made.items() if old != new}


def respell(text, made, ghost, walk):
    """The text of a file; of a .rt file only ghost imports and clauses, and names in backticks of comments."""
    lines = []
    inside = False

    def new(match):
        word = match.group(0)
        made_of = made.get(word, word)
        # a step of a proof by hand has the name of a function of src/
        if walk and match.start() and match.string[match.start() - 1] == "." and made_of.endswith("_lem"):
            return word.replace("-", "_")
        return made_of

    for line in text.split("\n"):
        comment = line.lstrip().startswith(("--", "//"))
        if comment:
            lines.append(re.sub(r"`([^`]*)`", lambda m: "`" + TOKEN.sub(new, m.group(1)) + "`", line))
            continue
        if ghost:
            begins = re.match(r"\s*(ghost use |ghost |requires|ensures|pub ghost )", line)
            if not (begins or inside):
                lines.append(line)
                continue
            if begins and not line.lstrip().startswith("ghost use"):
                inside = line.count("{") > line.count("}")
            elif inside and line.count("}") > line.count("{"):
                inside = False
        lines.append(TOKEN.sub(new, line))
    return "\n".join(lines)


def main(argv):
    if argv[:1] == ["--map"]:
        made = dict(line.split() for line in read(argv[1]).split("\n") if line.strip())
    else:
        made = pairs()
    if argv[:1] == ["--names"]:
        for old, new in sorted(made.items()):
            print(old, new)
        return 0
    for kind in (".antt", ".rt"):
        for path in files(kind):
            text = read(path)
            here = os.path.relpath(path, CRATES)
            mine = {old: new for old, new in made.items() if old not in LOCAL or here.startswith(LOCAL[old])}
            new = respell(text, mine, kind == ".rt", path.endswith("Proof.antt"))
            if new != text:
                with open(path, "w", encoding="utf-8") as f:
                    f.write(new)
    return 0


if __name__ == "__main__":
    sys.exit(main(sys.argv[1:]))
