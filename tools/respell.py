#!/usr/bin/env python3
"""Brings the repository's own definitions and lemmas to snake case, once, after the kit's port.

usage: tools/respell.py [--say]      at the top of the repository; --say prints what it would do and writes nothing

A definition in camel case and a lemma whose words a dash joins get words joined by '_'; a prime is an apostrophe. Types, facts and modules keep
their capitals. A lemma that would have a definition's name gets '_lem'. A name that the kit's library has too is left alone, and so is whatever
stands in strings, in inputs and outputs, and in Rattle code outside clauses.
"""

import os
import re
import sys

WORD = re.compile(r"[^\W\d][\w'′-]*")
DECLARED = re.compile(r"^\s*(?:(?:pub|abbrev|unfoldable|private|opaque|ruleset|instance)\s+)*([^\W\d][\w'′-]*)\s*(?::|=)(?!=)")
FIELD = re.compile(r"^\s+(?:pub\s+)?([^\W\d][\w'′-]*(?:\s+[^\W\d][\w'′-]*)*)\s+:\s")
IMPORT = re.compile(r"^\s*(?:pub\s+)?(?:ghost\s+)?use\s+([\w.·'-]+)\.\{([^}]*)\}", re.S | re.M)
# lemmas that had the new name of a definition of their own file's already
LEMMAS = ["cut_short", "no_place", "out_of_range", "too_large"]


def files(top):
    for folder, dirs, names in os.walk(os.path.join(top, "crates")):
        dirs[:] = sorted(d for d in dirs if d not in ("out", "target"))
        for name in sorted(names):
            if name.endswith((".antt", ".rt")):
                yield os.path.join(folder, name)


def read(path):
    with open(path, encoding="utf-8") as f:
        return f.read()


def snake(name):
    return re.sub(r"(?<=[a-z0-9₀-₉])([A-Z])", lambda m: "_" + m.group(1).lower(), name)


def own_names(top):
    """The names that the definitions and lemma files declare, and those that are imported from elsewhere."""
    own, imported, definitions = set(), set(), set()
    crates = {c for c in os.listdir(os.path.join(top, "crates"))}
    for path in files(top):
        text = read(path)
        for m in IMPORT.finditer(text):
            parts = m.group(1).replace("·", ".").split(".")
            if not (parts[0] == "Rattle" and len(parts) > 1 and parts[1] in crates):
                imported.update(WORD.findall(m.group(2)))
        if not path.endswith(".antt"):
            continue
        base = os.path.basename(path)
        walk = base == "Proof.antt" or "/Proof/" in path
        for line in text.split("\n"):
            if line.lstrip().startswith("--") or line.lstrip().startswith("use "):
                continue
            m = DECLARED.match(line)
            if m:
                name = m.group(1)
                if not walk:
                    own.add(name)
                if "/specs/" in path or re.match(r"\s*(pub )?(abbrev|unfoldable)", line):
                    definitions.add(name)
            m = re.match(r"^\s+(?:pub\s+)?([^\W\d][\w'′ -]*?)\s+:\s", line)
            if m and not walk:
                own.update(m.group(1).split())
    return own, imported, definitions


def new_name(name, definitions):
    if not name[0].islower():
        # a fact keeps its capital; what is joined to it is respelled
        head, *rest = name.split("-")
        return "-".join([head, *(snake(r) for r in rest)]).replace("′", "'")
    return "_".join(snake(p) for p in name.split("-")).replace("′", "'")


def mapping(top):
    own, imported, definitions = own_names(top)
    to, left = {}, set()
    for name in sorted(own):
        if name in ("pub", "abbrev"):
            continue
        new = new_name(name, definitions)
        if new != name:
            if name in imported:
                left.add(name)
            else:
                to[name] = new
    for name in to:
        if "-" in name and (to[name] in own or any(new == to[name] and "-" not in old for old, new in to.items())):
            to[name] += "_lem"
    return to, left, own


def respelled(text, to, walk):
    def word(m):
        w = m.group(0)
        if walk and "-" in w and text[m.start() - 1 : m.start()] == ".":
            return w
        return to.get(w, w).replace("′", "'")

    return WORD.sub(word, text)


def turn(text, to, comment, walk):
    """The text respelled: in a comment only what stands in backticks, in a string nothing."""
    out = []
    for line in text.split("\n"):
        at = line.find(comment) if line.lstrip().startswith(comment) else -1
        if at < 0:
            pieces = re.split(r'(b?"(?:[^"\\]|\\.)*")', line)
            out.append("".join(p if i % 2 else respelled(p, to, walk) for i, p in enumerate(pieces)))
        else:
            pieces = re.split(r"(`[^`]*`)", line)
            out.append("".join(respelled(p, to, walk) if i % 2 else p for i, p in enumerate(pieces)))
    return "\n".join(out)


def main(argv):
    top = os.path.abspath(".")
    to, left, own = mapping(top)
    together = {}
    for old, new in to.items():
        together.setdefault(new, []).append(old)
    clashes = {new: olds for new, olds in together.items() if len(olds) > 1 or new in own}
    if "--say" in argv:
        for old, new in to.items():
            print(old, new)
        print("left, for the library has the name:", " ".join(sorted(left)))
        for new, olds in sorted(clashes.items()):
            print("together:", new, "<-", " ".join(olds), "(and a name that stood)" if new in own else "")
        return 0
    n = 0
    for path in files(top):
        text = read(path)
        rattle = path.endswith(".rt")
        walk = path.endswith("/Proof.antt") or "/Proof/" in path
        new = turn(text, to if rattle else {**to, **{name: name + "_lem" for name in LEMMAS}}, "//" if rattle else "--", walk)
        if new != text:
            with open(path, "w", encoding="utf-8") as f:
                f.write(new)
            n += 1
    print(f"respell: {len(to)} names, {n} files")
    return 0


if __name__ == "__main__":
    raise SystemExit(main(sys.argv[1:]))
