#!/usr/bin/env python3
"""Places in crates/*/src that are written in an older form than today's Rattle has, a list for each point of docs/DESIGN-PASS.md.

    python3 tools/places.py [POINT..] [--count]

Run at the top of the checkout. It goes by text: what it lists is looked at by a reader, and docs/DESIGN-PASS.md says of each what became of it."""
import collections
import glob
import re
import sys

POINTS = {
    "1a a refusal as a case of an own enum": r"^\s+(Refused|Stop|Failed|NoHit|Absent)(\(| \{|,$)",
    "1b a number that says what the fields beside it mean": r"^\s+pub (answer|stop): u8",
    "1c a number for a kind, an answer or a stop": r"^(pub )?const [A-Z_]+: (u8|Word) = ((0|1|2|3|4|5|6|7|8|9|[1-3][0-9]|255)|INFLIGHT.*|COMPLETED.*);",
    "1d a number given for 'there is none'": r"^\s+(return|_ =>|else \{) ?(0|ROWS|NONE)\b",
    "3a a loop that is no `for`": r"^\s*(while|loop)\b",
    "3b a `for` over the places of an array": r"^\s*for \w+ in 0\.\.",
    "4 a conversion, comparison or printing function by hand": r"fn (larger|smaller|number|widened|wide|flag|byte_of|mode_number|mode_of|group_if|one_if_completed|is_start|text|byte|field|cell)\b",
    "5a the two row arrays as two parameters": r"^\s*(pub )?(fn .*)?\bpresent: &",
    "5b a table's arrays as parameters": r"^\s+(last|locks|index|timeline|places|counts|noted): (&|\[)",
    "5c a table taken apart": r"^\s+let (mut )?(last|locks|index|timeline|places|counts|noted|writers) = \w+\.",
    "6 a count that travels beside its buffer": r"\bcount: (u8|usize)[,)]",
    "7 a match on an action, an operation or a kind": r"\bmatch (action|kind|done|op|operation|started|item)\b",
}


def lines(pattern):
    for name in sorted(glob.glob("crates/*/src/**/*.rt", recursive=True)):
        for number, line in enumerate(open(name), 1):
            if re.search(pattern, line) and not line.lstrip().startswith("//"):
                yield f"{name}:{number}: {line.strip()}"


def functions():
    """Each function's place and its body with the names taken out, but for those of types and of what is called."""
    for name in sorted(glob.glob("crates/*/src/**/*.rt", recursive=True)):
        text = re.sub(r"//.*", "", open(name).read())
        for found in re.finditer(r"\bfn (\w+)", text):
            start = text.find("\n{\n", found.end())
            inline = text.find(" {\n", found.end())
            if inline != -1 and (start == -1 or inline < start):
                start = inline
            depth, at = 0, text.find("{", start)
            while at != -1 and at < len(text):
                depth += {"{": 1, "}": -1}.get(text[at], 0)
                at += 1
                if depth == 0:
                    break
            tokens = re.findall(r"\w+|[^\w\s]", text[start:at])
            seen = {}
            shape = []
            for token in tokens:
                if re.match(r"[A-Za-z_]|\d", token) and token not in KEPT:
                    token = seen.setdefault(token, f"x{len(seen)}")
                shape.append(token)
            if len(shape) >= 40:
                yield " ".join(shape), f"{name}: {found[1]}"


KEPT = set("if else while for in match return let mut as usize u8 u64 true false Some None Ok Err".split())


def twins():
    groups = collections.defaultdict(list)
    for shape, place in functions():
        groups[shape].append(place)
    return [" = ".join(places) for places in groups.values() if len(places) > 1]


def main():
    wanted = [a for a in sys.argv[1:] if not a.startswith("--")]
    rows = {title: list(lines(pattern)) for title, pattern in POINTS.items()}
    rows["2 functions with one body, but for names and numbers"] = twins()
    for title in sorted(rows):
        if wanted and not any(title.startswith(point) for point in wanted):
            continue
        print(f"{len(rows[title]):4}  {title}")
        if "--count" not in sys.argv:
            for row in rows[title]:
                print("        " + row)


main()
