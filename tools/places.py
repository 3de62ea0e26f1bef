#!/usr/bin/env python3
"""Lists the places in src/ that could be of an older form, by point.

usage: python3 tools/places.py [POINT ..]     in the repository; POINT is 1 to 8, all if none is given

It reads text and judges nothing: a row is a place to look at. docs/DESIGN-PASS.md has the counts before and after.
"""

import glob
import re
import sys
from collections import defaultdict

FILES = sorted(f for f in glob.glob("crates/*/src/**/*.rt", recursive=True) if "/tests" not in f)


def text(path):
    with open(path, encoding="utf-8") as f:
        return f.read()


def lines(pattern, skip=None):
    """Each line that the pattern is in, outside comments."""
    rows = []
    for path in FILES:
        for n, line in enumerate(text(path).split("\n"), 1):
            code = line.split("//")[0]
            if re.search(pattern, code) and not (skip and re.search(skip, code)):
                rows.append((f"{path}:{n}", line.strip()))
    return rows


def bodies():
    """Each function: its place, name, parameters, clauses and body."""
    for path in FILES:
        t = text(path)
        for m in re.finditer(r"^( *)(?:pub(?:\(\w+\))? )?fn (\w+)((?:(?! \{\n).)*?)^\1\{\n(.*?)^\1\}|^( *)(?:pub(?:\(\w+\))? )?fn (\w+)([^{;]*?) \{\n(.*?)^\5\}", t, re.M | re.S):
            name, head, body = (m[2], m[3], m[4]) if m[2] else (m[6], m[7], m[8])
            yield f"{path}:{t[:m.start()].count(chr(10)) + 1}", name, head, body


def option_shaped():
    """Enums of two cases, one of them with a value and one with none."""
    rows = []
    for path in FILES:
        t = text(path)
        for m in re.finditer(r"enum (\w+)(?:<[^>]*>)? \{(.*?)^\}", t, re.M | re.S):
            cases = [c.strip().rstrip(",") for c in m[2].split("\n") if c.strip() and not c.strip().startswith("//")]
            if len(cases) == 2 and sum("(" in c for c in cases) == 1:
                rows.append((f"{path}:{t[:m.start()].count(chr(10)) + 1}", f"enum {m[1]}: {', '.join(cases)}"))
    return rows


def twins():
    """Functions of one file or of two whose bodies differ in names and constants alone."""
    alike = defaultdict(list)
    for place, name, head, body in bodies():
        flat = re.sub(r"\s+", " ", body.strip())
        if len(flat) < 40:
            continue
        shape = re.sub(r"\b(?!(?:if|else|for|in|let|mut|match|while|return|self|Self|Some|None|Ok|Err|Result)\b)\w+\b", "_", flat)
        alike[shape].append((place, name))
    return [(p, n + ": like " + ", ".join(m for q, m in group if q != p)) for group in alike.values() if len(group) > 1 for p, n in group]


def facts():
    """A clause that stands in three functions or more of one crate."""
    seen = defaultdict(list)
    for path in FILES:
        for n, line in enumerate(text(path).split("\n"), 1):
            m = re.match(r"\s+(requires|ensures)(?: \w+)? \{ (.*) \}$", line)
            if m and m[1] == "requires":
                seen[path.split("/")[1], m[2]].append(f"{path}:{n}")
    return [(places[0], f"{fact}: {len(places)} times") for (_, fact), places in seen.items() if len(places) > 2]


def together():
    """Two parameters that travel together through four functions or more of one crate."""
    pairs = defaultdict(list)
    for place, name, head, _ in bodies():
        found = re.findall(r"(\w+): (&(?:'a )?(?:mut )?[\w\[\]<>]+|\w+)(?=[,)\n])", head.split("requires")[0].split("ensures")[0])
        for i, a in enumerate(found):
            for b in found[i + 1:]:
                pairs[place.split("/")[1], ": ".join(a), ": ".join(b)].append(place)
    return [(places[0], f"{a}, {b}: {len(places)} functions") for (_, a, b), places in pairs.items() if len(places) > 3]


POINTS = {
    "1": [
        ("enums of two cases, one with a value", option_shaped),
        ("flags in structs", lambda: lines(r"^\s+(pub )?\w+: bool,")),
        ("arms on numbers", lambda: lines(r"^\s*(Some\()?\(?\d+(, | \| |\)|( if .*)? =>)")),
        ("functions that answer or take a kind or a refusal as a number", lambda: lines(r"\b(kind|number): u(8|16|size)|fn kind_of|-> u8$|from_(reader|typer)\(\d")),
        ("errors handed on by hand", lambda: lines(r"let Ok\(.* else \{|None => Err\(|=> return Err")),
    ],
    "2": [("functions alike but for names", twins)],
    "3": [
        ("while loops", lambda: lines(r"\bwhile ")),
        ("for loops over indices", lambda: lines(r"\bfor \w+ in .*\.\.")),
    ],
    "4": [
        ("comparisons of parts", lambda: lines(r"\.index [!=]= ")),
        ("functions that compare, convert or name", lambda: lines(r"fn (is_same|is_listed|at_most|larger|smaller|refusal|name|digit|place_of|type_at)\b")),
        ("casts", lambda: lines(r" as (u8|u16|u32|usize)\b")),
        ("an index tested by hand before a read", lambda: lines(r"if .*\b(store|at|k|index\w*)\b.* (<|>=) .*(len\(\)|STORES|\.len\b)")),
    ],
    "5": [("facts asked for in three functions", facts), ("parameters that travel together", together)],
    "6": [
        ("arrays of fixed length in structs and signatures", lambda: lines(r"\[\w+; \d+\]", r"let |const |assert|\[0; |ghost|=> ")),
        ("vectors in structs", lambda: lines(r"^\s+(pub )?\w+: Vec<")),
        ("recursion over a slice", lambda: lines(r"rest @ \.\.\] => .*\(rest")),
    ],
    "7": [("tables of functions, boxed or pointed to", lambda: lines(r"\bdyn\b|: fn\(|Box<"))],
    "8": [("files of answers and invariants", lambda: [(f, f"{text(f).count(chr(10))} lines") for f in sorted(glob.glob("crates/*/proofs/**/*.antt", recursive=True))])],
}


def main():
    for point in sys.argv[1:] or sorted(POINTS):
        for what, find in POINTS[point]:
            rows = find()
            print(f"point {point}: {what}: {len(rows)}")
            for place, row in rows if point != "8" else []:
                print(f"  {place}: {row[:150]}")


main()
