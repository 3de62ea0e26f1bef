#!/usr/bin/env python3
"""Respells the repository's own definitions and lemmas as today's Rattle spells names.

usage: python3 tools/respell.py [--try]      at the top, once, right after the kit's port.py

Words are in snake case, types and facts in camel case. A name is the repository's own if a file of specs/ or proofs/
declares it; names that Rattle makes (goals, steps of the code) and names of std keep their spelling. Functions of src/,
strings, inputs and outputs are not touched. With --try nothing is written, and what would fall together is listed.
"""

import collections
import os
import re
import sys

WORD = r"[^\s(){}\[\].,;:⟨⟩⌜⌝|\"\\=λ]+"
TOKEN = re.compile(r"\"(?:\\.|[^\"\\])*\"|" + WORD)
DECLARED = re.compile(
    r"^\s*(?:(?:abbrev|unfoldable|mutual|pub|data|record|ruleset)\s+)*(" + WORD + r"(?:\s+" + WORD + r")*)\s*(?:\s*\{[^}]*\}|\s*\([^)]*\))*\s*:(?!:)\s*(.*)$"
)
RULESET = re.compile(r"^\s*(?:pub\s+)?ruleset\s+(?:pub\s+)?(" + WORD + ")")
ALIAS = re.compile(r"\bas\s+(" + WORD + ")")
LET = re.compile(r"\blet\s+(" + WORD + r")\s*[=:]")
BOUND = re.compile(r"[({]\s*(" + WORD + r"(?:\s+" + WORD + r")*)\s*:(?!:)")
MADE = re.compile(r"^(goal|given)\.")
KEYWORDS = {"use", "pub", "abbrev", "unfoldable", "mutual", "data", "record", "where", "ruleset", "let", "in", "elim", "--"}
# Names whose plain respelling would be another's: a variant's, and two functions of the library.
CHOSEN = {"on?": "on_some", "In-air": "StillInAir", "bit-and": "bit_of_and", "bit-or": "bit_of_or"}


def texts(root):
    for folder, dirs, names in os.walk(os.path.join(root, "crates")):
        dirs[:] = sorted(d for d in dirs if d != "out")
        for name in sorted(names):
            if name.endswith((".antt", ".rt")):
                yield os.path.join(folder, name)


def kebab(name):
    return name in CHOSEN or re.fullmatch(r"[^\W\d_][\w']*(?:-[\w']+)+", name) is not None


def new_name(name):
    if name in CHOSEN:
        return CHOSEN[name]
    if name[0].isupper() and name[0].isascii():
        return "".join(part[:1].upper() + part[1:] for part in name.split("-"))
    return name.replace("-", "_")


def declared(root):
    """The repository's own names with a dash in them."""
    own, made = collections.defaultdict(set), set()
    for path in texts(root):
        with open(path, encoding="utf-8") as f:
            text = f.read()
        if path.endswith(".rt"):
            for line in re.findall(r"^\s*ghost use .*$", text, re.M):
                for name in ALIAS.findall(line):
                    if kebab(name):
                        own[name].add(path)
            continue
        for line in text.split("\n"):
            if line.lstrip().startswith("--"):
                continue
            m = DECLARED.match(line)
            if m and MADE.match(m.group(2)):
                made |= set(m.group(1).split())
            elif m:
                for name in m.group(1).split():
                    if name not in KEYWORDS and kebab(name):
                        own[name].add(path)
            m = RULESET.match(line)
            if m and kebab(m.group(1)):
                own[m.group(1)].add(path)
            if re.match(r"^\s*(?:pub\s+)?use\s", line):
                for name in ALIAS.findall(line):
                    if kebab(name):
                        own[name].add(path)
            for name in LET.findall(line):
                if kebab(name):
                    own[name].add(path)
            for names in BOUND.findall(line):
                for name in names.split():
                    if kebab(name):
                        own[name].add(path)
    return own, made


IMPORT = re.compile(r"^\s*(?:ghost\s+)?(?:pub\s+)?use\s+([^\s{;]+)\.\{([^}]*)\}", re.M)


def foreign(root):
    """Names that files bring in from the library, and names brought in from the modules that Rattle makes."""
    found = set()
    for path in texts(root):
        with open(path, encoding="utf-8") as f:
            text = f.read()
        for module, names in IMPORT.findall(text):
            if re.match(r"Rattle\.(std|base)\b|mathlib\.|Prim\.|base\.|borrow\.|denote\.|lib\.", module):
                for name in names.split(","):
                    found.add(name.split(" as ")[0].strip())
            elif re.search(r"\.proofs\..+\.(Goals|Given)$", module):
                for name in names.split(","):
                    found.add(name.split(" as ")[0].strip())
    return found


def respell(text, table, is_source):
    """Each whole word of the table, but in comments of sources and in strings."""
    out = []
    for line in text.split("\n"):
        body, comment = line, ""
        if is_source:
            at = line.find("//")
            if at >= 0:
                body, comment = line[:at], line[at:]
        if line.lstrip().startswith("--"):
            out.append(TOKEN.sub(lambda m: table.get(m.group(0), m.group(0)), line))
            continue
        out.append(TOKEN.sub(lambda m: change(m, body, table), body) + comment)
    return "\n".join(out)


def change(m, line, table):
    word = m.group(0)
    if word not in table:
        return word
    before = line[: m.start()]
    # A step of the code or a goal, behind the facts that Rattle hands over.
    if re.search(r"(?:^|[^\w'])(?:c|w|goal|given|l)\.(?:[\w'-]+\.)*$", before) and word not in FIELDS:
        return word
    return table[word]


FIELDS = set()


def fields(root):
    """Names of the fields of records, which stand behind a dot."""
    found = set()
    for path in texts(root):
        if not path.endswith(".antt"):
            continue
        inside = False
        with open(path, encoding="utf-8") as f:
            for line in f:
                if re.match(r"^\s*(?:pub\s+)?record\s.*where\s*$", line):
                    inside = True
                elif inside and not line.startswith(" "):
                    inside = False
                elif inside:
                    m = re.match(r"^\s+(?:pub\s+)?(" + WORD + r")\s*(?:\{[^}]*\}\s*|\([^)]*\)\s*)*:", line)
                    if m and kebab(m.group(1)):
                        found.add(m.group(1))
    return found


def main():
    root = "."
    own, made = declared(root)
    outside = foreign(root)
    FIELDS.update(fields(root))
    words = collections.defaultdict(set)
    for path in texts(root):
        with open(path, encoding="utf-8") as f:
            text = f.read()
        for m in TOKEN.finditer(text):
            words[m.group(0)].add(path)
    clash = (set(own) & outside) | (set(own) & made)
    table = {name: new_name(name) for name in own if name not in outside and name not in made}
    table.update(CHOSEN)
    if "--try" in sys.argv:
        print("own names:", len(own), "respelled:", len(table))
        print("own and made or of the library, left:", sorted(clash))
        together = collections.defaultdict(list)
        for old, new in table.items():
            together[new].append(old)
        print("fall together:", sorted((n, o) for n, o in together.items() if len(o) > 1))
        print("new name stands already:", sorted((n, old, sorted(words[n])[:3]) for old, n in table.items() if n in words))
        left = sorted(w for w in words if kebab(w) and w not in table and w not in outside and w not in made)
        print("other words with a dash:", left)
        return
    for path in texts(root):
        with open(path, encoding="utf-8") as f:
            text = f.read()
        new = respell(text, table, path.endswith(".rt"))
        if new != text:
            with open(path, "w", encoding="utf-8") as f:
                f.write(new)


main()
