#!/usr/bin/env python3
"""Brings the repository's own definitions and lemmas to today's spelling.

usage: python3 tools/respell.py [--list]     at the top of the repository

A definition (a function, a field, a constructor, a name of a local function) that was spelled with dashes is spelled in snake case; a type in
upper camel case. In a lemma a dash stays where it joins two names, as in eval-append, and plain words are joined by an underscore, as in
times_comm. Names that Rattle makes and those of its library are left alone, and so are comments and strings.
--list prints the names and changes nothing.
"""

import os
import re
import sys

WORD = r"[^\s(){},;.\"@]"
# what stands in lemma names for a function of the library
COMMON = """zero one two suc add mul neg sub pow min max xor append cons nil set get take drop map length replicate cond true false ok err sum
reverse filter equal refl sym ap fold""".split()
# words that join others, whatever else has their name
JOINING = set("a an and are at by ends first in is no none not of on or some whole".split())
# two names that would fall together
APART = {"Too-deep": "IsTooDeep", "Normal-forms": "SumsHaveNormalForms", "row-length": "row_places"}
HEAD = re.compile(r"^(\s*)((?:(?:pub|abbrev|unfoldable|data|record|mutual)\s+)*)(" + WORD + r"+)\s*((?:\{[^}]*\}\s*)*):\s(.*)$")
RECORD = re.compile(r"^(\s*)((?:(?:pub|abbrev|unfoldable)\s+)*)(record|data)\s+(" + WORD + r"+)")
TOKEN = re.compile(WORD + "+")


def files(suffixes):
    for folder, dirs, names in os.walk("crates"):
        dirs[:] = sorted(d for d in dirs if d != "out")
        for name in sorted(names):
            if name.endswith(suffixes):
                yield os.path.join(folder, name)


def read(path):
    with open(path, encoding="utf-8") as f:
        return f.read()


def uncommented(line):
    return re.sub(r"(^|\s)--(\s.*)?$", "", line)


class Names:
    def __init__(self):
        self.definitions = set()  # with dashes or without
        self.lemmas = set()
        self.types = set()
        self.foreign = set()  # imported from the library
        self.tokens = set()

    def collect(self, path):
        parts = path.split(os.sep)
        kind = parts[2]
        made = os.path.basename(path) in ("Answers.antt", "Invariants.antt", "Choices.antt", "Proof.antt")
        inside = None  # the indent of a record or data
        for line in read(path).split("\n"):
            line = uncommented(line)
            if not line.strip():
                continue
            indent = len(line) - len(line.lstrip())
            m = re.match(r"^\s*(?:unfoldable |pub )*use (\S+?)\.?\{(.*)\}", line)
            if m:
                own = re.match(r"Rattle\.(\w+)\.", line.split("use ", 1)[1])
                if not own or not os.path.isdir(os.path.join("crates", own.group(1))):
                    self.foreign.update(w.strip() for w in m.group(2).split(","))
                continue
            self.tokens.update(TOKEN.findall(line))
            if inside is not None and indent <= inside:
                inside = None
            r = RECORD.match(line)
            if r:
                self.types.add(r.group(4))
                inside = indent
                continue
            m = HEAD.match(line)
            if not m or m.group(3) in (":", "=", "λ", "let", "where", "module", "elim", "|"):
                continue
            name, said = m.group(3), m.group(2)
            if made and re.match(r"(goal|need)\.", m.group(5)):
                continue
            if not re.match(r"^[A-Za-z]", name):
                continue
            if inside is not None:
                self.definitions.add(name)
            elif re.search(r"→\s*Type \d+\s*$|^Type \d+\s*$", m.group(5)) and name[0].isupper():
                self.types.add(name)
            elif "abbrev" in said or "unfoldable" in said:
                self.definitions.add(name)
            elif kind == "specs" and not re.search(r"[≡≤<↔]", m.group(5).rsplit("→", 1)[-1]):
                self.definitions.add(name)
            else:
                self.lemmas.add(name)

    def parted(self, name, known):
        """A lemma's name: names joined by a dash, plain words by an underscore."""
        parts = name.split("-")
        units, i = [], 0
        while i < len(parts):
            for j in range(len(parts), i, -1):
                long = "-".join(parts[i:j])
                if long in known or j == i + 1:
                    units.append((long.replace("-", "_"), long in known))
                    i = j
                    break
        out = units[0][0]
        for k in range(1, len(units)):
            out += ("-" if units[k - 1][1] and units[k][1] else "_") + units[k][0]
        return out

    def spelling(self):
        known = (self.definitions | self.types | set(COMMON)) - JOINING
        out = {}
        for name in self.definitions:
            if "-" in name:
                out[name] = name.replace("-", "_")
        for name in self.types:
            if "-" in name:
                out[name] = "".join(p[:1].upper() + p[1:] for p in name.split("-"))
        for name in self.lemmas - self.definitions - self.types:
            if "-" in name:
                new = self.parted(name, known)
                if new != name:
                    out[name] = new
        out.update((name, new) for name, new in APART.items() if name in out)
        return out


def respelled(text, spelling, rust):
    """text with each token of spelling in its new form, outside comments and strings"""
    def line_of(line):
        code, comment = line, ""
        m = re.search(r"(^|\s)//" if rust else r"(^|\s)--(\s|$)", line)
        if m and '"' not in line[: m.start()]:
            code, comment = line[: m.start()], line[m.start() :]
        pieces = re.split(r'("(?:[^"\\]|\\.)*")', code)
        for k in range(0, len(pieces), 2):
            pieces[k] = TOKEN.sub(lambda t: spelling.get(t.group(0), t.group(0)), pieces[k])
        return "".join(pieces) + comment

    return "\n".join(line_of(l) for l in text.split("\n"))


def main():
    names = Names()
    for path in files((".antt",)):
        names.collect(path)
    spelling = names.spelling()
    taken = {}
    for old, new in sorted(spelling.items()):
        if old in names.foreign:
            print(f"left: {old} is a name of the library too")
        if new in names.tokens or new in taken or new in names.foreign:
            print(f"falls together: {old} and {taken.get(new, new)}")
        taken[new] = old
    spelling = {o: n for o, n in spelling.items() if o not in names.foreign}
    if "--list" in sys.argv:
        for old, new in sorted(spelling.items()):
            print(f"{old}\t{new}\t{'lemma' if old in names.lemmas - names.definitions - names.types else 'definition'}")
        return
    changed = 0
    for path in files((".antt", ".rt", ".edit")):
        text = read(path)
        new = respelled(text, spelling, path.endswith(".rt") or path.endswith(".edit"))
        if new != text:
            with open(path, "w", encoding="utf-8") as f:
                f.write(new)
            changed += 1
    print(f"respelled {len(spelling)} names in {changed} files")


main()
