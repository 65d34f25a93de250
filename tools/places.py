#!/usr/bin/env python3
"""Counts, in the sources of a checkout, the places where an older form may stand.

    python3 tools/places.py [FOLDER]           one line a question: how many places
    python3 tools/places.py --list [FOLDER]    and each place below it

A place is found by its text alone: a reader judges each.
"""
import itertools
import pathlib
import re
import sys

LIST = "--list" in sys.argv
ROOT = pathlib.Path(next((a for a in sys.argv[1:] if a != "--list"), "."))


def sources():
    for path in sorted(ROOT.glob("crates/*/src/**/*.rt")):
        yield path.relative_to(ROOT / "crates"), path.read_text()


def lines_with(pattern):
    found = []
    for path, text in sources():
        for number, line in enumerate(text.splitlines(), 1):
            if re.search(pattern, line) and not line.lstrip().startswith("//"):
                found.append(f"{path}:{number}: {line.strip()[:110]}")
    return found


def functions():
    """Each function with a body: path, name, parameters by name, clauses, and the body."""
    for path, text in sources():
        for m in re.finditer(r"^( *)(?:pub(?:\(crate\))? )?(?:extern \"C\" )?fn (\w+)", text, re.M):
            rest = text[m.end():]
            end = re.search(rf"^{m.group(1)}}}|;$", rest, re.M)
            whole = rest[: end.end()] if end else rest
            brace = re.search(r"(?:^ *|\) |> |\w )\{\n", whole, re.M)
            head, body = (whole[: brace.start()], whole[brace.start():]) if brace else (whole, "")
            name = m.group(2)
            parameters = re.findall(r"(?<![\w:.])(\w+): (?!:)", head.split("requires")[0].split("ensures")[0])
            clauses = re.findall(r"^\s*requires\*?(?: \w+)? \{ (.*) \}$", head, re.M)
            yield path, name, parameters, clauses, body


def in_the_small(text):
    """A text in which each word stands for the place where it first came."""
    seen = {}
    return [seen.setdefault(w, f"w{len(seen)}") if re.match(r"[A-Za-z_]", w) else w for w in re.findall(r"\w+|[^\w\s]", text)]


def twins():
    """Pairs of functions whose bodies, of eight words or more, are the same but for names and numbers."""
    bodies = {}
    for path, name, _, _, body in functions():
        words = [re.sub(r"^\d+$", "0", w) for w in in_the_small(body)]
        if len(words) >= 20 and "_tests" not in str(path):
            bodies.setdefault(" ".join(words), []).append(f"{path}: {name}")
    return [" = ".join(places) for places in bodies.values() if len(places) > 1]


def repeated_conditions():
    """Facts that are required by three functions or more: parts of clauses, split at the products."""
    facts = {}
    for path, name, _, clauses, _ in functions():
        for clause in clauses:
            for fact in re.split(r" × ", clause):
                facts.setdefault(fact.replace("(", "").replace(")", ""), []).append(f"{path}: {name}")
    return [f"{fact}   in {len(set(p))}: {', '.join(sorted({q.split(': ')[1] for q in p}))}" for fact, p in facts.items() if len(set(p)) > 2]


def travelling():
    """Pairs of parameters that five functions or more take together, and seven in ten of those that take the rarer one."""
    takes = [{p for p in names if not p[0].isupper() and p != "self"} for _, _, names, _, _ in functions()]
    often = {p: sum(p in names for names in takes) for p in set().union(*takes)}
    found = []
    for a, b in itertools.combinations(sorted(often), 2):
        both = sum({a, b} <= names for names in takes)
        if both >= 5 and both >= 0.7 * min(often[a], often[b]):
            found.append(f"{a} ({often[a]}), {b} ({often[b]}): together in {both}")
    return found


QUESTIONS = [
    ("1", "enums", lambda: lines_with(r"^\s*(pub(\(crate\))? )?enum ")),
    ("1", "a flag beside a value", lambda: lines_with(r"-> .*\(.*bool.*\)|\bbool, |, bool\)")),
    ("1", "numbers for kinds or refusals", lambda: lines_with(r"\(u8, u8\)|which: u\d+|number: u8|layer: u8")),
    ("1", "Err, None and Option taken apart by hand", lambda: lines_with(r"let Some\(.*else|let Ok\(.*else|None => (return )?(Err|None)|Err\(_?e?\) => (return )?Err|Err\(AllocError\)")),
    ("2", "bodies that are the same but for names and numbers", twins),
    ("3", "loops over places, and loops that count by hand", lambda: lines_with(r"\bfor \w+ in .*\.\.|\bwhile |\bloop \{") + lines_with(r"^\s*(n|at|count|number|steps|joined) [+-]= 1;")),
    ("4", "order and equality by hand", lambda: lines_with(r"return Ordering::|Ordering::\w+ =>|=> Ordering::")),
    ("4", "conversions by hand", lambda: lines_with(r"fn refusal\(|fn new\(.*-> (Result|Option)|fn from_row\(|fn number_and_layer\(")),
    ("4", "printing by hand", lambda: lines_with(r"fn push_\w+|fn \w*text\(|fn show_refusal|println!\(rt; \"refused")),
    ("5", "facts that three functions or more require", repeated_conditions),
    ("5", "parameters that travel together", travelling),
    ("6", "a length or a place beside a buffer", lambda: lines_with(r"^\s*(count|start|at|n|len): usize,$|at: usize\b|count: usize\b|\bstart: usize\b|\bn: usize\b|usize\)")),
    ("6", "arrays in structs", lambda: lines_with(r"^\s*(pub(\(crate\))? )?\w+: \[.*; ?\w+\],$")),
    ("7", "kinds that say which step to run", lambda: lines_with(r"match (which|operator|op|piece|form)\b|match \(self\.tag")),
]

for point, question, ask in QUESTIONS:
    places = ask()
    print(f"{point}  {len(places):3}  {question}")
    if LIST:
        for place in places:
            print(f"        {place}")
