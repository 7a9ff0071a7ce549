#!/usr/bin/env python3
"""Respells the repository's own definitions and lemmas: words in snake case, types in camel case.

usage: python3 tools/respell.py [FOLDER]     once, at the top of a checkout that port.py of the kit has turned

A name is respelled where it is declared in specs/ or proofs/ (a definition, a lemma, a field, a lemma of a `where`): a capital inside
a word in small letters becomes `_` and a small letter, and a dash becomes `_` but where it joins two names that are declared or imported,
as in `count-append`. A lemma that is named for a type keeps the type's capital. Names of goals, of steps and of the library stay, and so
do functions, strings and numbers of the sources. Edits under must-fail/ and names in code marks of README.md, CONTRIBUTING.md and docs/
are respelled alike. Names that fall together are printed, and nothing is written then.
"""

import collections
import os
import re
import sys

TOKEN = re.compile(r"[^\s(){}\[\],;.⟨⟩|`]+")
IMPORT = re.compile(r"^\s*(?:pub )?(?:ghost )?use (Rattle\.std\.|mathlib|borrow|denote|Prim|lib)[^{]*(?:\{(.*)\})?")
DECLARED = re.compile(r"^\s*(?:abbrev |unfoldable )?(?:pub )?(?:abbrev |unfoldable )?(record |data )?([^\s(:]+)(?: \(.*)? :(?: (.*))?$")
GOAL = re.compile(r"^(goal|given|source|rules)\.")
LIBRARY = "ap subst sym".split()
# a lemma that would have its function's name, by the crates that cite it, and the name that it gets
LEMMAS = {
    "by-caller": (["rules"], "by-caller"),
    "goes_on": (["words"], "goes_on_lem"),
    "line_read": (["rules"], "line_read_lem"),
    "long-delay": (["rules"], "long_delay_lem"),
    "of-unit": (["rules"], "of_unit_lem"),
    "told-call": (["words"], "told-call"),
    "unit-of": (["transfers"], "unit_of_lem"),
    "with-units": (["tables", "own", "by_id", "waiting", "moving", "transfers", "kernel", "monitor"], "with_units_lem"),
    "words_size": (["words"], "words_size_lem"),
}
# a field and a lemma that may have one name
APART = ["one_place", "goes_on"]


def walk(root, endings):
    for folder, dirs, names in os.walk(root):
        dirs[:] = sorted(d for d in dirs if d not in ("out", ".git"))
        for n in sorted(names):
            if n.endswith(endings):
                yield os.path.join(folder, n)


def read(path):
    with open(path, encoding="utf-8") as f:
        return f.read()


def declared(root):
    own, types, library = collections.defaultdict(set), set(), set()
    for path in walk(os.path.join(root, "crates"), (".antt",)):
        for line in read(path).splitlines():
            m = IMPORT.match(line)
            if m:
                library |= {w for part in (m.group(2) or "").split(",") for w in part.split(" as ") if w}
                continue
            m = DECLARED.match(line)
            if not m or line.lstrip().startswith(("--", "use ", "pub use ")) or GOAL.match(m.group(3) or ""):
                continue
            own[m.group(2)].add(path)
            if m.group(1) or re.search(r"Type \d( where)?$", m.group(3) or ""):
                types.add(m.group(2))
    return own, types, {w.strip() for w in library}


def snake(part):
    if part[:1].isupper():
        return part
    part = re.sub(r"(?<=[a-z0-9])([A-Z])", lambda m: "_" + m.group(1).lower(), part)
    return part


def respelled(name, own, types, library):
    if "◌" in name:
        return name
    if name in types:
        return "".join(p[:1].upper() + p[1:] for p in re.split("[-_]", name))
    parts = name.split("-")
    known = lambda p: p in own or p in library or not re.search(r"\w", p)
    out = snake(parts[0])
    for before, part in zip(parts, parts[1:]):
        joins = known(before) and known(part) and before and part
        out += ("-" if joins else "_") + snake(part)
    return out


def main(root):
    own, types, library = declared(root)
    new = {n: LEMMAS[n][1] if n in LEMMAS and n != "goes_on" else respelled(n, own, types, library) for n in own if n not in LIBRARY}
    turned = {n: t for n, t in new.items() if n != t}
    back = collections.defaultdict(set)
    for n in own:
        back[new.get(n, n)].add(n)
    bad = False
    for t, ns in sorted(back.items()):
        if len(ns) > 1 and t not in APART:
            shared = set.intersection(*(own[n] for n in ns))
            print("together:", t, sorted(ns), "in one file:" if shared else "in", sorted(shared or set.union(*(own[n] for n in ns)))[:6])
            bad = True
    for n, t in sorted(turned.items()):
        if t in library:
            print("a name of the library:", n, t)
            bad = True
    sources = set()
    for path in walk(os.path.join(root, "crates"), (".rt",)):
        sources |= set(re.findall(r"[A-Za-z_]\w*", re.sub(r"//.*", "", read(path))))
    for n, t in sorted(turned.items()):
        if t in sources:
            print("a name of the sources too:", n, t)
    if bad and "--all" not in sys.argv:
        return 1
    def swap(text, crate=None):
        def one(m):
            n = m.group(0)
            if n in LEMMAS and crate in LEMMAS[n][0]:
                return LEMMAS[n][1]
            return turned.get(n, n)
        return TOKEN.sub(one, text)

    for path in walk(os.path.join(root, "crates"), (".antt", ".rt", ".edit")):
        text = read(path)
        crate = os.path.relpath(path, os.path.join(root, "crates")).split(os.sep)[0]
        lines = [l if IMPORT.match(l) or l.lstrip().startswith(("mod ", "pub mod ")) else swap(l, crate) for l in text.split("\n")]
        put(path, text, "\n".join(lines))
    pages = [p for p in walk(root, (".md",)) if "/crates/" not in p]
    for path in pages:
        text = read(path)
        put(path, text, re.sub(r"`[^`\n]+`", lambda m: swap(m.group(0)), text))
    print(f"respelled {len(turned)} names")
    return 0


def put(path, old, new):
    if old != new:
        with open(path, "w", encoding="utf-8") as f:
            f.write(new)


if __name__ == "__main__":
    raise SystemExit(main(next((a for a in sys.argv[1:] if not a.startswith("--")), ".")))
