#!/usr/bin/env python3
"""Spells this repository's own definitions and lemmas as today's Rattle spells names. Run once, after port.py and before any edit by hand.

usage: tools/respell.py          in the repository: renames in crates/ (.rt, .antt and must-fail edits) and writes tools/respelled.tsv, old name and new

A value is in snake case: `imageRows` is `image_rows`, and so is each part of a lemma's name. A dash stays where it joins the names of two definitions, as in
`length-append`; elsewhere words are joined by `_`, as in `held_within`. Types keep their capitals, and so do names that the papers have in capitals.
Names of Rattle's own making, those of goals, invariants and measures, are not touched: they are not this repository's. Where two names would
meet, the lemma's ends in `_lem`; those are listed, as are names that stay as they are because a variable has the new spelling.
"""

import os
import re
import sys

KIT = os.path.dirname(os.path.realpath("/opt/rattle/START-HERE.md"))
TOKEN = re.compile(r"[^\s(){}\[\],;.@|`\"]+")
DEFINED = re.compile(r"^( *)((?:abbrev |unfoldable |pub )*)([^\s(){}:,;]+)((?: [^\s(){}:,;]+)*) : (.*)", re.M)
MADE = re.compile(r"tie\.(Need-|invariant-|decreases-|the-|After-|In-)|goal\.")


def files(root, *ends):
    for folder, dirs, names in os.walk(os.path.join(root, "crates")):
        dirs[:] = sorted(d for d in dirs if d not in ("out", "target"))
        for f in sorted(names):
            if f.endswith(ends):
                yield os.path.join(folder, f)


def read(p):
    with open(p, encoding="utf-8") as f:
        return f.read()


def snake(part):
    """camelCase to snake_case; a part that begins with a capital is a type or one of the papers' names."""
    if not part or part[0].isupper():
        return part
    return re.sub(r"(?<=[a-z0-9])([A-Z])", lambda m: "_" + m.group(1).lower(), part)


def main():
    root = os.getcwd()
    defined, made, used, lent, lemmas = set(), set(), set(), set(), set()
    for p in files(root, ".antt"):
        t = read(p)
        # what stands after a dot is a path, or a field, which is defined somewhere by its bare name
        used.update(m.group(0) for m in TOKEN.finditer(t) if t[m.start() - 1 : m.start()] != ".")
        for path, names in re.findall(r"^use ([^\s{]+?)\.\{([^}]*)\}", t, re.M):
            if not re.match(r"Rattle\.(?!std\.|core\.|io\.|libc\.)", path):
                lent.update(n.strip().split(" as ")[0] for n in names.split(","))
        for m in DEFINED.finditer(t):
            names = [m.group(3)] + m.group(4).split()
            if names[0] in ("use", "module", "let", "record", "in", "data"):
                continue
            if "abbrev" not in m.group(2) and "unfoldable" not in m.group(2) and os.sep + "proofs" + os.sep in p:
                lemmas.update(names)
            (made if MADE.search(m.group(5)) or "statement M" in m.group(5) else defined).update(names)
    # a function of the code may have its definition's name; a variable, a field or a parameter may not
    for p in files(root, ".rt"):
        t = read(p)
        used.update(re.findall(r"\b([a-z_0-9]+):(?!:)", t))
        used.update(re.findall(r"\blet (?:mut )?([a-z_0-9]+)", t))
        used.update(re.findall(r"\bfor ([a-z_0-9]+) in", t))
    used.discard("by_number")  # the field of that name stands in no file that names the definition
    defined -= made | lent  # a name that is the library's too is left
    # what a dash may join: definitions of this repository and of the library
    joined = {snake(n) for n in defined if "-" not in n and len(n) > 1}
    pages = os.path.join(KIT, "rattle", "std")
    for folder, _, names in os.walk(pages):
        for f in names:
            if f.endswith(".md"):
                for n in re.findall(r"`([a-z_]+(?:-[a-z_]+)+)`", read(os.path.join(folder, f))):
                    joined.update(n.split("-"))
    new, kept = {}, []
    for n in sorted(defined):
        if not re.search(r"[A-Za-z]", n) or "◌" in n:
            continue
        parts = [snake(x) for x in n.split("-")]
        to = parts[0]
        for a, b in zip(parts, parts[1:]):
            whole = a in joined or a[:1].isupper()
            to += ("-" if whole and (b in joined or b[:1].isupper()) else "_") + b
        if to != n:
            new[n] = to
    # names that fall together: the definition keeps the word, and the lemma that has it too ends in `_lem`
    taken = {}
    for n, to in list(new.items()):
        if "-" not in n and to in lemmas and to not in new:
            new[to] = to + "_lem"
            kept.append(to)
    for n in sorted(new, key=lambda n: ("-" in n, new[n].endswith("_lem"), n)):
        for to in (new[n], new[n] + "_lem"):
            if to not in taken and (to not in used or to in new):
                if to != new[n]:
                    kept.append(n)
                new[n] = to
                taken[to] = n
                break
        else:
            kept.append(n)
            new[n] = None
    new = {n: to for n, to in new.items() if to}
    count = 0
    for p in files(root, ".antt", ".rt", ".edit"):
        t = read(p)
        u = TOKEN.sub(lambda m: new.get(m.group(0), m.group(0)), t)
        if u != t:
            count += 1
            with open(p, "w", encoding="utf-8") as f:
                f.write(u)
    with open(os.path.join(root, "tools", "respelled.tsv"), "w", encoding="utf-8") as f:
        f.writelines(f"{n}\t{to}\n" for n, to in sorted(new.items()))
    print(f"{len(new)} names in {count} files; kept apart: {' '.join(f'{n} ({new.get(n)})' for n in sorted(set(kept)))}")


if __name__ == "__main__":
    sys.exit(main())
