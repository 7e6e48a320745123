#!/usr/bin/env python3
"""Respells this repository's own definitions and lemmas as today's Rattle spells names: words in snake case, types in camel case.

usage: python3 tools/respell.py            at the top of the repository, once, after the kit's port.py
       python3 tools/respell.py --dry      prints the new names, and changes nothing

A dash stays where it joins the names of two functions, in the lemmas of KEPT; a name that Rattle makes of the code's names (a goal, an
invariant) and a name of the library stay as they are. It goes by text: a name is a whole word of an .antt or .rt file,
wherever it stands there, or a word between backticks of a page. Names that fall together are printed, and nothing is changed then."""

import collections
import os
import re
import sys

# what a name of antt is made of; a dot parts the names of a path
NAME = re.compile(r"[^\s(){}\[\];,.:λ←→⟨⟩·`\"«»]+")
DEFINED = re.compile(r"\s*(abbrev |unfoldable )?(?:pub )?(record |data )?([^\s:(){}\[\].,;=←→λ]+)\s*(?:\{[^:]*:.*\}\s*|\(.*\)\s*)*:(?:\s|$)")
LET = re.compile(r"\blet ([^\s:(){}=]+) [:=]")
# lemmas that are named after two functions, the outer one first or the one that they are of
KEPT = {"insert-count", "sorted-count", "sorted-length", "later-insert", "later-sorted"}
# a function of a test, which no proof file sees
TESTS = {"clock_at"}
# names that would fall together with those of functions of src/: what a function gives is called OF, and a lemma gets its ending
APART = {n: n.replace("-", "_") + "_of" for n in ("next-round", "send-time", "slot-end", "round-end")} | {
    n: n.replace("-", "_") + "_lem"
    for n in (
        "limits-can-be-kept", "heard-with-leads", "nothing-overlaps", "slots-follow", "course-can-be-run", "message-can-pass",
        "round-can-be-heard", "length-is-tight", "short-length-fails", "short-pause-fails",
    )
}


def files(suffixes):
    for folder, dirs, names in os.walk("."):
        dirs[:] = sorted(d for d in dirs if d not in (".git", "out", "target", "must-fail"))
        for name in sorted(names):
            if name.endswith(suffixes):
                yield os.path.join(folder, name)


def text(path):
    with open(path, encoding="utf-8") as f:
        return f.read()


def made(path):
    """Whether the file's names are Rattle's own, made of the code's names."""
    return os.path.basename(path) in ("Answers.antt", "Invariants.antt", "Proof.antt")


def defined():
    """The repository's own names with a dash, and whether each is a type or another word."""
    kinds = {}
    for path in files((".antt",)):
        for line in text(path).split("\n"):
            if line.lstrip().startswith("--"):
                continue
            m = DEFINED.match(line)
            if m and not (made(path) and "goal." in line):
                name = m[3]
                kinds[name] = "type" if name[0].isupper() else "word"
            for name in LET.findall(line):
                kinds.setdefault(name, "word")
    return {n: k for n, k in kinds.items() if n not in KEPT and "-" in n[1:] and re.match(r"[A-Za-z][A-Za-z0-9'_-]*$", n)}


def respelt(name, kind):
    if name in APART:
        return APART[name]
    if kind == "type":
        return "".join(p[0].upper() + p[1:] for p in name.split("-") if p)
    return name.replace("-", "_")


def main():
    new = {n: respelt(n, k) for n, k in defined().items()}
    words = collections.Counter()
    for path in files((".antt", ".rt")):
        words.update(NAME.findall(text(path)))
    together = [(n, m) for n, m in new.items() if words[m] and m not in TESTS]
    twice = [m for m, k in collections.Counter(new.values()).items() if k > 1]
    if "--dry" in sys.argv:
        for n in sorted(new):
            print(n, "->", new[n])
        left = sorted(w for w in words if re.match(r"[A-Za-z][A-Za-z0-9'_]*(-[A-Za-z0-9'_]+)+$", w) and w not in new)
        print("left:", *left)
    for n, m in together:
        print(f"falls together: {n} and {m}")
    for m in twice:
        print("two names become", m)
    if together or twice or "--dry" in sys.argv:
        return 1
    for path in files((".antt", ".rt", ".md")):
        old = text(path)
        if path.endswith(".md"):
            made_new = re.sub(r"`[^`\n]+`", lambda q: NAME.sub(lambda m: new.get(m[0], m[0]), q[0]), old)
        else:
            made_new = NAME.sub(lambda m: new.get(m[0], m[0]), old)
        if made_new != old:
            with open(path, "w", encoding="utf-8") as f:
                f.write(made_new)
    print(f"{len(new)} names respelt")
    return 0


sys.exit(main())
