#!/usr/bin/env python3
"""Brings this repository's own names to today's spelling, once, after port.py: words in snake case, a dash only between two names.

usage: python3 tools/respell.py        at the top; prints each old name and the new one

Names of types and modules keep their capitals, and names that Rattle makes or that the sources have stay as they are.
A name that would fall together with another one keeps its spelling; it is printed with 'kept'.
"""

import glob
import re

TOKEN = re.compile(r"[^\W\d][\w'-]*")
DECLARED = re.compile(r"^\s*((?:(?:abbrev|unfoldable|pub|data|record)\s+)*)([^\s:(){}=;,]+(?:\s+[^\s:(){}=;,]+)*?)\s*(?:[({].*?[)}]\s*)*:\s")
NOT_DECLARED = ("--", "use ", "pub use ", "module ", "unfolding", "pub mod", "mod ")
# words of the library that a dash may stand behind, as in length-drop
LIBRARY = "length drop take map append replicate get_or mem".split()
# fields of claims that are named as the wrong programs are that they speak of
FIELDS = "answers-nine passes-all refuses-all gives-zero leaves-row reports-budget at-once".split()
# what std calls otherwise today
PARTS = {"getD": "get_or"}


def antt():
    return sorted(glob.glob("crates/*/specs/**/*.antt", recursive=True) + glob.glob("crates/*/proofs/**/*.antt", recursive=True))


def is_walk(path):
    return path.endswith("/Proof.antt")


def read(path):
    with open(path, encoding="utf-8") as f:
        return f.read()


def declared(text):
    for line in text.split("\n"):
        if not line.strip().startswith(NOT_DECLARED):
            m = DECLARED.match(line.rstrip() + " ")
            if m:
                yield from m[2].split()


def snake(word):
    if word in PARTS:
        return PARTS[word]
    if not word[:1].islower():
        return word
    return re.sub(r"(?<=[a-z0-9])([A-Z])", lambda m: "_" + m[1].lower(), word)


def respelled(name):
    first, *rest = [snake(w) for w in name.split("-")]
    if not rest:
        return first
    return first + ("-" if first in LIBRARY else "_") + "_".join(rest)


def table():
    own, taken = [], set()
    for path in antt():
        if not is_walk(path):
            text = read(path)
            taken |= set(TOKEN.findall(text))
            own += [n for n in declared(text) if TOKEN.fullmatch(n)]
    for path in glob.glob("crates/*/src/*.rt"):
        taken |= set(re.findall(r"^ +(?:pub )?(\w+): ", read(path), re.M))
    # a lemma of netlist has this name, and row, which defines it, cites none of that lemma's module
    taken.discard("numbers_fit")
    new = {}
    # names of definitions come before those of lemmas and fields, which have a dash
    for name in sorted(set(own), key=lambda n: ("-" in n, n)):
        to = respelled(name)
        if to == name:
            continue
        if to in taken and name not in FIELDS:
            to += "_lem"
        if to in taken:
            print(f"kept\t{name}\t{to}")
            continue
        new[name] = to
        taken.add(to)
    return new


def clauses(text, turn):
    """Turns what a .rt file has of contracts: its ghost use lines and what stands in the braces of its clauses."""
    out, at = [], 0
    for m in re.finditer(r"^ghost use [^;]*;|^\s*(?:requires|ensures)\b[^{\n]*\{", text, re.M):
        if m.start() < at:
            continue
        end = m.end()
        if not m[0].startswith("ghost"):
            depth = 1
            while depth:
                depth += {"{": 1, "}": -1}.get(text[end], 0)
                end += 1
        out += [text[at : m.start()], turn(text[m.start() : end])]
        at = end
    return "".join(out) + text[at:]


def main():
    new = table()

    def turn(text):
        return TOKEN.sub(lambda m: new.get(m[0], m[0]), text)

    def ticked(text):
        return re.sub(r"`[^`\n]+`", lambda m: turn(m[0]), text)

    files = [(p, turn) for p in antt()]
    files += [(p, lambda t: clauses(t, turn)) for p in glob.glob("crates/*/src/*.rt")]
    files += [(p, turn) for p in glob.glob("crates/*/must-fail/*.edit")]
    files += [(p, ticked) for p in glob.glob("docs/*.md") + ["README.md"]]
    files += [(p, turn) for p in glob.glob("tests/second/src/bin/cases.rs") + glob.glob("tests/second/src/bin/cases/*.rs")]
    for path, how in files:
        text = read(path)
        turned = how(text)
        if turned != text:
            with open(path, "w", encoding="utf-8") as f:
                f.write(turned)
    for name, to in sorted(new.items()):
        print(f"{name}\t{to}")


if __name__ == "__main__":
    main()
