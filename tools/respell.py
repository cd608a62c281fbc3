#!/usr/bin/env python3
"""Respells the repository's own ghost names as today's Rattle spells names.

usage: python3 tools/respell.py [--list]      at the top of the repository, once, after /opt/rattle/port/port.py

A definition, lemma, field or constructor that this repository declares in specs/ or proofs/, a name that a use brings one under, and a name
that a let binds, lose the dash in their name:
words become snake case (place-below: place_below), types, records and modules upper camel case (Made-over: MadeOver). Names of goals,
which Rattle makes, and names of the library keep their dashes. Strings and comments of src/ stay as they are.
With --list nothing is written: the new names are printed, and those that fall together.
"""
import os
import re
import sys

WORD = r"[A-Za-z_][A-Za-z0-9_']*(?:-[A-Za-z0-9_']+)*"
TOKEN = re.compile(r"(?<![\w'◌-])" + WORD)
FOREIGN = re.compile(r"^\s*(?:ghost |pub )*use (?:Rattle\.std|mathlib|native|Prim|borrow|denote|lib|mir|Rattle\.core)[\w.+'-]*\.\{([^}]*)\}", re.M)
# a goal, or a step of the code, as Rattle names it
MADE = re.compile(r"^(?:\w+-requires|returns|loop|invariant|decreases|overflow|bounds|slice_bounds|nonzero|in|in_ok|in_err|if|then|else|match|index|prove)(?:_[a-z]+)?(?:-|$)")


def files():
    for folder, dirs, names in os.walk("crates"):
        dirs[:] = sorted(d for d in dirs if d not in ("out", "must-fail", "data"))
        for n in sorted(names):
            if n.endswith((".antt", ".rt")):
                yield os.path.join(folder, n)


def pages():
    yield "README.md"
    for n in sorted(os.listdir("docs")):
        if n.endswith(".md"):
            yield os.path.join("docs", n)


def read(path):
    with open(path, encoding="utf-8") as f:
        return f.read()


def code_of(text):
    return re.sub(r"--( .*|-*)$", "", text, flags=re.M)


def declared(texts):
    """The names with a dash that the repository's own files of specs/ and proofs/ declare, but for the goals that Answers.antt answers."""
    own, fields = set(), set()
    for path, text in texts.items():
        if not path.endswith(".antt"):
            continue
        body = code_of(text)
        goals = set(re.findall(r"^(?:abbrev )?(?:pub )?(" + WORD + r")\s*:\s*goal\.", body, re.M))
        for m in re.finditer(r"^(\s*)((?:(?:pub|abbrev|unfoldable|record|data|module|open|ruleset) )*)(" + WORD + r")\s*(?=[:({]|where|=)", body, re.M):
            name = m.group(3)
            if "-" not in name or name in goals:
                continue
            (own if not m.group(1) else fields).add(name)
    for text in texts.values():
        body = code_of(text)
        # names that a use brings under, and that a let binds
        for m in re.finditer(r"(?: as |\blet )(" + WORD + r")(?=\s*[,}:=])", body):
            if "-" in m.group(1):
                fields.add(m.group(1))
    return own, fields


def new_name(name):
    if name[0].isupper():
        return "".join(p[0].upper() + p[1:] for p in name.split("-"))
    return name.replace("-", "_")


def main(argv):
    texts = {p: read(p) for p in files()}
    own, fields = declared(texts)
    foreign = set()
    for t in texts.values():
        for m in FOREIGN.finditer(t):
            foreign |= set(re.findall(WORD, m.group(1)))
    both = (own | fields) & foreign
    every = set()
    for t in texts.values():
        every |= set(TOKEN.findall(code_of(t)))
    names = {n: new_name(n) for n in sorted((own | fields) - foreign)}
    if argv == ["--list"]:
        for n, m in names.items():
            print(n, m, "FALLS" if m in every else "", "MADE" if MADE.match(n) else "", "FIELD" if n in fields and n not in own else "")
        print("foreign too:", sorted(both))
        print("left:", sorted(w for w in every if "-" in w and w not in names and w not in foreign))
        return 0
    for p, t in texts.items():
        def turn(m):
            before = t[: m.start()]
            w = m.group(0)
            if w not in names or re.search(r"(?:goal|goals|need)\.$", before):
                return w
            return names[w]
        if p.endswith(".rt"):
            out = []
            for line in t.split("\n"):
                bare = line.split("//")[0]
                out.append(line if '"' in bare else TOKEN.sub(lambda m: names.get(m.group(0), m.group(0)), bare) + line[len(bare):])
            n = "\n".join(out)
        else:
            n = TOKEN.sub(turn, t)
        if n != t:
            with open(p, "w", encoding="utf-8") as f:
                f.write(n)
    for p in pages():
        t = read(p)
        # a page names a definition between backquotes; an edit has clauses only where it is of a definition
        n = re.sub(r"`[^`\n]*`", lambda q: TOKEN.sub(lambda m: names.get(m.group(0), m.group(0)), q.group(0)), t)
        if n != t:
            with open(p, "w", encoding="utf-8") as f:
                f.write(n)
    return 0


if __name__ == "__main__":
    raise SystemExit(main(sys.argv[1:]))
