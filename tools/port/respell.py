#!/usr/bin/env python3
"""Spells this repository's own definitions and lemmas as today's library does: words in snake case, a dash only where it joins two names.

usage: python3 tools/port/respell.py    at the top, once, right after the toolchain's own scripts; it rewrites files in place

A name that is declared in specs/ or proofs/ turns everywhere: in .antt files, in the clauses and ghost items of .rt files, in the text of
must-fail edits, and in code spans of .md files. Types keep upper camel case. Where two names would fall together, the later one, a lemma's,
gets `_lem`; a line that begins 'met:' says so.
"""

import glob
import os
import re

WORD = re.compile(r"[^\s(){}.;,@\"«»]+")
DECLARED = re.compile(r"^( *)((?:(?:abbrev|unfoldable|pub|data|record|ruleset) +)*)([^\s:(){};,.@\"«»]+(?: [^\s:(){};,.@\"«»]+)*?)(?: +(?:\{[^{}\n]*\}|\([^()\n]*\)))* :(?= |$)")
FIELDS = re.compile(r"^ *(?:abbrev |unfoldable )*(?:pub )?(?:record|data) ")
# The words that a lemma's name may join by a dash: our definitions, and these of the library.
JOINED = set("length take drop append get_or map reverse all_of put16 put32 get16 get32 encode decode omega".split())
# The proof of one function, whose names are mostly made from its code.
OF_A_FUNCTION = re.compile(r"/proofs/(?:.*/)?(?:Proof\.antt|Proof/|\+)")
MADE = re.compile(r": (?:tie|goal)\.")
WORDS_OF_ANTT = set("let in where do use pub abbrev unfoldable data record mutual if then else elim".split())
CLAUSE = re.compile(r"^\s*(requires|ensures|ghost)\b")
SPAN = re.compile(r"`[^`\n]+`")


def files(*patterns):
    return sorted(p for q in patterns for p in glob.glob(q, recursive=True) if "/out/" not in p)


def antt():
    return files("crates/*/specs/**/*.antt", "crates/*/proofs/**/*.antt")


def read(p):
    with open(p, encoding="utf-8") as f:
        return f.read()


def declared():
    """Each declared name, with whether it is declared in specs/."""
    names = {}
    for p in antt():
        if OF_A_FUNCTION.search(p):
            continue
        for line in read(p).split("\n"):
            m = None if line.lstrip().startswith("--") or MADE.search(line) else DECLARED.match(line)
            for n in m[3].split() if m else ():
                if n not in WORDS_OF_ANTT and (len(m[1]) <= 4):
                    names[n] = names.get(n, False) or "/specs/" in p
    return names


def snake(part):
    if part[:1].isupper():
        return part
    part = re.sub(r"(?<=[a-z0-9])([A-Z])(?=[a-z])", lambda m: "_" + m[1].lower(), part)
    part = re.sub(r"(?<=[a-z0-9])([A-Z])(?![a-z])", lambda m: "_" + m[1].lower(), part)
    return re.sub(r"([A-Z]+)", lambda m: m[1].lower(), part)


def table():
    names = declared()
    plain = {snake(n) for n, spec in names.items() if spec and "-" not in n} | JOINED
    new, met, taken = {}, [], {}

    def spelled(n):
        if not re.search(r"[A-Za-z]", n) or re.search(r"[◌≡∷⊢⊥]", n):
            return n
        parts = [snake(p) for p in n.split("-")]
        for at in range(1, len(parts)):
            two = "_".join(parts[:at]), "_".join(parts[at:])
            if all(it in plain for it in two) or parts[0][:1].isupper():
                return "-".join(two)
        return "_".join(parts)

    for n in sorted(names, key=lambda n: (not names[n], "-" in n or "_" in n, n)):
        s = spelled(n)
        if s in taken and taken[s] != n:
            while s in taken:
                s += "_lem"
            met.append(f"met: {n} is {s} beside {taken[spelled(n)]}")
        taken[s] = n
        if s != n:
            new[n] = s
    return new, met


def turned(text, names):
    return WORD.sub(lambda m: names.get(m[0], m[0]), text)


def in_antt(text, names):
    out = []
    for line in text.split("\n"):
        at = re.search(r"(?<![^\s(){}.;,])--(?= |$)", line)
        code, said = (line[: at.start()], line[at.start() :]) if at else (line, "")
        out.append(turned(code, names) + SPAN.sub(lambda m: turned(m[0], {f"`{k}`": f"`{v}`" for k, v in names.items()} | names) if len(m[0]) < 60 else m[0], said) if said else turned(code, names))
    return "\n".join(out)


def in_rt(text, names):
    """Turns a .rt file's ghost items and clauses, and code spans of its comments."""
    out, depth, inside = [], 0, False
    for line in text.split("\n"):
        if line.lstrip().startswith("//"):
            out.append(SPAN.sub(lambda m: spans(m[0], names), line))
            continue
        if not inside and CLAUSE.match(line):
            inside, depth = True, 0
        if inside:
            line = turned(line, names)
            depth += line.count("{") - line.count("}")
            inside = depth > 0 or (line.lstrip().startswith("ghost use") and not line.rstrip().endswith(";"))
        out.append(line)
    return "\n".join(out)


def spans(span, names):
    return "`" + turned(span[1:-1], names) + "`"


def in_edit(text, names):
    out, rt = [], False
    for line in text.split("\n"):
        if line.startswith("file:"):
            rt = line.strip().endswith(".rt")
        if re.match(r"(old|new):", line):
            head, rest = line[:4], line[4:]
            out.append(head + (in_rt(rest, names) if rt else turned(rest, names)))
        else:
            out.append(line)
    return "\n".join(out)


def write(p, old, new):
    if new != old:
        with open(p, "w", encoding="utf-8") as f:
            f.write(new)


def main():
    names, met = table()
    for p in antt():
        t = read(p)
        write(p, t, in_antt(t, names))
    for p in files("crates/*/src/**/*.rt"):
        t = read(p)
        write(p, t, in_rt(t, names))
    for p in files("crates/*/must-fail/*.edit"):
        t = read(p)
        write(p, t, in_edit(t, names))
    for p in files("*.md", "docs/**/*.md", "tools/*.md"):
        t = read(p)
        write(p, t, SPAN.sub(lambda m: spans(m[0], names), t))
    print("\n".join(met))
    print(f"respell: {len(names)} names")


if __name__ == "__main__":
    main()
