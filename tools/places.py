#!/usr/bin/env python3
"""Lists the places of the code that docs/DESIGN-PASS.md counts, a section a point.

    python3 tools/places.py [CRATES]         counts
    python3 tools/places.py -v [CRATES]      each place too

CRATES is a folder of crates, the repository's by default.
"""
import collections
import glob
import os
import re
import sys


def functions(text):
    """Each function of a file: its name, its line, its head up to the body, its parameters, its clauses."""
    out = []
    for m in re.finditer(r"^[ ]*(?:pub(?:\([a-z]+\))? )?(?:const )?(?:extern \"C\" )?fn (\w+)", text, re.M):
        depth, i = 0, text.index("(", m.end())
        begin = i
        while True:
            depth += {"(": 1, ")": -1}.get(text[i], 0)
            i += 1
            if depth == 0:
                break
        names = [p.strip().split(":")[0].replace("mut ", "") for p in split(text[begin + 1:i - 1], ",") if p.strip()]
        kinds = [p.strip() for p in split(text[begin + 1:i - 1], ",") if p.strip()]
        clauses = []
        for line in text[i:].split("\n")[1:]:
            c = re.match(r"^\s+(requires|ensures)\b\s*\w*\s*\{ (.*) \}\s*$", line)
            if c:
                clauses.append((c.group(1), c.group(2)))
            elif line.strip() and not line.strip().startswith(("where", "->")):
                break
        out.append((m.group(1), text.count("\n", 0, m.start()) + 1, names, kinds, clauses))
    return out


def split(text, mark):
    """The parts between marks that stand outside of brackets."""
    parts, depth, part = [], 0, ""
    for c in text:
        depth += {"(": 1, "[": 1, "{": 1, ")": -1, "]": -1, "}": -1}.get(c, 0)
        if mark == ",":
            depth += {"<": 1, ">": -1}.get(c, 0)
        if c == mark and depth <= 0:
            parts.append(part)
            part = ""
        else:
            part += c
    return parts + [part]


def facts_of(clause):
    """The facts of a clause, without what tells when they hold; a group of facts in brackets is taken apart."""
    out = []
    for part in split(clause, "×"):
        p = re.sub(r"\.(now|old|new|entry)\b", "", part.strip())
        if p.startswith("(") and p.endswith(")"):
            out += facts_of(p[1:-1])
        else:
            out.append(p)
    return out


def loops(text):
    """Each `while` and `loop`: its line, its head, and the variables of its head that its body counts up or down."""
    lines = text.split("\n")
    out = []
    for i, line in enumerate(lines):
        m = re.match(r"^(\s*)(while|loop)\b(.*)", line)
        if not m:
            continue
        j = i + 1
        while not lines[j].startswith(m.group(1) + "}"):
            j += 1
        body = "\n".join(lines[i + 1:j])
        counted = [v for v, _, _ in re.findall(r"\b(\w+) ([+-])= (\d+)[;,]", body) if re.search(rf"\b{v}\b", m.group(3))]
        out.append((i + 1, line.strip(), counted))
    return out


def main():
    words = [w for w in sys.argv[1:] if w != "-v"]
    top = words[0] if words else os.path.join(os.path.dirname(os.path.abspath(__file__)), "..", "crates")
    files = {os.path.relpath(f, top): open(f).read() for f in sorted(glob.glob(os.path.join(top, "*", "src", "*.rt")))}
    sections = collections.OrderedDict()

    def add(section, place):
        sections.setdefault(section, []).append(place)

    named = collections.defaultdict(list)
    facts = collections.defaultdict(list)
    groups = collections.defaultdict(list)
    for f, text in files.items():
        lines = text.split("\n")
        for i, line in enumerate(lines):
            at = f"{f}:{i + 1}: {line.strip()}"
            if re.match(r"^(pub )?enum ", line):
                add("1 own enums", at)
            if re.match(r"^    (pub )?\w+: bool,$", line) and re.match(r"^(pub )?struct ", next(
                    l for l in reversed(lines[:i]) if re.match(r"^\S", l))):
                add("1 flags in structs", at)
            if re.match(r"^const \w+: (u8|u16|u32|usize) = \d+;", line):
                add("1 constants that are numbers", at)
            if line.startswith("//") and re.search(
                    r"\b0 (if|where|for|at the|past the)\b|, 0 (if|for)|count, while there|(if|where) there is none|at the latest", line):
                add("1 sentinels that a comment tells", at)
            if re.search(r"\.number [!=]= 0|^\s+number: 0,$", line):
                add("1 refusals numbered 0", at)
            if re.search(r"(?<![\w.])(m|n|k|mark|\w+\[[^\]]*\]) (==|!=|<|<=) \d+\b|\b\d+ (==|!=|<|<=) (m|n|k|mark)\b", line) and not line.startswith("//"):
                add("1 marks tested as numbers", at)
        for name, line, names, kinds, clauses in functions(text):
            named[name].append(f"{f}:{line}")
            if re.match(r"^(same_|is_same|copy_|low|high|small|least|wide|read16|read32|write16|write32|fill|is_every|is_written|verdict_|print_|below|less|entries_within|within|quad|pair$|is_overlap|is_disjoint|literal_|entry_at|place_in|fuel_in|byte_or|byte_at|pack$|unpack$|flip|trail|lead_of)", name):
                add("4 functions by hand", f"{f}:{line}: {name}")
            for k in kinds:
                if k.endswith(": bool"):
                    add("7 parameters that are flags", f"{f}:{line}: {name}: {k}")
            for a in [("work", "plan"), ("b", "work", "plan"), ("out", "at"), ("room", "from"), ("left", "right", "fuel"), ("entries", "deep", "always"), ("work", "functions", "at", "n"), ("body", "work", "p", "v", "end")]:
                if all(x in names for x in a):
                    groups[a].append(f"{f}:{line}: {name}")
            for kind, clause in clauses:
                if kind == "requires":
                    for part in facts_of(clause):
                        facts[part].append(f"{f}:{line}: {name}")
        for line, head, counted in loops(text):
            add("3 loops in all", f"{f}:{line}: {head}")
            if counted:
                add("3 loops that count", f"{f}:{line}: {head}")
    for name, places in named.items():
        if len(places) > 1:
            add("2 names of more than one function", f"{name}: {' '.join(places)}")
    for fact, places in sorted(facts.items(), key=lambda x: -len(x[1])):
        if len(places) > 2:
            add("5 facts in three or more contracts", f"{len(places)} {fact}")
    for a, places in groups.items():
        if len(places) > 2:
            add("5 parameters that travel together", f"{len(places)} ({', '.join(a)})")
    for section in sorted(sections):
        print(f"{len(sections[section]):4} {section}")
        if "-v" in sys.argv:
            for place in sections[section]:
                print("      ", place)


main()
