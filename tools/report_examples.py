"""Holds the report texts of crates/meaning/proofs/ReportExamples.antt to the Rust's.

The oracle's reports have the last line that document 02 asks for where it departs.

    python3 tools/report_examples.py [ORACLE]

Each program below is one of that file's, by its name there; ORACLE is the driver that
tools/oracle/build.sh built (default target/oracle/oracle).
"""

import re
import sys
from pathlib import Path

from oracle import Oracle
from reader import Block, Bracket, Call, Character, Declaration, Function, Program, Sentence, Span, Variable, encode

ROOT = Path(__file__).parent.parent
EXAMPLES = ROOT / "crates/meaning/proofs/ReportExamples.antt"


def chars(text):
    return [Character(ord(letter)) for letter in text]


def var(text):
    return Variable(text[0], text[2:].encode())


def rule(pattern, result=()):
    return Sentence(list(pattern), [], list(result))


def call(name, *terms):
    return Call(name.encode(), list(terms))


def define(name, *sentences, entry=False):
    return Function(name.encode(), list(sentences), entry)


def at(start, end):
    return Character(65, Span(start, end))


TWO = define("F", rule(chars("A")), rule(chars("B")))
LETTERS = [var("e.1"), var("e.2"), var("e.3"), *chars("B")]

PROGRAMS = {
    "worked": [
        define("Go", rule([var("e.X")], [call("F", *chars("A"), var("e.X"))]), entry=True),
        define("F", rule([*chars("A"), var("e.Y")], [var("e.Y")]), rule([Bracket([var("e.Z")])], chars("B"))),
    ],
    "nothing": [],
    "declared": [],
    "bare": [define("Go")],
    "lists": [
        define(
            "Go",
            rule(
                [var("e.X")],
                [
                    call("F", call("G", var("e.X"))),
                    call("g", *chars("A"), Bracket([var("e.X")])),
                    call("H", *chars("B")),
                ],
            ),
            entry=True,
        ),
        TWO,
        define("G", rule([var("s.Y"), var("t.Z")]), rule(chars("B")), rule([var("e.X")])),
        define("H", rule(chars("A"))),
    ],
    "untested": [
        define("Go", rule([], [call(name, call("G")) for name in "FHf"])),
        *(define(name, rule([])) for name in "FGH"),
    ],
    "dynamic": [define("Go", rule([var("e.X")], [call("mU", var("e.X")), call("F", *chars("A"))])), TWO],
    "dynamic_block": [
        define(
            "Go",
            rule(
                [var("e.X")],
                [Block([var("e.X")], [rule([var("e.Y")], [call("UP", var("e.Y"))])]), call("F", *chars("A"))],
            ),
        ),
        TWO,
    ],
    "cascade": [
        define("Go", rule([], [call("F", *chars("A")), call("G", *chars("Y"))])),
        define("F", rule(chars("A")), rule(chars("B"), [call("G", *chars("X"))])),
        define("G", rule(chars("X")), rule(chars("Y"))),
    ],
    "spanned": [
        define(
            "Go",
            rule([], [call("F", at(1, 2)), call("F", at(3, 4)), Call(b"F", [at(3, 4)], Span(7, 9))]),
        ),
        TWO,
    ],
    "emptied": [
        define("Go", rule([], [call("F", *chars("A"))])),
        define("F", rule(chars("B")), rule(chars("C")), rule(chars("C"))),
    ],
    "uncalled": [define("Go", rule([], [call("G")])), define("G")],
    "numbered": [
        define(
            "Go",
            rule(
                [var("s.X"), var("s.Y")],
                [
                    call("F", var("s.X"), var("s.x")),
                    call("f", var("s.Y"), var("s.Y")),
                    call("F", var("s.X"), var("s.Y")),
                ],
            ),
        ),
        define("F", rule([var("s.A"), var("s.B")]), rule(chars("C"))),
    ],
    "exhausted": [
        define("Go", rule([], [call("F", *chars("A" * 27))])),
        define("F", rule(LETTERS), rule([var("e.X")])),
    ],
}

DECLARATIONS = {"declared": [Declaration([b"F"])]}


def texts():
    """The texts in the file, by the names of their programs."""
    source = EXAMPLES.read_text()
    found = re.findall(r'^(\w+?)[_-]report : reported \w+\s*≡ ascii "([^\n]*)"$', source, re.M)
    return {name: text.replace("\\n", "\n").replace('\\"', '"').encode() for name, text in found}


def main():
    path = sys.argv[1] if len(sys.argv) > 1 else str(ROOT / "target/oracle/oracle")
    stored = texts()
    if set(stored) != set(PROGRAMS):
        sys.exit(f"programs and texts differ: {sorted(set(stored) ^ set(PROGRAMS))}")
    asking = Oracle(path)
    for name, functions in PROGRAMS.items():
        report = asking.clean(encode(Program(DECLARATIONS.get(name, []), functions)))[1]
        if report != stored[name]:
            sys.exit(f"{name}: the oracle says\n{report.decode()}")
    print(f"{len(PROGRAMS)} reports are the Rust's, last lines as document 02 asks for them")


if __name__ == "__main__":
    main()
