"""Document 01's worked program as an image, with the spans of examples/worked.ref.

    python3 tools/worked.py > examples/worked.image
    python3 tools/worked.py decimal

The second form prints the bytes in decimal, as crates/program/proofs/Examples.antt has them.
"""

import sys
from pathlib import Path

from reader import Bracket, Call, Character, Function, Program, Sentence, Span, Variable, encode

TEXT = (Path(__file__).parent.parent / "examples" / "worked.ref").read_text()


def span(text, after=0):
    """Where `text` first stands, not before `after`."""
    start = TEXT.index(text, after)
    return Span(start, start + len(text))


def worked_program():
    equals = TEXT.index("=")
    call = Call(
        b"F",
        [Character(65, span("'A'")), Variable("e", b"X", span("e.X", equals))],
        span("<F 'A' e.X>"),
    )
    go_sentence = Sentence([Variable("e", b"X", span("e.X"))], [], [call], span("e.X = <F 'A' e.X>;"))
    go = Function(b"Go", [go_sentence], True, span("$ENTRY Go { e.X = <F 'A' e.X>; }"))
    line = TEXT.index("\n") + 1
    first = Sentence(
        [Character(65, span("'A'", line)), Variable("e", b"Y", span("e.Y", line))],
        [],
        [Variable("e", b"Y", span("e.Y;", line)._replace(end=TEXT.index("e.Y;", line) + 3))],
        span("'A' e.Y = e.Y;", line),
    )
    second = Sentence(
        [Bracket([Variable("e", b"Z", span("e.Z"))], span("(e.Z)"))],
        [],
        [Character(66, span("'B'"))],
        span("(e.Z) = 'B';"),
    )
    f = Function(b"F", [first, second], False, span("F { 'A' e.Y = e.Y; (e.Z) = 'B'; }", line))
    return Program([], [go, f])


def main():
    image = encode(worked_program())
    if sys.argv[1:] == ["decimal"]:
        print(" ∷ ".join(str(byte) for byte in image) + " ∷ []")
    else:
        sys.stdout.buffer.write(image)


if __name__ == "__main__":
    main()
