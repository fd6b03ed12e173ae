"""Holds the two implementations of the notation to each other: `refal` and image.py.

    python3 tools/notation.py [REFAL] [--programs N]

REFAL is the command (default bindings/rust/target/debug/refal). Random programs must
give the same text from their images and the same image from their texts, also when the
texts are laid out otherwise; texts with random faults must be answered with the same
line and column and the same words; and every character must be written alike.
"""

import argparse
import random
import subprocess
import sys
from pathlib import Path

import generate
from image import NotationError, image_of, text_of
from reader import Character, Function, Program, Sentence, encode

ROOT = Path(__file__).resolve().parent.parent
REFAL = ROOT / "bindings/rust/target/debug/refal"
FAULTS = 4  # faulty texts for each program
CHARACTERS = 2400  # as many as one image holds
LARGEST_CODE = 0x10FFFF
SURROGATES = range(0xD800, 0xE000)

# Letters that faults put in: signs, quotes, what begins comments, and what is no text at all.
PUT_IN = [b"(", b")", b"<", b">", b"[", b"]", b"{", b"}", b"=", b",", b":", b";", b"'", b'"', b"`", b"\\", b"\n", b"*"]
PUT_IN += [b"/*", b"*/", b"e.", b"s.", b"7", b"-", b"$ENTRY ", b"$EXTERN ", b"\\x{41}", b"\\x{110000}", b"\xff", b"\xd1\x8f", b"%"]
# Blanks and comments that can stand wherever a blank can.
BLANKS = [b" ", b"  ", b"\t", b"\n", b"\r\n", b" /* ; */ ", b"\n* = ;\n", b"/**/"]


class Refal:
    """The command, asked once for each text or image."""

    def __init__(self, path):
        self.path = str(path)

    def ask(self, command, data):
        """What it prints, and the complaint's first line."""
        asked = subprocess.run([self.path, command], input=data, capture_output=True)
        if asked.returncode not in (0, 1):
            sys.exit(f"refal {command} ended with {asked.returncode}: {asked.stderr.decode(errors='replace')}")
        complaint = asked.stderr.decode(errors="replace").split("\n")[0]
        return asked.stdout, complaint if asked.returncode else None


def answer_of(text):
    """image.py's image, or its complaint as refal prints it."""
    try:
        return image_of(text), None
    except NotationError as error:
        return b"", f"refal: standard input: {error.line(text)}"


def check(condition, what, data):
    if not condition:
        sys.exit(f"{what} differs on {data!r}")


def laid_out(text, dice):
    """The same tokens, with other blanks: between quotes all stays."""
    pieces = []
    inside = None
    for place in range(len(text)):
        letter = text[place : place + 1]
        if inside is None and letter in (b" ", b"\n"):
            letter = dice.choice(BLANKS)
        elif inside is None and letter in (b"'", b'"', b"`"):
            inside = letter
        elif letter == inside and not escaped(text, place):
            inside = None
        pieces.append(letter)
    return b"".join(pieces)


def escaped(text, place):
    before = text[:place]
    return (len(before) - len(before.rstrip(b"\\"))) % 2 == 1


def faulty(text, dice):
    """A text with a few bytes put in, taken out or written over."""
    text = bytearray(text)
    for _ in range(dice.randint(1, 3)):
        start = dice.randrange(len(text) + 1)
        end = min(len(text), start + dice.choice((0, 0, 1, 1, 5)))
        text[start:end] = dice.choice([*PUT_IN, b""])
    return bytes(text)


def check_text(refal, text):
    check(refal.ask("encode", text) == answer_of(text), "encode", text)


def check_program(refal, program, dice):
    image = encode(program)
    text = text_of(program)
    check(refal.ask("decode", image) == (text, None), "decode", image)
    check_text(refal, text)
    check_text(refal, laid_out(text, dice))
    refused = 0
    for _ in range(FAULTS):
        wrong = faulty(text, dice)
        # An image is told apart from a text by its bytes, and no fault makes one of the other.
        check_text(refal, wrong)
        refused += answer_of(wrong)[1] is not None
    return refused


def check_characters(refal):
    codes = [code for code in range(LARGEST_CODE + 1) if code not in SURROGATES]
    for start in range(0, len(codes), CHARACTERS):
        terms = [Character(code) for code in codes[start : start + CHARACTERS]]
        program = Program([], [Function(b"F", [Sentence(terms)])])
        text = text_of(program)
        check(refal.ask("decode", encode(program)) == (text, None), f"characters from {codes[start]}", b"")
        check(refal.ask("encode", text) == answer_of(text), f"text of characters from {codes[start]}", b"")
    print(f"{len(codes)} characters are written and read alike")


def main():
    parser = argparse.ArgumentParser()
    parser.add_argument("refal", nargs="?", default=REFAL)
    parser.add_argument("--programs", type=int, default=400)
    arguments = parser.parse_args()
    refal = Refal(arguments.refal)
    dice = random.Random(1)
    programs = [generate.good(seed) for seed in range(arguments.programs)]
    programs += [generate.typical(size, size) for size in (25, 300, 8192, 32768)]
    refused = sum(check_program(refal, program, dice) for program in programs)
    texts = FAULTS * len(programs)
    print(f"{len(programs)} programs are written and read alike, {refused} of {texts} faulty texts answered alike")
    check_characters(refal)


if __name__ == "__main__":
    main()
