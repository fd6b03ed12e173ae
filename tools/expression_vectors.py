"""Writes the corpus that the expression entry point is replayed on.

    python3 tools/expression_vectors.py > crates/vectors/data/expression
    python3 tools/expression_vectors.py check COUNT

The stream is records of 16 bytes, little-endian: image length (u16), first and
second sentence number (u16 each; 65535 stands for the largest usize), length of
the lent slice (u16), expected number (u8, 0 or the refusal), expected verdict (u8:
0 Disjoint, 1 Overlap, 2 Unknown), expected entries spent (u16), expected place
(u16), and expected length of the expression (u16; 0 where nothing is written). If the
image length is not 0, that many image bytes follow and become the current image; then
the expression's bytes. `crates/vectors` replays them on the entry point, and
`tools/expressions.c` on the static library.

Every answer is computed here: the search is written from document 01 ("The overlap
verdict") and the expression from document 02, request 5, in one descent, so that the
code in crates/, a search and then a walk, is held to another form of the same definition. Refusals 1 and 4 to 11 come from reader.py. Each expression is also
given to a matcher that knows nothing of the search, and has to match both patterns.

`check` makes COUNT random pairs and says how many of each verdict there were, and that
both patterns matched each expression; nothing is written.
"""

import struct
import sys
import threading
from collections import Counter
from functools import lru_cache

from generate import Dice
from overlap_vectors import (
    CASES,
    FUEL,
    LARGEST,
    brief,
    every_pair,
    one_function,
    random_pattern,
    refused_images,
    sentence_counts,
    sequences,
    terms,
)
from reader import (
    Bracket,
    Character,
    Identifier,
    Number,
    Refusal,
    Variable,
    read_image,
)

DISJOINT, OVERLAP, UNKNOWN = 0, 1, 2
A = Character(65)


# ----------------------------------------------------------------- the search


def is_expression(term):
    return isinstance(term, Variable) and term.kind == "e"


def same_symbol(one, other):
    """01: identifiers without regard to case; 02: numbers by value."""
    if type(one) is not type(other):
        return False
    if isinstance(one, Character):
        return one.code == other.code
    if isinstance(one, Identifier):
        return one.name.lower() == other.name.lower()
    return int(one.name) == int(other.name)


def free(pattern):
    """02: "a free `s.` or `t.` becomes the character A, a free `e.` becomes nothing"."""
    made = []
    for term in pattern:
        if isinstance(term, Bracket):
            made.append(Bracket(free(term.terms)))
        elif not isinstance(term, Variable):
            made.append(term)
        elif term.kind != "e":
            made.append(A)
    return made


class Search:
    """A search with its fuel: a verdict, and for Overlap the expression on its way."""

    def __init__(self):
        self.fuel = FUEL

    def sequence(self, first, second, swapped):
        if self.fuel == 0:
            return UNKNOWN, None
        self.fuel -= 1
        if not first or not second:
            left = first or second
            return (OVERLAP, []) if all(map(is_expression, left)) else (DISJOINT, None)
        if is_expression(first[0]):
            return self.split(first[1:], second, swapped)
        if is_expression(second[0]):
            return self.split(second[1:], first, not swapped)
        heads, met = pair(first[0], second[0], swapped)
        if heads == DISJOINT:
            return DISJOINT, None
        tails, rest = self.sequence(first[1:], second[1:], swapped)
        if tails == DISJOINT:
            return DISJOINT, None
        if heads == tails == OVERLAP:
            return OVERLAP, met + rest
        return UNKNOWN, None

    def split(self, rest, other, swapped):
        """02: "It follows the first successful split of the search." """
        verdict = DISJOINT
        for take in range(len(other) + 1):
            found, expression = self.sequence(rest, other[take:], swapped)
            if found == OVERLAP:
                return OVERLAP, free(other[:take]) + expression
            if found == UNKNOWN:
                verdict = UNKNOWN
        return verdict, None


def pair(one, other, swapped):
    """02: "A literal or a bracket beats a variable", "spelled as in the first pattern"."""
    if isinstance(one, Bracket) and isinstance(other, Bracket):
        verdict, inside = Search().sequence(one.terms, other.terms, swapped)
        return verdict, [Bracket(inside)] if verdict == OVERLAP else None
    for bracket, against in ((one, other), (other, one)):
        if isinstance(bracket, Bracket):
            if isinstance(against, Variable) and against.kind == "t":
                return OVERLAP, free([bracket])
            return DISJOINT, None
    if isinstance(one, Variable):
        return OVERLAP, free([other])
    if isinstance(other, Variable):
        return OVERLAP, free([one])
    if same_symbol(one, other):
        return OVERLAP, [other if swapped else one]
    return DISJOINT, None


def shared(first, second):
    """The verdict, the entries spent, and the expression's bytes."""
    search = Search()
    verdict, expression = search.sequence(first, second, False)
    return verdict, FUEL - search.fuel, expression


def record(expression):
    """02: image records, "spans are zero"; nothing closes the last."""
    made = bytearray()
    for term in expression:
        if isinstance(term, Bracket):
            made += bytes([7]) + bytes(8) + record(term.terms) + bytes([15])
        elif isinstance(term, Character):
            made += bytes([1]) + bytes(8) + struct.pack("<I", term.code)
        else:
            mark = 2 if isinstance(term, Identifier) else 3
            made += bytes([mark]) + bytes(8) + bytes([len(term.name)]) + term.name
    return bytes(made)


# ---------------------------------------------------------------- the matcher


def matches(pattern, expression):
    """Whether the pattern matches, each variable occurrence fresh: from the ends on."""
    reached = {0}
    for term in pattern:
        if is_expression(term):
            reached = set(range(min(reached), len(expression) + 1)) if reached else set()
        else:
            reached = {at + 1 for at in reached if at < len(expression) and fits(term, expression[at])}
    return len(expression) in reached


def fits(term, value):
    if isinstance(term, Bracket):
        return isinstance(value, Bracket) and matches(term.terms, value.terms)
    if isinstance(term, Variable):
        return term.kind == "t" or not isinstance(value, Bracket)
    return not isinstance(value, Bracket) and same_symbol(term, value)


# ----------------------------------------------------------------- the corpus


@lru_cache(maxsize=1)
def patterns_of(image):
    program = read_image(image)
    if isinstance(program, Refusal):
        return program
    return [sentence.pattern for function in program.functions for sentence in function.sentences]


class Corpus:
    """The stream so far, and what was asked."""

    def __init__(self):
        self.data = bytearray()
        self.current = b""
        self.answers = Counter()

    def ask(self, image, first, second, lent):
        number, verdict, spent, place, expression = self.answer(image, first, second, lent)
        length = len(image) if image != self.current else 0
        fields = (length, first, second, lent, number, verdict, spent, place, len(expression))
        self.data += struct.pack("<HHHHBBHHH", *fields)
        self.data += (image if length else b"") + expression
        self.current = image
        self.answers[f"refusal {number}" if number else ("Disjoint", "Overlap", "Unknown")[verdict]] += 1

    def answer(self, image, first, second, lent):
        patterns = patterns_of(image)
        if isinstance(patterns, Refusal):
            return patterns.number, 0, 0, patterns.place, b""
        if max(first, second) >= len(patterns):
            return 13, 0, 0, 0, b""
        verdict, spent, expression = shared(patterns[first], patterns[second])
        if verdict != OVERLAP:
            return 0, verdict, spent, 0, b""
        held(patterns[first], patterns[second], expression)
        written = record(expression)
        if lent < len(written):
            return 17, 0, 0, 0, b""
        return 0, verdict, spent, 0, written

    def around(self, image, first, second):
        """With no slice, and slices just below, at and above the length."""
        length = len(self.answer(image, first, second, 65535)[4])
        for lent in sorted({0, max(0, length - 1), length, length + 1}):
            self.ask(image, first, second, lent)

    def once(self, image, first, second):
        self.ask(image, first, second, 300)


def held(first, second, expression):
    for pattern in (first, second):
        if not matches(pattern, expression):
            sys.exit(f"not matched by {pattern}: {expression}")


# Spelling, changed sides, free variables, brackets and empty expressions.
TEXTS = (
    *("", "e.X", "s.X", "t.X", "()", "(e.X)", "Abc Def", "e.X aBC dEF", "aBC e.X dEF", "007 e.X", "7 07"),
    *("'A'", "s.X s.Y", "t.X e.Y", "e.X t.Y", "(s.X t.Y e.Z)", "t.X (e.Y 'B')", "e.X (Abc) e.Y", "(aBC s.X) e.Y"),
    *("e.X 'B' e.Y 'B' e.Z", "'ABCBD'", "e.1 e.2 7 e.3", "s.X 07 (t.Y) 7", "((e.X Ab) 1) t.Y", "((aB) 01) (e.Z)"),
)


def spelled():
    """Every text against every one."""
    yield from every_pair(map(terms, TEXTS))


def cases():
    for first, second, _, _ in CASES:
        image = one_function([terms(first), terms(second)])
        yield image, 0, 1
        yield image, 1, 0


def small():
    """Every pattern of at most two of a few terms, against every one."""
    alphabet = [terms(text) for text in ("e.X", "t.X", "Ab", "(e.Y)")]
    yield from every_pair(sequences(alphabet, 2))


def longest():
    """2,975 `s.X` against themselves: the expression is longer than its image."""
    yield one_function([terms("s.X " * 2975)]), 0, 0


def in_brackets():
    """Unknown and changed sides inside brackets, and what follows them."""
    starved, absorbed = [Bracket(brief("eeeeeeeeB"))], [Bracket(brief("AAAAAA"))]
    parts = (starved, absorbed, brief("e"), [Bracket(brief("eA"))], terms("t.X"))
    yield from every_pair(sequences(parts, 2))


def random_pairs(dice, count):
    for number in range(count):
        longest, deepest = ((4, 3), (8, 2), (14, 1))[number % 3]
        yield random_pattern(dice, longest, deepest), random_pattern(dice, longest, deepest)


def random_questions():
    for first, second in random_pairs(Dice(51), 120):
        yield one_function([first, second]), 0, 1


def write_corpus():
    corpus = Corpus()
    for image, first, second in refused_images():
        if image or not corpus.data:
            corpus.ask(image, first, second, 100)
    for image, first, second in sentence_counts():
        corpus.ask(image, first, second, 100)
    for group in (cases, longest, random_questions):
        for question in group():
            corpus.around(*question)
    for group in (spelled, small, in_brackets):
        for question in group():
            corpus.once(*question)
    answers = ", ".join(f"{answer}: {count}" for answer, count in sorted(corpus.answers.items()))
    print(f"{sum(corpus.answers.values())} records, {len(corpus.data)} bytes; {answers}", file=sys.stderr)
    sys.stdout.buffer.write(corpus.data)


def check(count):
    verdicts = Counter()
    for first, second in random_pairs(Dice(52), count):
        verdict, _, expression = shared(first, second)
        verdicts[("Disjoint", "Overlap", "Unknown")[verdict]] += 1
        if verdict == OVERLAP:
            held(first, second, expression)
    print(f"{count} pairs: {dict(verdicts)}; both patterns match every expression")


def main():
    if sys.argv[1:2] == ["check"]:
        check(int(sys.argv[2]))
    else:
        write_corpus()


if __name__ == "__main__":
    threading.stack_size(512 << 20)
    sys.setrecursionlimit(100000)
    thread = threading.Thread(target=main)
    thread.start()
    thread.join()
