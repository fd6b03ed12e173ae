"""Writes the corpus that the overlap entry point is replayed on.

    python3 tools/overlap_vectors.py [ORACLE] > crates/vectors/data/overlap

ORACLE is the driver that tools/oracle/build.sh built (default target/oracle/oracle).

The stream is records of 12 bytes, little-endian: image length (u16), first and
second sentence number (u16 each; 65535 stands for the largest usize,
18446744073709551615), expected number (u8, 0 or the refusal), expected verdict
(u8: 0 Disjoint, 1 Overlap, 2 Unknown), expected entries spent (u16), expected
place (u16). Verdict and spent are 0 where a refusal is expected, and the place
is 0 where none is. If the length is not 0, that many image bytes follow and
become the current image; with 0 the current image stays, and it is empty at the
start.

Refusals 1 and 4 to 11 come from reader.py only, and 13 from the sentence count of
the program that it read; verdicts and entries spent come from the Rust only. A
pair that the Rust does not answer in time is left out. Every group below is a
function that yields questions; counts by group go to standard error.
"""

import itertools
import re
import struct
import sys
from collections import Counter
from dataclasses import replace
from functools import lru_cache
from pathlib import Path

from generate import Dice, damaged, good, nest, typical
from image_vectors import in_result, upto_first_term, with_body
from oracle import DEFAULT_PROGRAM, DISJOINT, OVERLAP, UNKNOWN, VERDICTS, NoAnswer, Oracle
from reader import (
    TRAILER_LENGTH,
    Block,
    Bracket,
    Call,
    Character,
    Condition,
    Declaration,
    Function,
    Identifier,
    Number,
    Program,
    Refusal,
    Sentence,
    Span,
    Variable,
    encode,
    encode_trailer,
    read_image,
    read_trailer,
)

LARGEST = 65535  # stands for the largest usize
SECONDS = 10  # for one pair; those below take a small part of one second
FUEL = 4096


# -------------------------------------------------------------------- answers


@lru_cache(maxsize=1)
def read_once(image):
    return read_image(image)


def own_sentences(program):
    return sum(len(function.sentences) for function in program.functions)


def expected_answer(oracle, image, first, second):
    """The number, the verdict, the entries spent and the place."""
    program = read_once(image)
    if isinstance(program, Refusal):
        return program.number, 0, 0, program.place
    # 01: "13 (overlap): a sentence number not below the sentence count."
    if max(first, second) >= own_sentences(program):
        return 13, 0, 0, 0
    verdict, spent = oracle.overlap(image, first, second)
    return 0, verdict, spent, 0


class Corpus:
    """The stream so far, and what was asked."""

    def __init__(self, oracle):
        self.oracle = oracle
        self.data = bytearray()
        self.current = b""
        self.asked = set()
        self.records = Counter()
        self.images = Counter()
        self.answers = Counter()
        self.left_out = 0

    def ask(self, group, image, first, second, known=None):
        """One record, if not asked before; `known` is what the Rust must confirm."""
        if (image, first, second) in self.asked:
            return
        self.asked.add((image, first, second))
        try:
            answer = expected_answer(self.oracle, image, first, second)
        except NoAnswer:
            self.left_out += 1
            return
        number, verdict, spent, place = answer
        if known is not None and answer != (0, *known, 0):
            sys.exit(f"{group}: {known} is known of {first} and {second}, not {answer}")
        new = image != self.current
        if new and not image:
            raise ValueError("only the stream's beginning can ask for no bytes")
        length = len(image) if new else 0
        fields = (length, first, second, number, verdict, spent, place)
        self.data += struct.pack("<HHHBBHH", *fields)
        self.data += image if new else b""
        self.current = image
        self.records[group] += 1
        self.images[group] += new
        self.answers[f"refusal {number}" if number else VERDICTS[verdict]] += 1


# ------------------------------------------------------------------- patterns

TOKEN = re.compile(r"'[^']*'|[()]|[^\s()']+")


def terms(text):
    """The pattern that a text spells: 'AB' is two characters, 7 a number, Abc an identifier."""
    inside = [[]]
    for token in TOKEN.findall(text):
        if token == "(":
            inside.append([])
        elif token == ")":
            closed = inside.pop()
            inside[-1].append(Bracket(closed))
        elif token[0] == "'":
            inside[-1].extend(characters(token[1:-1]))
        elif token[1:2] == ".":
            inside[-1].append(Variable(token[0], token[2:].encode()))
        else:
            symbol = Number if token.isdigit() else Identifier
            inside[-1].append(symbol(token.encode()))
    return inside[0]


def characters(text):
    return [Character(ord(character)) for character in text]


def brief(letters):
    """The pattern of one letter a term: e is an `e.` variable, another letter a character."""
    return [Variable("e", b"X") if letter == "e" else Character(ord(letter)) for letter in letters]


def sequences(alphabet, longest):
    """Every sequence over an alphabet of sequences, the empty one first."""
    for length in range(longest + 1):
        for parts in itertools.product(alphabet, repeat=length):
            yield [term for part in parts for term in part]


def spanned(pattern, span):
    """The same pattern with that span at each of its terms."""
    changed = []
    for term in pattern:
        if isinstance(term, Bracket):
            term = Bracket(spanned(term.terms, span))
        changed.append(replace(term, span=span))
    return changed


def one_function(patterns):
    return encode(Program([], [Function(b"F", [Sentence(pattern) for pattern in patterns])]))


def every_pair(patterns):
    """Each pattern against each, itself included, in both orders."""
    patterns = list(patterns)
    image = one_function(patterns)
    for first, second in itertools.product(range(len(patterns)), repeat=2):
        yield image, first, second


def both_orders(image, first, second):
    yield image, first, second
    yield image, second, first


# ------------------------------------------------------------ refused images


def bad_sizes():
    """Refusal 1: no bytes, too few, and one byte too many."""
    yield b""
    yield bytes(1)
    yield bytes(11)
    yield one_function([[], []])[-11:]
    yield encode(typical(32769, 9))


def bad_trailers():
    """Refusals 4 and 11, each around a body of two good sentences."""
    image = one_function([terms("'A'"), terms("e.X")])
    body, true = image[:-TRAILER_LENGTH], read_trailer(image)
    for field, values in (
        (0, (0, true.body_length - 1, true.body_length + 1)),
        (1, (0, true.first_function - 1, true.first_function + 1, 1 << 31)),
        (2, (0, 2, 65535)),
        (3, (0, 1, 3, 65535)),
    ):
        for value in values:
            fields = list(true)
            fields[field] = value
            yield body + encode_trailer(fields)


def bad_bodies():
    """Refusals 5 to 10, each after two good sentences or in the only one."""
    span = bytes(8)
    alone = upto_first_term()
    # Without the trailer and the function's close.
    two = one_function([terms("'A'"), terms("e.X")])[: -TRAILER_LENGTH - 1]
    for before in (alone, two + bytes([10]) + span):
        yield with_body(before)  # 5 by a cut
        yield with_body(before + bytes([14]))  # 5
        yield with_body(before + bytes([2]) + span + b"\x00")  # 6
        yield with_body(before + bytes([3]) + span + b"\x01A")
        yield with_body(before + bytes([1]) + span + struct.pack("<I", 0xD800))  # 7
        yield with_body(before + bytes([6]) + struct.pack("<II", 1, 0))  # 8
        yield with_body(before + bytes([8]) + span + b"\x01F\x0f")  # 9
        yield with_body(before + bytes([9]) + span + b"\x0f\x0f")
        yield with_body(before + (bytes([7]) + span) * 33)  # 10
    yield encode(in_result(nest(["call"] * 33)))


ANY_NUMBERS = ((0, 0), (0, 1), (2, 0), (0, LARGEST), (LARGEST, 0), (65534, LARGEST))


def refused_images():
    """Each of 1 and 4 to 11 with any numbers: the image's refusal comes before 13."""
    for image in itertools.chain(bad_sizes(), bad_trailers(), bad_bodies()):
        for first, second in ANY_NUMBERS:
            yield image, first, second


def damaged_images():
    """Damaged copies of random programs, with numbers around the sentence count."""
    dice = Dice(11)
    for seed in range(20000, 20120):
        program = good(seed)
        image = damaged(encode(program), seed)
        if 0 < len(image) <= 300:
            most = own_sentences(program) + 1
            yield image, dice.between(0, most), dice.between(0, most)


# ----------------------------------------------------------- sentence numbers


def decorated(pattern):
    """A sentence whose conditions and blocks hold sentences that are not counted."""
    inner = Block(terms("e.X"), [Sentence(terms("'BB'")), Sentence()])
    outer = Block([], [Sentence(terms("'B'"), [Condition([inner], terms("(e.Y)"))], [inner])])
    conditions = [Condition([Call(b"F", [outer])], terms("'B' e.Z")), Condition()]
    return Sentence(pattern, conditions, [Bracket([outer]), Call(b"G", [inner])])


def numbered_program(counts, make=Sentence, declarations=()):
    """Functions with so many sentences each; the sentence of number i has i characters.

    The verdict on two of them is Overlap only where the numbers are one, and the
    entries spent tell the lower number.
    """
    number = itertools.count()
    functions = []
    for count in counts:
        sentences = [make(characters("A" * next(number))) for _ in range(count)]
        functions.append(Function(b"Fn" * len(functions) + b"F", sentences))
    return Program(list(declarations), functions)


DECLARATIONS = [Declaration([b"A" * 63, b"B"]), Declaration()]
NUMBERED = (
    numbered_program((4,)),
    numbered_program((1, 1, 1, 1)),
    numbered_program((0, 2, 0, 0, 3, 0)),
    numbered_program((2, 0, 1), decorated),
    numbered_program((0, 0, 1, 0, 2, 0, 0), decorated, DECLARATIONS),
    numbered_program((5, 1), Sentence, DECLARATIONS),
)


def numbering():
    """Every pair in several functions, with empty functions and blocks around them."""
    for program in NUMBERED:
        image = encode(program)
        for pair in itertools.product(range(own_sentences(program)), repeat=2):
            yield image, *pair


def sentence_counts():
    """13 at the count and around it, in the first number, the second and both."""
    programs = (
        Program(),
        Program(DECLARATIONS),
        numbered_program((0, 0)),
        numbered_program((1,)),
        numbered_program((1,), decorated),
        *NUMBERED[2:5],
    )
    for program in programs:
        image = encode(program)
        count = own_sentences(program)
        numbers = sorted({0, max(0, count - 1), count, count + 1, 65534, LARGEST})
        for pair in itertools.product(numbers, repeat=2):
            yield image, *pair


# ---------------------------------------------------------------------- heads

# Cases 1 to 11 of "The overlap verdict", then 26 and 27 characters in case 11.
# Document 01 states the entries spent of the first and the last three.
THREE = "e.1 e.2 e.3 'B'"
CASES = (
    ("", "", OVERLAP, 1),
    ("", "e.X", OVERLAP, 1),
    ("", "s.X", DISJOINT, 1),
    ("s.X", "()", DISJOINT, 1),
    ("t.X", "()", OVERLAP, 2),
    ("s.X s.X", "'AB'", OVERLAP, 3),
    ("007", "7", OVERLAP, 2),
    ("1", "'1'", DISJOINT, 1),
    ("Abc", "ABC", OVERLAP, 2),
    ("'a'", "'A'", DISJOINT, 1),
    (THREE, f"'{'A' * 10}'", DISJOINT, 352),
    (THREE, f"'{'A' * 26}'", DISJOINT, 4032),
    (THREE, f"'{'A' * 27}'", UNKNOWN, FUEL),
)


def document_cases():
    """Document 01's cases, each in an image of its own, in both orders."""
    for first, second, verdict, spent in CASES:
        image = one_function([terms(first), terms(second)])
        yield image, 0, 1, (verdict, spent)
        yield image, 1, 0


HEADS = (
    *("", "'A'", "'a'", "'B'", "'7'", "Abc", "ABC", "Abd", "A", "7", "007", "1"),
    *("s.X", "s.Y", "t.X", "t.Y", "e.X", "e.Y", "()", "('A')", "(7)", "(s.X)", "(t.X)", "(e.X)"),
)


def heads():
    """Every sort of head, and the end, against every sort."""
    yield from every_pair(map(terms, HEADS))


def heads_and_tails():
    """Every sort of head before tails that are Disjoint, that Overlap, and that absorb."""
    before = ("'A'", "Abc", "7", "s.X", "t.X", "e.X", "()")
    after = ("'A'", "'B'", "e.Y")
    texts = [f"{head} {tail}" for head in before for tail in after]
    yield from every_pair(map(terms, ["", *texts]))


# One byte apart in each place, at the edges, and of bytes that are marks.
CODES = (0, 1, 6, 7, 15, 0x41, 0x141, 0x10041, 0x100041, 0x4100, 0x61, 0x0F0F0F, 1114111)
LONG = b"A23456789" * 7
DIGITS = (b"7", b"07", b"007", b"70", b"0", b"00", b"1" * 62, b"1" * 63, b"1" * 62 + b"2")
WORDS = (b"AB", b"Ab", b"ab", b"aB", b"ABC", b"x_1", b"x-1", b"X_1", LONG, LONG.lower(), LONG[:-1])


def symbols():
    """Equal and unequal characters, numbers and identifiers, digits as identifiers too."""
    every = [Character(code) for code in CODES]
    every += [Number(digits) for digits in DIGITS]
    every += [Identifier(name) for name in (*WORDS, *DIGITS[:3])]
    yield from every_pair([symbol] for symbol in every)


def letter_case():
    """Every byte of an identifier against itself, the next, and the one 32 apart."""
    image = one_function([Identifier(bytes([byte]))] for byte in range(33, 127))
    for number in range(94):
        yield image, number, number
        if number + 1 < 94:
            yield image, number, number + 1
        if number + 32 < 94:
            yield from both_orders(image, number, number + 32)


SPANS = (Span(0x0F0F0F0F, 0x0F0F0F0F), Span(0x06060606, 0x07070707), Span(0, (1 << 32) - 1))


def spans():
    """Spans that differ, and whose bytes are marks, change nothing."""
    texts = ("", "'A'", "Abc s.X", "7 e.X", "t.X ()", "(e.X 'A')", "e.X 'A' e.Y")
    patterns = [spanned(terms(text), span) for text in texts for span in SPANS]
    yield from every_pair(patterns)


def repeated_variables():
    """A variable that repeats, in one pattern or in both, is not compared."""
    texts = (
        *("s.X s.X", "s.X s.Y", "'AB'", "'AA'", "t.X t.X", "'A' ()", "(t.X) (t.X)", "('A') ('B')"),
        *("e.X 'a' e.X", "'aa'", "'ab'", "e.X e.X", "s.X e.X s.X", "'A' e.X 'B'"),
    )
    yield from every_pair(map(terms, texts))


# ------------------------------------------------- expression variables, brackets


def expression_variables():
    """Every pattern of at most three of an `e.` variable, 'A' and 'B', against every one."""
    yield from every_pair(sequences([brief(letter) for letter in "eAB"], 3))


BRACKETS = (
    *("", "()", "(())", "((()))", "()()", "(()())", "('A')", "(('A'))", "(('B'))", "(s.X)"),
    *("((s.X))", "(t.X)", "(t.X t.Y)", "(e.X)", "((e.X))", "(e.X) e.Y", "e.X (e.Y)", "e.X"),
    *("(e.X (e.Y))", "((e.X) e.Y)", "('A' (e.X) 'B')", "(e.X ('A') e.Y)", "('A' e.X) ('B' e.Y)"),
    *("e.X (e.Y ('A') e.Z) e.W", "(e.X 'A') (e.X 'B') e.Z", "((('A') e.X) 'B') 'C'", "t.X t.Y"),
)


def brackets():
    """Brackets in brackets, beside and around `e.` variables."""
    yield from every_pair(map(terms, BRACKETS))


def deep_brackets():
    """Chains of 31 and 32 brackets that differ innermost, in depth, or behind."""
    inmost = ("", "'A'", "'a'", "s.X", "e.X")
    chains = [
        nest(["bracket"] * depth, terms(text)) + terms(tail)
        for depth, tail in ((31, "'A'"), (32, "'A'"), (32, "e.X"))
        for text in inmost
    ]
    yield from every_pair(chains)


def many_expression_variables():
    """A thousand adjacent `e.` variables: splits nest as deep as there are variables."""
    yield from every_pair(map(brief, ("e" * 1000 + "A", "", "A", "AB", "eA", "eeB")))


# ----------------------------------------------------------------------- fuel

# Pairs that end just before the fuel does, found by asking the oracle for thousands.
NEAR_THE_END = (
    ("eeeB", "A" * 26, DISJOINT, 4032),
    ("eeeAAB", "AAAAAAAAACAAAAAAAAA", DISJOINT, 4065),
    ("eAAeeAA", "eAeBeBAeeeABeBA", DISJOINT, 4087),
    ("eeAeeeAeA", "BAeAeAeB", DISJOINT, 4094),
    ("e" + "A" * 12, "Aeee" + "A" * 23, OVERLAP, 4072),
    ("eABBBA", "eeeeeeeBeAeA", OVERLAP, 4077),
    ("eeeeBAAB", "eeAeeeeeeeeeABAe", OVERLAP, 4083),
    ("eeeBeeeeAABBB", "eABeeeeeeeBeAeBe", OVERLAP, 4089),
    ("eAAAAA", "eeBeeeeeAeeeeBAe", OVERLAP, 4095),
)
NEEDS = (FUEL - 1, FUEL, FUEL + 1)
# Heads that overlap, so that each pair of them spends 1 more.
PLAIN = (("'A'", "'A'"), ("s.X", "7"), ("()", "t.X"), ("Abc", "aBC"), ("('A')", "(e.X)"))


def with_need(base, need):
    """The base's pair behind as many plain heads as make it need that many entries."""
    first, second, _, base_need = base
    before = itertools.islice(itertools.cycle(PLAIN), need - base_need)
    first_heads, second_heads = (terms(" ".join(side)) for side in zip(("", ""), *before))
    return first_heads + brief(first), second_heads + brief(second)


def given_fuel(verdict, need):
    return (verdict, need) if need <= FUEL else (UNKNOWN, FUEL)


def fuel():
    """Pairs that need 4,095, 4,096 and 4,097 entries, in both orders."""
    for base in NEAR_THE_END:
        pairs = [with_need(base, need) for need in NEEDS]
        image = one_function(itertools.chain(*pairs))
        for number, need in enumerate(NEEDS):
            yield image, 2 * number, 2 * number + 1, given_fuel(base[2], need)
            yield image, 2 * number + 1, 2 * number


def fuel_in_brackets():
    """The same in a bracket, which starts afresh, before a tail with needs of its own."""
    for base in (NEAR_THE_END[3], NEAR_THE_END[7]):
        pairs = []
        for inner in NEEDS:
            insides = with_need(base, inner)
            pairs.append([[Bracket(inside)] * 3 + terms("'A'") for inside in insides])
            for outer in NEEDS:
                tails = with_need(base, outer - 1)
                pairs.append([[Bracket(inside)] + tail for inside, tail in zip(insides, tails)])
        image = one_function(itertools.chain(*pairs))
        for number in range(len(pairs)):
            yield from both_orders(image, 2 * number, 2 * number + 1)


def fuel_behind_heads():
    """A bracket pair that needs 4,032 entries behind 70 symbols: what they spent is not missing in it."""
    image = one_function([brief("A" * 70) + [Bracket(brief(inside))] for inside in ("eeeB", "A" * 26)])
    yield image, 0, 1, (DISJOINT, 71)
    yield image, 1, 0


# -------------------------------------------------------------------- Unknown

# A pair that runs out of fuel, outermost and in a bracket.
ABSORBING = brief("eeeeeeeeB")
ABSORBED = brief("AAAAAA")
OPEN = [Bracket(ABSORBING)]
CLOSED = [Bracket(ABSORBED)]


def unknown_in_bracket():
    """Unknown in a bracket pair, with tails and splits of every verdict after it.

    First every sequence of at most two of these brackets, 'A' and an `e.` variable,
    then longer ones at random, and the same one and two brackets deeper.
    """
    alphabet = (OPEN, CLOSED, brief("A"), brief("e"))
    yield from every_pair(sequences(alphabet, 2))
    dice = Dice(12)
    lengths = [dice.between(3, 5) for _ in range(16)]
    longer = [[term for _ in range(n) for term in dice.pick(alphabet)] for n in lengths]
    yield from every_pair(longer)
    tails = [brief(letters) for letters in ("", "A", "e")]
    deeper = [[Bracket(part + tail)] for part in (OPEN, CLOSED) for tail in tails]
    deepest = [[Bracket(one)] + brief("A") for one in deeper]
    yield from every_pair(deeper + deepest)


def unknown_outside():
    """The outermost pair without fuel, behind heads and before tails of every verdict."""
    patterns = []
    for part, bracket in ((ABSORBING, OPEN), (ABSORBED, CLOSED)):
        patterns += [part, brief("C") + part, brief("D") + part, bracket + part, brief("e") + part]
        patterns += [part + brief("C"), part + brief("e"), part + bracket]
    yield from every_pair(patterns)


# --------------------------------------------------------------------- random


def random_programs():
    """Pairs of sentences of random programs that are not long, in both orders."""
    dice = Dice(13)
    programs = map(good, itertools.count(30000))
    fitting = (p for p in programs if own_sentences(p) > 1 and len(encode(p)) <= 600)
    for program in itertools.islice(fitting, 60):
        yield from random_pairs(program, 5, dice)


def random_pairs(program, count, dice):
    image = encode(program)
    last = own_sentences(program) - 1
    for _ in range(count):
        yield from both_orders(image, dice.between(0, last), dice.between(0, last))


def typical_programs():
    """Pairs of sentences like those people write, the last in an image of 32,768 bytes."""
    dice = Dice(14)
    for size in (3000, 32768):
        program = typical(size, size)
        yield from random_pairs(program, 60, dice)
        count = own_sentences(program)
        yield encode(program), count - 1, count - 1
        yield from both_orders(encode(program), count - 1, count)


def random_pattern(dice, longest, deepest):
    pattern = []
    for _ in range(dice.between(0, longest)):
        kind = dice.between(1, 10)
        if kind <= 3:
            pattern.append(Variable("e", b"X"))
        elif kind <= 5 and deepest > 0:
            pattern.append(Bracket(random_pattern(dice, longest - 1, deepest - 1)))
        else:
            pattern += terms(dice.pick(("'A'", "'A'", "'B'", "s.X", "t.X", "Ab", "aB", "7")))
    return pattern


def random_patterns():
    """Random patterns of many `e.` variables and brackets, in both orders."""
    dice = Dice(15)
    for longest, deepest in ((4, 3), (8, 2), (14, 1)) * 6:
        image = one_function(random_pattern(dice, longest, deepest) for _ in range(12))
        for _ in range(24):
            yield from both_orders(image, dice.between(0, 11), dice.between(0, 11))


GROUPS = (
    refused_images,
    damaged_images,
    numbering,
    sentence_counts,
    document_cases,
    heads,
    heads_and_tails,
    symbols,
    letter_case,
    spans,
    repeated_variables,
    expression_variables,
    brackets,
    deep_brackets,
    many_expression_variables,
    fuel,
    fuel_in_brackets,
    fuel_behind_heads,
    unknown_in_bracket,
    unknown_outside,
    random_programs,
    typical_programs,
    random_patterns,
)


def main():
    program = Path(sys.argv[1]) if len(sys.argv) > 1 else DEFAULT_PROGRAM
    with Oracle(program, SECONDS) as oracle:
        corpus = Corpus(oracle)
        for group in GROUPS:
            name, before = group.__name__, len(corpus.data)
            for question in group():
                corpus.ask(name, *question)
            report(name, corpus.records[name], corpus.images[name], len(corpus.data) - before)
    report("total", corpus.records.total(), corpus.images.total(), len(corpus.data))
    answers = ", ".join(f"{answer}: {count}" for answer, count in sorted(corpus.answers.items()))
    print(f"records by answer: {answers}; left out: {corpus.left_out}", file=sys.stderr)
    sys.stdout.buffer.write(corpus.data)


def report(name, records, images, size):
    print(f"{name:26} {records:6} records {images:4} images {size:7} bytes", file=sys.stderr)


if __name__ == "__main__":
    main()
