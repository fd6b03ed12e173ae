"""Writes the corpus that the entry point Clean is replayed on.

    python3 tools/clean_vectors.py [ORACLE] > crates/vectors/data/clean

ORACLE is the driver that tools/oracle/build.sh built (default target/oracle/oracle).

The stream is records of 18 bytes, little-endian: image length (u16), lent lengths of
output (u16, bytes), work (u16, entries) and report (u16, bytes), expected number (u8, 0
or the refusal), whether expected bytes follow (u8, 0 or 1), expected place (u32),
expected output length (u16), expected report length (u16). The two lengths are 0 where
a refusal is expected, and the place is 0 where none is. If the image length is not 0,
that many image bytes follow and become the current image; with 0 the current image
stays, and it is empty at the start. If expected bytes follow, they are the cleaned image
and then the report, and they become the current ones; a record with number 0 is always
about the current ones, and says their lengths again.

Refusals 1 and 4 to 11 come from reader.py only, and 2 and 3 from the lengths; cleaned
images and reports, and so refusal 12, come from the Rust only, but for the departures that
document 02 asks for (tools/oracle/departures.rs). An image that the Rust does not clean in
time is left out. Every group below is a function that yields images,
and each image is asked with several lent lengths; counts by group go to standard error.
"""

import itertools
import re
import struct
import sys
from collections import Counter
from functools import lru_cache
from pathlib import Path

from generate import (
    EDGE_CODES,
    NESTING_KINDS,
    PATTERN_KINDS,
    Dice,
    Layout,
    damaged,
    good,
    nest,
    typical,
)
from oracle import DEFAULT_PROGRAM, NoAnswer, Oracle
from overlap_vectors import DECLARATIONS, bad_bodies, bad_sizes, bad_trailers, brief
from reader import (
    LARGEST_IMAGE,
    SMALLEST_IMAGE,
    Block,
    Bracket,
    Call,
    Character,
    Condition,
    Declaration,
    Function,
    Identifier,
    Number,
    Program,
    Refusal,
    Sentence,
    Span,
    Variable,
    encode,
    read_image,
)

SECONDS = 10  # for one image; those below take a small part of one second
MOST_REPORT = 65535  # the longest report that is lent


# -------------------------------------------------------------------- answers


def entries_for(image):
    # 01: "the image length divided by 4, rounded up"
    return (len(image) + 3) // 4


class Asking:
    """The reader and the Rust, each asked once for the image in turn."""

    def __init__(self, oracle):
        self.read = lru_cache(maxsize=1)(read_image)
        self.clean = lru_cache(maxsize=1)(oracle.clean)

    def answer(self, image, lent):
        """The number, the place, the cleaned image and the report's text."""
        output, work, report = lent
        # 01: "Order: 1, 2, 3, 4; then 5 to 10 ...; then 11, 13, 12."
        if not SMALLEST_IMAGE <= len(image) <= LARGEST_IMAGE:
            return 1, 0, b"", b""
        if output < len(image):
            return 2, 0, b"", b""
        if work < entries_for(image):
            return 3, 0, b"", b""
        program = self.read(image)
        if isinstance(program, Refusal):
            return program.number, program.place, b"", b""
        cleaned, text = self.clean(image)
        # 01: "12: report text longer than the report. The place is the length needed"
        if len(text) > report:
            return 12, len(text), b"", b""
        return 0, 0, cleaned, text

    def report_length(self, image):
        """How long a report the image needs, or some length where it is refused."""
        return 100 if isinstance(self.read(image), Refusal) else len(self.clean(image)[1])


def lent_lengths(image, needed, turn):
    """Output, work and report lengths to ask an image with, the exact ones first."""
    size, entries = len(image), entries_for(image)
    asked = [(size, entries, needed), (size, entries, needed - 1)]
    others = (
        (size - 1, entries, needed),
        (size, entries - 1, needed),
        (size + 1, entries + 1, needed + 1),
        (size + 9, entries + 5, 0),
        (size - 1, entries - 1, 0),
        (size, entries - 1, needed - 1),
        (size + 200, entries + 50, needed + 300),
        (0, entries, needed),
        (size, 0, needed + 2),
        (size, entries, needed // 2),
        (0, 0, 0),
    )
    asked += [others[(turn + step) % len(others)] for step in (0, 4)]
    return [tuple(min(max(0, length), MOST_REPORT) for length in lent) for lent in asked]


class Corpus:
    """The stream so far, and what was asked."""

    def __init__(self, oracle):
        self.oracle = oracle
        self.asking = Asking(oracle)
        self.data = bytearray()
        self.current = b""
        self.expected = None
        self.seen = set()
        self.records = Counter()
        self.images = Counter()
        self.answers = Counter()
        self.rounds = Counter()
        self.departures = Counter()
        self.shortened = 0
        self.left_out = 0

    def ask_image(self, group, image):
        """Every question about one image, if it was not asked before."""
        if image in self.seen:
            return
        self.seen.add(image)
        try:
            needed = self.asking.report_length(image)
        except NoAnswer:
            self.left_out += 1
            return
        for lent in dict.fromkeys(lent_lengths(image, needed, len(self.seen))):
            self.ask(group, image, lent)
        self.note(image)

    def ask(self, group, image, lent):
        number, place, cleaned, text = self.asking.answer(image, lent)
        new = image != self.current
        if new and not image:
            raise ValueError("only the stream's beginning can ask for no bytes")
        follow = number == 0 and (cleaned, text) != self.expected
        lengths = (len(cleaned), len(text))
        size = len(image) if new else 0
        self.data += struct.pack("<HHHHBBIHH", size, *lent, number, follow, place, *lengths)
        self.data += image if new else b""
        self.data += cleaned + text if follow else b""
        self.current = image
        if follow:
            self.expected = cleaned, text
        self.records[group] += 1
        self.images[group] += new
        self.answers[number] += 1

    def note(self, image):
        """Counts the image by its rounds, where it was accepted."""
        if not isinstance(self.asking.read(image), Refusal):
            cleaned, text = self.asking.clean(image)
            self.rounds[int(re.search(rb"^rounds: (\d+)$", text, re.M)[1])] += 1
            self.departures[self.oracle.departure] += 1
            self.shortened += len(cleaned) < len(image)


# ------------------------------------------------------------------- programs

TOKEN = re.compile(r"""\$ENTRY|'[^']*'|"[^"]*"|[\w.+-]+|[][{}()<>;,=:]""")


class Text:
    """Reads a program's text: 'AB' is two characters, 7 a number, Abc an identifier.

    A block stands in square brackets, its argument before a colon: [e.X : 'A' = 'B';].
    """

    def __init__(self, text):
        self.tokens = [*TOKEN.findall(text), ""]
        self.place = 0

    def take(self):
        self.place += 1
        return self.tokens[self.place - 1]

    def met(self, token):
        met = self.tokens[self.place] == token
        self.place += met
        return met

    def expect(self, token):
        if not self.met(token):
            raise ValueError(f"{token} is missing before {self.tokens[self.place :]}")

    def functions(self):
        functions = []
        while not self.met(""):
            entry = self.met("$ENTRY")
            name = self.take().encode()
            self.expect("{")
            functions.append(Function(name, self.sentences("}"), entry))
        return functions

    def sentences(self, close):
        sentences = []
        while not self.met(close):
            sentences.append(self.sentence())
        return sentences

    def sentence(self):
        pattern = self.terms()
        conditions = []
        while self.met(","):
            result = self.terms()
            self.expect(":")
            conditions.append(Condition(result, self.terms()))
        self.expect("=")
        result = self.terms()
        self.expect(";")
        return Sentence(pattern, conditions, result)

    def terms(self):
        terms = []
        while self.tokens[self.place] not in (")", ">", "]", "}", ":", ",", "=", ";", ""):
            terms += self.term(self.take())
        return terms

    def term(self, token):
        """The terms that one token begins: more than one for characters."""
        if token == "(":
            inside = self.terms()
            self.expect(")")
            return [Bracket(inside)]
        if token == "<":
            call = Call(self.take().encode(), self.terms())
            self.expect(">")
            return [call]
        if token == "[":
            argument = self.terms()
            self.expect(":")
            return [Block(argument, self.sentences("]"))]
        if token[0] in "'\"":
            return [Character(ord(character)) for character in token[1:-1]]
        if token[0] in "ste" and token[1:2] == ".":
            return [Variable(token[0], token[2:].encode())]
        return [(Number if token.isdigit() else Identifier)(token.encode())]


def functions(text):
    return Text(text).functions()


def zero_spans(text, declarations=()):
    """The image of a text in which every span is 0 to 0."""
    return encode(Program(list(declarations), functions(text)))


def laid_out(text, declarations=()):
    """The image of a text in which every record has a span of its own."""
    return encode(Layout().program(Program(list(declarations), functions(text))))


def both(*texts):
    """Each text with and without spans: only without are equal arguments repeats."""
    for text in texts:
        yield zero_spans(text)
        yield laid_out(text)


def calling(calls, *others):
    """The image of a function Go that makes those calls, and of other functions after it."""
    return encode(Program([], [Function(b"Go", [Sentence([], [], calls)]), *others]))


# ------------------------------------------------------------- refused images


def refused_images():
    """Refusals 1 and 4 to 11, each also with too little output and work, which come first."""
    yield from bad_sizes()
    yield from bad_trailers()
    yield from bad_bodies()


def damaged_images():
    """Damaged copies of random programs; some of them are still good."""
    for seed in range(40000, 40110):
        image = damaged(encode(good(seed)), seed)
        if 0 < len(image) <= 300:
            yield image


# ------------------------------------------------------------- small programs

WORKED = "$ENTRY Go { e.X = <F 'A' e.X>; } F { 'A' e.Y = e.Y; (e.Z) = 'B'; }"


def document_example():
    """Document 01's worked program, its image of zeros, and the plausible errors it lists."""
    yield from both(WORKED)
    yield bytes(12)
    yield from both(
        "Go { = <F 'A'> <F 'A'>; } F { 'A' = ; 'B' = ; }",
        "Go { = <F s.X s.X>; } F { 'AB' = ; () = ; }",
        "Go { = <F 007>; } F { 7 = ; 007 = ; '7' = ; }",
        "Go { = <F Abc>; } F { ABC = ; Abd = ; 'A' = ; }",
    )


def without_functions():
    """Declarations alone, of no names and of many, and before a program that is cleaned."""
    lists = (
        [Declaration()],
        [Declaration([b"F"])],
        [Declaration([b"F", b"f", b"F"]), Declaration(), Declaration([b"Mu"], Span(3, 9))],
        [Declaration([b"N%d" % number for number in range(255)])],
        DECLARATIONS,
    )
    for declarations in lists:
        yield encode(Program(declarations))
        yield zero_spans(WORKED, declarations)
        yield laid_out("Go { = <F>; } F { 'A' = ; }", declarations)


def without_sentences():
    """Functions without sentences, called and not, which leave restrictions uncovered."""
    yield from both(
        "Go { }",
        "$ENTRY Go { }",
        "Go { } F { } G { }",
        "Go { = <F>; } F { }",
        "Go { = <F> <F 'A'> <f 'A'> <G <F>>; } F { } f { } G { }",
        "F { } $ENTRY Go { = <F e.X> <F e.Y>; }",
        "Go { = <Go>; } go { }",
    )


# --------------------------------------------------------------------- rounds


def chain(length, letters, backwards=False):
    """Each function hands its letter on; one function loses its sentences in each round."""
    made = []
    for number in range(length):
        rules = (f"'{letter}' = <F{number + 1} '{letter}'>;" for letter in letters)
        made.append(f"F{number} {{ {' '.join(rules)} }}")
    last = (f"'{letter}' = ;" for letter in letters)
    made.append(f"F{length} {{ {' '.join(last)} }}")
    return " ".join(["Go { = <F0 'A'>; }", *(reversed(made) if backwards else made)])


def chains():
    """As many rounds as there are functions, in file order and backwards."""
    for length in (1, 2, 3, 4, 6, 9, 14):
        for letters in ("AB", "ABC"):
            yield zero_spans(chain(length, letters))
            yield laid_out(chain(length, letters, backwards=True))
    yield laid_out(chain(40, "AB"))


def several_rounds():
    """Restrictions that go with a sentence's sites, and others that keep a sentence alive."""
    yield from both(
        "Go { = <F 'A'> <G 'Y'>; } F { 'A' = ; 'B' = <G 'X'>; } G { 'X' = ; 'Y' = ; }",
        "Go { = <F 'A'> <G 'X'>; } F { 'A' = ; 'B' = <G 'X'>; } G { 'X' = ; 'Y' = ; }",
        "Go { = <F 'A'>; } F { 'A' = <F 'C'>; 'B' = <F 'B'>; 'C' = ; }",
        "Go { = <F 'A'>; } F { 'A' = <G 'A'>; 'B' = <G 'B'>; } G { 'A' = <F 'A'>; 'B' = <F 'B'>; }",
        "Go { = <F 'A'>; } F { 'A' e.X = <F e.X>; 'B' e.X = <F 'B'>; () = ; }",
        "Go { = <F 1> <H 1>; } F { 1 = ; 2 = <G 2> <H 2>; } G { 1 = ; 2 = <H 3>; } "
            "H { 1 = ; 2 = ; 3 = ; }",
        "Go { = <F 'A'>; } F { 'A' = ; 'B', <G 'X'> : e.Y = <G 'Y'>; } "
            "G { 'X' = ; 'Y' = ; 'Z' = ; }",
        "Go { = <F 'A'>; } F { 'A' = ; 'B' = [<G 1> : 'A', <G 2> : 3 = <G 3>;]; } "
            "G { 1 = ; 2 = ; 3 = ; 4 = ; }",
        "Go { = <F 'A'> <G 'A'>; } F { 'A' = ; 'B' = <G 'B'>; 'C' = <G e.X>; } "
            "G { 'A' = ; 'B' = ; }",
        "Go { e.X = <F (e.X)>; } F { (e.X) = <G e.X 1>; s.X = <G 2>; = <G>; } "
            "G { 2 = <H>; = <H 1>; e.X 1 = <H 2>; } H { = ; 1 = ; 2 = ; }",
        "Go { = <F 'A'>; } F { 'A' = ; 'B' = <G 'A'>; } G { 'A' = ; 'B' = ; }",
    )


def all_rejected():
    """A function whose sentences are all rejected keeps them, in any round, with their sites."""
    yield from both(
        "Go { = <F 'A'>; } F { 'B' = ; }",
        "Go { = <F 'A'>; } F { 'B' = ; 'C' = ; 'C' = ; 'B' = ; }",
        "Go { = <F 'A'> <F 'B'> <F 'A'>; } F { 'C' = ; () = ; }",
        "Go { = <F 'A'>; } F { 'B' = <G 'X'>; } G { 'X' = ; 'Y' = ; }",
        "Go { = <F 'A'>; } F { 'A' = ; 'B' = <G 'Y'>; } G { 'X' = ; } H { = <G 'Z'>; }",
        "Go { = <F 'A'>; } F { 'A' = <G 1>; 'B' = <G 2>; } G { 2 = ; 3 = ; }",
        "Go { = <F>; } F { 'A' = ; s.X = ; t.X e.Y = ; (e.X) = ; }",
        "Go { = <F 'A'>; } F { 'B' = <F 'C'>; 'C' = <F 'B'>; }",
        "Go { = <F 'A'>; } F { 'B' = <F 'C'>; 'D' = ; }",
    )


def many_sentences():
    """Sentence counts about the words of the kept marks, and counts of several digits."""
    for count in (31, 32, 33, 64, 65, 97):
        body = " ".join("'A' = ;" if number % 3 else f"{number} = ;" for number in range(count - 1))
        yield zero_spans(f"Go {{ = <F 'A'> <F {count // 2 * 3 % count}>; }} F {{ {body} }}")
        body = " ".join("= ;" if number % 7 else "'A' = ;" for number in range(count - 1))
        yield zero_spans(f"Go {{ = <F 'A'>; }} F {{ {body} }}")
    numbers = " ".join(f"{number} = ;" for number in range(110))
    calls = " ".join(f"<F {number}>" for number in range(50, 160))
    yield zero_spans(f"Go {{ = <F 'A'>; }} F {{ 'A' = ; {numbers} }}")
    yield zero_spans(f"Go {{ = <F 'A'>; }} F {{ {numbers} }}")
    yield zero_spans(f"Go {{ = {calls}; }} F {{ {numbers} }}")


# ------------------------------------------------------------ uncharacterised


def uncharacterised():
    """Calls and blocks in arguments, at depth, in other letter cases, and where they go later."""
    yield from both(
        "Go { = <F <G>>; } F { 'A' = ; 'B' = ; } G { = ; 'C' = ; }",
        "Go { = <F (('A' (<G>)))>; } F { 'A' = ; } G { = ; }",
        "Go { = <F [e.X : ]>; } F { 'A' = ; }",
        "Go { = <F (['A' : 'A' = <F 'A'>;])>; } F { 'A' = ; 'B' = ; }",
        "Go { = <F 'A'> <F <F 'A'>>; } F { 'A' = ; 'B' = ; }",
        "Go { = <F <F 'A'>> <F 'A'>; } F { 'A' = ; 'B' = ; }",
        "Go { = <f <g>> <F <G>> <H <H>>; } f { 'A' = ; } F { 'B' = ; } g { = ; } G { = ; } "
            "h { = ; }",
        "Go { = <F 'A'> <H 'A'>; } F { 'A' = ; 'B' = <H <F 'A'>>; } H { 'A' = ; 'B' = ; }",
        "Go { = <F 'A'> <H 'A'>; } F { 'A' = ; 'B' = <h <F 'A'>>; } h { 'A' = ; 'B' = ; } "
            "H { 'C' = ; 'A' = ; }",
        "Go { = <F 'A'>; } F { 'A' = ; 'B' = <H <F 'A'>>; } H { 'A' = ; 'B' = ; }",
        "Go { = <F 'A'>; } F { 'A' = ; 'B' = <H [ : ]> <H 'C'>; } H { 'A' = ; 'C' = <F <H>>; }",
        "Go { = <Go <F 'A'>>; } F { 'A' = ; 'B' = ; }",
        "$ENTRY Go { = <go <F 'A'>>; } F { 'A' = ; 'B' = ; } go { 'A' = ; }",
        "Go { = <Absent <F 'A'>> <Absent <Missing>>; } F { 'A' = ; 'B' = ; }",
        "Go { , <F <G 1>> : e.X = ; } F { 1 = ; } G { 1 = ; 2 = ; }",
        "Go { = <A <B <C <D 'A'>>>>; } A { 1 = ; } B { 1 = ; } C { 1 = ; } D { 'A' = ; 'B' = ; } "
            "E { = <D <A>>; }",
    )
    names = " ".join(f"<N{number} <N{number}>>" for number in range(20))
    yield laid_out(f"Go {{ = {names}; }} " + " ".join(f"n{number} {{ }}" for number in range(20)))


# ----------------------------------------------------------- dynamic dispatch

TWO = "F { 'A' = ; 'B' = ; }"
SPELLINGS = (b"Mu", b"MU", b"mu", b"mU", b"Up", b"UP", b"up", b"uP")
NOT_DYNAMIC = (b"M", b"Muu", b"mup", b"U", b"Upp", b"Mu-", b"-Mu", b"Nu", b"Uq", b"MuUp", b"mU5")


def with_term(term, place):
    """A program that cleans one sentence unless the term in that place forbids it."""
    sentence = Sentence([Variable("e", b"X")], [], Text("<F 'A'>").terms())
    match place:
        case "result":
            sentence.result.append(term)
        case "before":
            sentence.result.insert(0, term)
        case "condition":
            sentence.conditions.append(Condition([term], [Variable("e", b"Y")]))
        case "later condition":
            sentence.conditions += [Condition(), Condition([Character(65), term])]
    return encode(Program([], [Function(b"Go", [Sentence(), sentence]), *functions(TWO)]))


PLACES = ("result", "before", "condition", "later condition")


def dynamic():
    """`Mu` and `Up` in every spelling and place, under each sort of nesting, down to 32."""
    for name, place in itertools.product(SPELLINGS, PLACES):
        yield with_term(Call(name), place)
    kinds = [kind for kind in NESTING_KINDS if kind not in PATTERN_KINDS]
    for (number, kind), place in itertools.product(enumerate(kinds), PLACES):
        name = SPELLINGS[number]
        yield with_term(nest([kind], [Call(name, [Character(66)])])[0], place)
        yield with_term(nest([kind, kinds[number - 1]], [Number(b"7"), Call(name)])[0], place)
    dice = Dice(21)
    for depth in (5, 12, 30, 31, 31, 31):
        chosen = [dice.pick(kinds) for _ in range(depth)]
        yield with_term(nest(chosen, [Call(dice.pick(SPELLINGS))])[0], dice.pick(PLACES))
    yield from both(
        f"Go {{ = <F 'A'>; }} {TWO} G {{ = <Mu>; }}",
        "Go { = <F 'A'>; } F { 'A' = ; 'B' = <Up>; }",
        "Go { = <F 'A'>; } F { 'A' = ; 'B' = <G <Up e.X>>; } G { }",
        "Go { = <Mu 'A'>; } Mu { 'A' = ; 'B' = ; }",
    )


def not_dynamic():
    """Names like `Mu`, and `Mu` where it is not called."""
    for name in NOT_DYNAMIC:
        yield with_term(Call(name), "result")
    yield with_term(Identifier(b"Mu"), "result")
    yield with_term(Variable("s", b"Up"), "condition")
    yield with_term(Bracket([Identifier(b"Up")]), "before")
    names = [Declaration([b"Mu", b"Up"])]
    yield zero_spans("Mu { = <F 'A'>; } F { 'A' = ; 'B' = ; } Up { = <F 'A'>; }", names)


# -------------------------------------------------------------------- repeats

ARGUMENTS = (
    *("", "'A'", "'B'", "Abc", "ABC", "7", "07", "s.X", "s.Y", "s.x", "t.X", "e.X", "e.Y"),
    *("s.X s.X", "s.X s.Y", "s.Y s.X", "s.x s.X", "t.X s.X", "e.X t.x"),
    *("s.1 s.2 s.1", "s.2 s.1 s.2", "s.V0 s.V1", "s.V1 s.V0", "()", "(())", "('A')"),
    *("(s.X) s.X", "(s.X) s.Y", "(s.Y s.X) s.X", "(s.Y s.X) s.Y"),
)
CALLEE = "F { 'Q' 'Q' = ; s.X = ; (e.X) e.Y = ; 'A' 'B' 'C' = ; }"


def repeated_arguments():
    """Arguments that are one configuration or not, in one sentence, in two, and in a block."""
    dice = Dice(22)
    for _ in range(40):
        chosen = [dice.pick(ARGUMENTS) for _ in range(4)]
        chosen.append(dice.pick(chosen))
        calls = [f"<{dice.pick('Ff')} {argument}>" for argument in chosen]
        places = (
            f"Go {{ = {' '.join(calls)}; }}",
            f"Go {{ = {calls[0]} {calls[1]}; 'A' = {calls[2]} ({calls[3]}); 7 = {calls[4]}; }}",
            f"Go {{ , {calls[0]} : e.X, {calls[1]} : e.Y = {calls[2]} [{calls[3]} "
                f": = {calls[4]};]; }}",
        )
        yield zero_spans(f"{dice.pick(places)} {CALLEE}")


# Arguments of one shape, some of them one configuration.
ALIKE = (
    ("s.X s.X", "s.X s.Y", "s.Y s.X", "s.x s.X", "s.Y s.y"),
    ("s.X t.X", "s.X t.Y", "s.Y t.y", "s.Z t.X"),
    ("(s.X) s.X", "(s.X) s.Y", "(s.Y) s.y", "(s.1) s.2"),
    ("s.1 s.2 s.1", "s.2 s.1 s.2", "s.1 s.2 s.2", "s.1 s.1 s.2", "s.1 s.2 s.3", "s.a s.b s.A"),
    ("e.X (t.X) s.X", "e.X (t.Y) s.X", "e.X (t.X) s.Y", "e.1 (t.2) s.3", "e.X (t.Y) s.Y"),
    ("s.V0 s.V1", "s.V1 s.V0", "s.V0 s.v0"),
    ("t.X e.X", "t.X e.Y", "e.X t.X", "s.X e.X"),
    ("'A' s.X", "'a' s.X", "'A' s.Y"),
    ("Abc", "ABC", "abc", "Abc"),
    ("7", "07", "7", "Abc"),
)


def arguments_alike():
    """Each set of arguments of one shape, in its order and backwards."""
    for arguments in ALIKE:
        for order in (arguments, arguments[::-1]):
            calls = " ".join(f"<F {argument}>" for argument in order)
            yield zero_spans(f"Go {{ = {calls}; }} F {{ () () () () = ; e.X = ; }}")


SPANS = (Span(0, 0), Span(1, 2), Span(0, 2), Span(1, (1 << 32) - 1))


def respan(terms, dice):
    for term in terms:
        term.span = dice.pick(SPANS)
        respan(getattr(term, "terms", ()), dice)
    return terms


def repeated_with_spans():
    """The same arguments at spans that are sometimes equal; the call's own span never counts."""
    dice = Dice(23)
    for argument in ("'A'", "s.X s.x", "(e.X) 7", "((Abc))", "'AB' e.X", "t.1 t.2"):
        for _ in range(4):
            calls = []
            for _ in range(4):
                inside = Text(argument).terms()
                if dice.chance(80):
                    respan(inside, dice)
                calls.append(Call(b"F", inside, dice.pick(SPANS)))
            yield calling(calls, *functions(CALLEE))


def sites_in_order():
    """Restrictions in the Rust's order: result before conditions, outer before inner."""
    yield from both(
        "Go { 'P', <F 1> : 2, <F 3> : 4 = <F 5> (<F 6>) <F 7>; = <F 8>; } F { 9 = ; s.X = ; }",
        "Go { = [<F 1> : 'A', <F 2> : 'B' = <F 3>; 'C' = <F 4>;] <F 5>; } F { 9 = ; s.X = ; }",
        "Go { = <G <F 1> [<F 2> : , <F 3> : = <F 4>;] (<F 5>)>; } F { 9 = ; s.X = ; } G { = ; }",
        "F { 9 = <F 1>; s.X, <F 2> : e.Y = <F 3>; } $ENTRY Go { = <F 4>; 1 = <F 5>; } "
            "G { = <F 6>; }",
        "Go { , [<F 4> : , <F 5> : = ;] : e.X = [[<F 1> : = <F 2>;] : = [ : = <F 3>;];]; } "
            "F { 9 = ; s.X = ; }",
    )


def repeats_left_over():
    """Repeats whose first site falls: the next one gives the name and the place in the list."""
    doomed = "F { 'A' = ; 'B' = <G s.P> <G 1> <H s.P>; }"
    yield from both(
        f"{doomed} G {{ () = ; s.X = ; t.X = ; }} H {{ () = ; }} "
            "$ENTRY Go { = <F 'A'> <G 2> <G s.Q> <H 1> <H s.Q> <H s.R>; }",
        f"{doomed} H {{ s.X = ; }} G {{ () = ; 3 = <H 3>; 1 = ; s.X = ; }} "
            "$ENTRY Go { = <F 'A'> <G 2> <H 2> <G 1> <H s.S>; }",
        "F { 1 = ; 2 = <G e.A>; 3 = <H 2> <G e.B>; } H { 1 = ; 2 = <G e.C>; } "
            "G { 'A' = ; } $ENTRY Go { = <F 1> <H 1> <G 7> <G e.D> <G ()>; }",
        "F { 1 = ; 2 = <G s.A>; } H { 1 = ; 2 = <G s.B> <G 5>; } "
            "G { () = ; s.X = ; s.X s.Y = <K 1>; } K { 1 = ; 2 = ; } "
            "$ENTRY Go { = <F 1> <H 1> <G 4> <G s.C> <K s.C s.C>; }",
        "F { 1 = ; 2 = <K 3> <K s.A>; } H { () = <F 2>; 1 = ; } K { () = ; (()) = ; } "
            "$ENTRY Go { = <H 1> <F 1> <K s.B> <K 3> <K s.C>; }",
    )


# ---------------------------------------------------------------------- names

LONG = "N" + "123456789-" * 6 + "Ab"
# Bytes next to letters and 32 apart, and names that print like terms.
ODD_NAMES = (
    *(b"[", b"{", b"@", b"`", b"a[Z", b"A{z", b"!", b"Z]^_", b"z}~_", b"~" * 63),
    *(b"'A'", b"e.X", b"<F>"),
)


def names():
    """Functions and calls in two letter cases, functions of one name, long and odd names."""
    yield from both(
        "Go { = <f 'A'> <F 'B'>; } F { 'A' = ; 'B' = ; 'C' = ; }",
        "Go { = <FN 'A'>; } fn { 'A' = ; 'B' = ; } Fn { 'B' = ; 'C' = ; } fN { 'A' = ; 'C' = ; }",
        "Go { = <F 'A'>; } F { 'A' = ; 'B' = ; } F { 'A' = ; 'B' = ; } f { 'A' = ; 'B' = ; }",
        "Go { = <F 'A'>; } F { 'A' = ; 'B' = <G 'B'>; } F { 'C' = ; } G { 'A' = ; 'B' = ; } "
            "g { 'B' = ; }",
        "Go { = <A-B 1> <A_B 2>; } A-B { 1 = ; 2 = ; } A_B { 1 = ; 2 = ; }",
        "Go { = <F1 1> <F11 2> <F 3>; } F { 1 = ; 2 = ; 3 = ; } F1 { 1 = ; 2 = ; 3 = ; } "
            "F11 { 1 = ; 2 = ; 3 = ; }",
        f"Go {{ = <{LONG} 1>; }} {LONG.lower()} {{ 1 = ; 2 = ; }} {LONG[:-1]} {{ 1 = ; 2 = ; }}",
        "Go { = <go 'A'> <GO 'B'>; } go { 'A' = ; 'C' = ; } gO { 'B' = ; 'D' = ; }",
    )
    for name in ODD_NAMES:
        twin = bytes(byte ^ 32 if byte >= 64 else byte for byte in name)
        calls = [Call(name, [Number(b"1")]), Call(name.swapcase(), [Number(b"2")])]
        if b"\x7f" not in twin:
            calls.append(Call(twin, [Number(b"3")]))
        sentences = functions("F { 1 = ; 2 = ; 3 = ; 4 = ; }")[0].sentences
        yield calling(calls, Function(name, sentences))


def roots():
    """Which function is the root, and that it is left alone though it is listed if called."""
    body = "{ 'A' = <F 'A'> <G 'A'> <Go 'A'>; 'B' = ; 'C' = ; }"
    for first, second, third in itertools.product(("", "$ENTRY "), repeat=3):
        yield zero_spans(f"{first} F {body} {second} Go {body} {third} G {body}")
    yield from both(
        "Go { 'A' = <Go 'B'>; 'C' = <Go 'C'>; }",
        "Go { 'A' = <Go 'B'>; } Go { 'B' = ; 'C' = ; }",
        "Go { 'A' = ; 'B' = ; } $ENTRY go { = <Go 'A'>; 'B' = <GO 'C'>; }",
        "$ENTRY Go { 'A' = ; } $ENTRY F { 'A' = <Go 'B'> <F 'A'>; 'B' = ; }",
        "Go { 'A' = ; 'B' = ; } F { = <Go 'B'> <F>; 'A' = ; }",
        "Go { 'A' = <Go <F>>; 'B' = ; } F { = ; 'A' = ; }",
    )


# ------------------------------------------------------------------ the lists


def neighbouring_repeats():
    """Undecided and uncovered entries that repeat side by side, apart, and across functions."""
    yield from both(
        "Go { = <F 'A'>; } F { 'B' = 1; 'B' = 2; 'C' = 3; 'B' = 4; 'B' = 5; }",
        "Go { = <F 'A'>; } F { 'B' = ; } F { 'B' = ; } f { 'B' = ; } F { 'B' = ; 'C' = ; }",
        "Go { = <F 'A'> <F 'A'> <F 'B'> <F 'A'>; } F { 'C' = ; }",
        "Go { = <F 'A'> <F 'B'> <F 'B'> <F 'B'> <F 'A'> <F 'A'>; } F { 'C' = ; } F { 'C' = ; }",
        "Go { = <F 'A'>; } F { 'C' = ; } F { 'C' = ; }",
        "Go { = <F 'A'> <f 'A'>; } F { 'C' = ; } f { 'C' = ; } F { 'C' = ; }",
        "Go { = <F 'A'> <F 'C'>; } F { 'C' = ; } F { } f { 'A' = ; }",
        "Go { = <F s.X> <F s.Y> <F s.X>; } F { () = ; () = ; (()) = ; }",
        "Go { = <F> <G>; } F { 'A' = ; } G { 'A' = ; } H { = <F> <G>; }",
    )
    plain, odd, other = Character(65), Identifier(b"'A'"), Number(b"1")
    for arguments in ((odd, plain), (plain, odd, odd), (odd, other, odd)):
        calls = [Call(b"F", [argument]) for argument in arguments]
        yield calling(calls, *functions("F { 'C' = ; () = ; }"))


# Patterns of one text and different terms.
SAME_TEXT = (
    ([Character(65)], [Identifier(b"'A'")]),
    ([Character(32)], [Identifier(b"'"), Identifier(b"'")]),
    ([Character(39)], [Identifier(b'"\'"')]),
    ([Number(b"7")], [Identifier(b"7")]),
    ([Bracket()], [Identifier(b"()")]),
    ([Bracket([Variable("s", b"X")])], [Identifier(b"(s.X)")]),
    ([Bracket([Number(b"1"), Number(b"2")])], [Identifier(b"(1"), Identifier(b"2)")]),
    ([Variable("s", b"X"), Number(b"1")], [Identifier(b"s.X"), Number(b"1")]),
    ([Variable("e", b"X"), Number(b"1")], [Identifier(b"e.X"), Identifier(b"1")]),
    ([Variable("t", b"a"), Variable("t", b"b")], [Identifier(b"t.a"), Variable("t", b"b")]),
    ([Variable("s", b"s.X"), Bracket()], [Identifier(b"s.s.X"), Bracket()]),
    ([Character(0x1F600), Character(10)], [Character(0x1F600), Character(10)]),
)


def falling_in_turn(first, second):
    """Functions G and g whose first pattern falls in round 1 and whose second in round 2."""
    made = functions("Go { = <F Kept> <G Kept>; } F { Kept = ; Other = ; }")
    made[1].sentences[1].result.append(Call(b"G", list(second)))
    sentences = [Sentence(list(second)), Sentence(list(first)), Sentence([Identifier(b"Kept")])]
    return [*made, Function(b"G", sentences), Function(b"g", sentences[1:])]


def removed_repeats():
    """Removed patterns with one text: in one function, in two of one name, in two rounds."""
    kept = [Sentence([Identifier(b"Kept")])]
    go = functions("Go { = <F Kept>; }")
    for first, second in SAME_TEXT:
        other = [Sentence(list(second)), Sentence(list(first)), Sentence([*second, Number(b"0")])]
        same = [Sentence(list(first)), *kept, Sentence(list(second), [], [Number(b"1")])]
        two = [Function(b"F", same), Function(b"f", other + kept), Function(b"G", other)]
        turned = [Function(b"f", other + kept), Function(b"F", kept + other + same)]
        for made in (two[:1], two, turned):
            yield encode(Program([], go + made))
        yield encode(Program([], falling_in_turn(first, second)))
        yield encode(Program([], falling_in_turn(second, first)))
    yield from both(
        "Go { = <F 'A'>; } F { 'A' = ; 'B' = ; 'B' = 1; 'C' = ; 'B' = 2; }",
        "Go { = <F 'A'> <G 1>; } F { 'A' = ; 'B' = <G 2>; } G { 1 = ; 3 = 1; 2 = ; 3 = 2; } "
            "g { 1 = ; 2 = ; 3 = ; }",
        "Go { = <F 'A'> <G s.X>; } F { 'A' = ; 'B' = <G e.X>; } G { s.Y = ; () = ; s.X s.Y = ; } "
            "g { s.X s.Y = ; s.x s.Y = ; t.X = ; }",
        "Go { = <F 'A'>; } F { 'A' = ; s.X s.Y = ; s.x s.y = ; s.X s.Y = ; (e.1) = ; (e.2) = ; }",
        "Go { = <F 'A'>; } F { Abc = ; ABC = ; Abc = ; 7 = ; 07 = ; 'A' = ; }",
    )


# -------------------------------------------------------------------- symbols


def in_every_list(term, other):
    """A program whose report has the terms in a removed, an undecided and an uncovered line."""
    calls = [Call(b"F", [term, other]), Call(b"G", [Bracket([term])])]
    first = Function(b"F", [Sentence([Bracket([other, term])]), Sentence([Variable("e", b"X")])])
    return calling(calls, first, Function(b"G", [Sentence([term])]))


CODES = (
    *(1, 31, 32, 33, 92, 126, 129, 0xFF, 0x100, 0x7FE, 0x801, 0xFFF, 0x1000, 0xFFFD),
    *(0x10001, 0x3FFFF, 0x40000, 0xFFFFF),
)
OTHERS = (
    *(Identifier(b"Abc"), Identifier(b"!" * 63), Identifier(b"''"), Identifier(b'"')),
    *(Number(b"007"), Number(b"9" * 63), Variable("s", b"X"), Variable("t", b"~" * 63)),
    *(Variable("e", b"1"), Variable("e", b"'"), Bracket()),
    Bracket([Bracket(), Bracket([Character(39)])]),
)


def symbols():
    """Every sort of symbol and every length of UTF-8, quotes too, in each list of the report."""
    codes = sorted({*EDGE_CODES, *CODES})
    for index, code in enumerate(codes):
        yield in_every_list(Character(code), Character(codes[index - 1]))
    for index, term in enumerate(OTHERS):
        yield in_every_list(term, OTHERS[index - 1])
        yield in_every_list(term, Character(0x20AC))
    deep = nest(["bracket"] * 31, [Character(0x10FFFF)])[0]
    yield in_every_list(deep, Number(b"1"))


# ------------------------------------------------------------------- verdicts


def one_call(arguments, patterns):
    """Go calls F with those arguments, and F has those patterns."""
    calls = [Call(b"F", argument) for argument in arguments]
    sentences = [Sentence(pattern) for pattern in patterns]
    return calling(calls, Function(b"F", sentences))


PATTERNS = (
    *("'A'", "s.X", "t.X", "e.X", "()", "(e.X) e.Y", "e.X 'A' e.Y", "e.X (e.Y)", "'A' e.X"),
    *("", "Abc e.X", "7"),
)


def read_each(texts):
    return [Text(text).terms() for text in texts]


def verdicts():
    """Unknown for want of fuel, in the outermost pair and in a bracket, beside other verdicts."""
    absorbing, absorbed = brief("eeeeeeeeB"), brief("AAAAAA")
    yield one_call([brief("A" * 26)], [brief("eeeB"), brief("e")])
    yield one_call([brief("A" * 27)], [brief("eeeB"), brief("e"), brief("eeeB")])
    yield one_call([brief("A" * 27), brief("B")], [brief("eeeB"), brief("C"), brief("eeeeB")])
    yield one_call([absorbed], [absorbing, brief("C")])
    yield one_call([[Bracket(absorbed)]], [[Bracket(absorbing)], brief("C"), [Bracket(brief("C"))]])
    tails = [[Bracket(absorbing)] + brief(letter) for letter in "Be"]
    yield one_call([[Bracket(absorbed)] + brief("A")], tails)
    yield one_call([absorbed, brief("AB")], [absorbing, brief("AB"), brief("C")])
    patterns = [*PATTERNS[3:], "'B' e.X", "s.1 s.2"]
    for first, second in itertools.combinations(PATTERNS, 2):
        arguments = [first, second][: 1 + len(first) % 2]
        yield one_call(read_each(arguments), read_each(patterns))


# --------------------------------------------------------------------- random


def random_programs():
    """Random good programs that are not long."""
    images = map(encode, map(good, itertools.count(50000)))
    yield from itertools.islice((image for image in images if len(image) <= 700), 110)


class LivelyMaker:
    """Small programs of few names and symbols, so that much is rejected, repeated and listed."""

    TERMS = (
        *("'A'", "'A'", "'B'", "'C'", "Abc", "aBC", "7", "s.X", "t.Y", "e.Z", "e.Z"),
        *("()", "('A')", "(e.Z)", "(s.X)"),
    )

    def __init__(self, dice):
        self.dice = dice
        self.names = [b"Go", b"F", b"G", b"H", b"K"][: dice.between(2, 5)]
        self.computed = dice.pick((0, 0, 5, 20))  # percent of arguments with a call or a block
        self.span_style = dice.pick(("zero", "few", "laid out"))

    def program(self):
        count = len(self.names) + self.dice.between(0, 1)
        program = Program([], [self.function(number) for number in range(count)])
        if self.span_style == "laid out":
            Layout().program(program)
        return program

    def function(self, number):
        name = self.names[number] if number < len(self.names) else self.name()
        count = self.dice.between(1, 5) if number else self.dice.between(1, 2)
        return Function(name, [self.sentence(0) for _ in range(count)], self.dice.chance(8))

    def sentence(self, depth):
        count = self.dice.pick((0, 0, 0, 1))
        conditions = [Condition(self.result(depth), self.plain(2)) for _ in range(count)]
        return Sentence(self.plain(3), conditions, self.result(depth))

    def plain(self, longest):
        chosen = " ".join(self.dice.pick(self.TERMS) for _ in range(self.dice.between(0, longest)))
        return self.spanned(Text(chosen).terms())

    def result(self, depth):
        terms = self.plain(1)
        for _ in range(self.dice.pick((0, 1, 1, 2))):
            terms.append(self.call(depth))
        if depth < 2 and self.dice.chance(8):
            count = self.dice.between(0, 2)
            sentences = [self.sentence(depth + 1) for _ in range(count)]
            terms.append(Block(self.plain(1), sentences))
        return terms

    def call(self, depth):
        argument = self.plain(3)
        if depth < 3 and self.dice.chance(self.computed):
            inner = self.call(depth + 1)
            argument.append(self.dice.pick((inner, Bracket([inner]), Block(self.plain(1)))))
        return Call(self.name(), argument)

    def name(self):
        name = self.dice.pick(self.names)
        return name.swapcase() if self.dice.chance(15) else name

    def spanned(self, terms):
        if self.span_style == "few" and self.dice.chance(30):
            return respan(terms, self.dice)
        return terms


def lively_programs():
    """Random programs that are not long, in which much is removed, in several rounds."""
    programs = (LivelyMaker(Dice(seed)).program() for seed in itertools.count(60000))
    images = map(encode, programs)
    yield from itertools.islice((image for image in images if len(image) <= 800), 240)


def typical_programs():
    """Programs like those people write, of lengths with every remainder by 4."""
    for size in (25, 26, 27, 28, 100, 301, 602, 903, 1204, 1500, 2001, 3002, 4003, 8192):
        yield encode(typical(size, size))


# ---------------------------------------------------------------------- large


def fill(text, size):
    """A text's image, made that long by a last function that nothing calls."""
    made = functions(text)
    room = size - len(encode(Program([], [*made, Function(b"Z", [Sentence()])])))
    terms = [Character(65) for _ in range(room // 13)]
    made.append(Function(b"Z" * (1 + room % 13), [Sentence([], [], terms)]))
    return encode(Program([], made))


def large_images():
    """Images near 32,768 bytes, and long reports: one is longer than any that is lent."""
    yield encode(typical(32768, 8))
    yield fill(chain(60, "AB"), 32767)
    calls = " ".join(f"<F {number}>" for number in range(350))
    letters = " ".join(f"'{chr(65 + number % 26)}' = ;" for number in range(400))
    yield laid_out(f"Go {{ = {calls}; }} F {{ {letters} s.X = ; }}")
    calls = " ".join(f"<F {number}>" for number in range(550))
    letters = " ".join(f"'{chr(256 + number)}' = ;" for number in range(550))
    yield laid_out(f"Go {{ = {calls}; }} F {{ {letters} s.X = ; }}")
    yield zero_spans(f"Go {{ = <F 'A'>; }} F {{ {'= ; ' * 2600} 'A' = ; }}")
    yield zero_spans(f"Go {{ = {'<F> <f> ' * 1300}; }} F {{ = ; 'A' = ; }}")
    yield zero_spans("Go { = <F 'A'>; } " + "F { } G { } f { 'A' = ; } " * 350)


GROUPS = (
    refused_images,
    damaged_images,
    document_example,
    without_functions,
    without_sentences,
    chains,
    several_rounds,
    all_rejected,
    many_sentences,
    uncharacterised,
    dynamic,
    not_dynamic,
    repeated_arguments,
    arguments_alike,
    repeated_with_spans,
    repeats_left_over,
    sites_in_order,
    names,
    roots,
    neighbouring_repeats,
    removed_repeats,
    symbols,
    verdicts,
    random_programs,
    lively_programs,
    typical_programs,
    large_images,
)


def main():
    program = Path(sys.argv[1]) if len(sys.argv) > 1 else DEFAULT_PROGRAM
    with Oracle(program, SECONDS) as oracle:
        corpus = Corpus(oracle)
        for group in GROUPS:
            name, before = group.__name__, len(corpus.data)
            for image in group():
                corpus.ask_image(name, image)
            report(name, corpus.records[name], corpus.images[name], len(corpus.data) - before)
    report("total", corpus.records.total(), corpus.images.total(), len(corpus.data))
    answers = ", ".join(f"{number}: {count}" for number, count in sorted(corpus.answers.items()))
    rounds = ", ".join(f"{number}: {count}" for number, count in sorted(corpus.rounds.items()))
    print(f"records by number: {answers}; left out: {corpus.left_out}", file=sys.stderr)
    departed = ", ".join(f"{request}: {count}" for request, count in sorted(corpus.departures.items()))
    print(f"accepted images by rounds: {rounds}; shortened: {corpus.shortened}", file=sys.stderr)
    print(f"last lines by the request that changed them (0: the Rust's own): {departed}", file=sys.stderr)
    sys.stdout.buffer.write(corpus.data)


def report(name, records, images, size):
    print(f"{name:26} {records:6} records {images:4} images {size:7} bytes", file=sys.stderr)


if __name__ == "__main__":
    main()
