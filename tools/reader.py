"""A second reader of images, written from the text of document 01.

It decides refusals 1 and 4 to 11, number and place, by plain recursive
descent, and shares neither code nor plan with the reader in crates/.
Comments that begin with "01:" quote the sentence that the code below renders;
comments that begin with "Reading:" name a point that document 01 leaves open
and that docs/DECISIONS.md settles.

    read_image(image) -> Refusal or Program
    encode(program)   -> image with its trailer
"""

import struct
from dataclasses import dataclass, field
from typing import NamedTuple

SMALLEST_IMAGE = 12
LARGEST_IMAGE = 32768
TRAILER_LENGTH = 12
LONGEST_NAME = 63
DEEPEST_NESTING = 32

# 01: "Every mark is one byte, here in decimal. Close is 15."
CHARACTER = 1
IDENTIFIER = 2
NUMBER = 3
SYMBOL_VARIABLE = 4
TERM_VARIABLE = 5
EXPRESSION_VARIABLE = 6
BRACKET = 7
CALL = 8
BLOCK = 9
SENTENCE = 10
CONDITION = 11
RESULT = 12
CLOSE = 15
DECLARATION = 17
FUNCTION = 18

TERM_MARKS = range(CHARACTER, BLOCK + 1)
NESTING_MARKS = (BRACKET, CALL, BLOCK)
VARIABLE_KINDS = {SYMBOL_VARIABLE: "s", TERM_VARIABLE: "t", EXPRESSION_VARIABLE: "e"}
VARIABLE_MARKS = {kind: mark for mark, kind in VARIABLE_KINDS.items()}


# ---------------------------------------------------------------- the program


class Span(NamedTuple):
    start: int
    end: int


NO_SPAN = Span(0, 0)


@dataclass
class Character:
    code: int
    span: Span = NO_SPAN


@dataclass
class Identifier:
    name: bytes
    span: Span = NO_SPAN


@dataclass
class Number:
    name: bytes
    span: Span = NO_SPAN


@dataclass
class Variable:
    kind: str  # "s", "t" or "e"
    name: bytes
    span: Span = NO_SPAN


@dataclass
class Bracket:
    terms: list = field(default_factory=list)
    span: Span = NO_SPAN


@dataclass
class Call:
    name: bytes
    terms: list = field(default_factory=list)
    span: Span = NO_SPAN


@dataclass
class Block:
    terms: list = field(default_factory=list)
    sentences: list = field(default_factory=list)
    span: Span = NO_SPAN


@dataclass
class Condition:
    result: list = field(default_factory=list)
    pattern: list = field(default_factory=list)
    span: Span = NO_SPAN


@dataclass
class Sentence:
    pattern: list = field(default_factory=list)
    conditions: list = field(default_factory=list)
    result: list = field(default_factory=list)
    span: Span = NO_SPAN


@dataclass
class Declaration:
    names: list = field(default_factory=list)
    span: Span = NO_SPAN


@dataclass
class Function:
    name: bytes
    sentences: list = field(default_factory=list)
    entry: bool = False
    span: Span = NO_SPAN


@dataclass
class Program:
    declarations: list = field(default_factory=list)
    functions: list = field(default_factory=list)


class Trailer(NamedTuple):
    body_length: int
    first_function: int
    functions: int
    sentences: int


# ------------------------------------------------------------------- refusals


class Refusal(NamedTuple):
    number: int
    place: int


class Refused(Exception):
    """Carries the first refusal out of the descent."""

    def __init__(self, number, place):
        super().__init__(number, place)
        self.refusal = Refusal(number, place)


# -------------------------------------------------------------------- reading


def read_image(image):
    """The program of an accepted image, else its refusal."""
    try:
        return read_or_raise(image)
    except Refused as refused:
        return refused.refusal


def read_or_raise(image):
    # 01: "Order: 1, 2, 3, 4; then 5 to 10 at the earliest place, lower number
    # first at one place; then 11, 13, 12." (2, 3, 12 and 13 are not the image's.)
    # 01: "1: image below 12 or above 32,768 bytes."
    if not SMALLEST_IMAGE <= len(image) <= LARGEST_IMAGE:
        raise Refused(1, 0)
    trailer = read_trailer(image)
    check_trailer_alone(trailer, len(image))
    # The trailer is no part of the body, so no record may run into it.
    program, first_function = read_body(image[:-TRAILER_LENGTH])
    # 01: "11: trailer's second field or counts do not agree with the body."
    if trailer != true_trailer(program, trailer.body_length, first_function):
        raise Refused(11, 0)
    return program


def read_trailer(image):
    # 01: "The trailer is the last 12 bytes and points back: 32-bit distance from
    # it to the body's start, 32-bit distance from it to the first function (0 if
    # none), 16-bit function count, 16-bit count of the functions' own sentences
    # (blocks' not counted)."
    return Trailer(*struct.unpack("<IIHH", image[-TRAILER_LENGTH:]))


def check_trailer_alone(trailer, image_length):
    # 01: "4: trailer's first field is not the image length less 12, or its
    # second exceeds its first."
    if trailer.body_length != image_length - TRAILER_LENGTH:
        raise Refused(4, 0)
    if trailer.first_function > trailer.body_length:
        raise Refused(4, 0)


def true_trailer(program, body_length, first_function):
    """The trailer that agrees with a body; first_function is None without one."""
    distance = 0 if first_function is None else body_length - first_function
    own_sentences = sum(len(function.sentences) for function in program.functions)
    return Trailer(body_length, distance, len(program.functions), own_sentences)


def read_body(body):
    """The body's program and the place of its first function's mark (or None)."""
    cursor = Cursor(body)
    program = Program()
    first_function = None
    # Reading: the body is read from left to right, so the first refusal met is
    # the one at the earliest place.
    while not cursor.at_end():
        mark_place = cursor.place
        mark = cursor.byte()
        # 01: "Declarations come first."
        if mark == DECLARATION and not program.functions:
            program.declarations.append(read_declaration(cursor))
        elif mark == FUNCTION:
            if first_function is None:
                first_function = mark_place
            program.functions.append(read_function(cursor))
        else:
            # 01: "5: a byte that no record allows (place: that byte)"
            raise Refused(5, mark_place)
    return program, first_function


class Cursor:
    """A place in the body; what it takes it leaves behind."""

    def __init__(self, body):
        self.body = body
        self.place = 0

    def at_end(self):
        return self.place == len(self.body)

    def need(self, length):
        # 01: "5: ... or a record cut off (place: body length)."
        if len(self.body) - self.place < length:
            raise Refused(5, len(self.body))

    def look(self):
        self.need(1)
        return self.body[self.place]

    def byte(self):
        value = self.look()
        self.place += 1
        return value

    def number32(self):
        # 01: "Numbers are little-endian."
        self.need(4)
        (value,) = struct.unpack_from("<I", self.body, self.place)
        self.place += 4
        return value


def read_declaration(cursor):
    # 01: "Declaration: 17, span, one count byte, that many names."
    # Reading: the count may be 0.
    span = read_span(cursor)
    count = cursor.byte()
    names = [read_name(cursor) for _ in range(count)]
    return Declaration(names, span)


def read_function(cursor):
    # 01: "Function: 18, span, a byte 0 (Local) or 1 (Entry), name, sentences,
    # close."
    span = read_span(cursor)
    visibility_place = cursor.place
    visibility = cursor.byte()
    # Reading: any other visibility is a byte that no record allows.
    if visibility not in (0, 1):
        raise Refused(5, visibility_place)
    name = read_name(cursor)
    sentences = read_sentences(cursor, depth=0)
    return Function(name, sentences, visibility == 1, span)


def read_sentences(cursor, depth):
    """Sentences up to a close, which is taken too."""
    sentences = []
    while True:
        mark_place = cursor.place
        mark = cursor.byte()
        if mark == CLOSE:
            return sentences
        if mark != SENTENCE:
            raise Refused(5, mark_place)
        sentences.append(read_sentence(cursor, depth))


def read_sentence(cursor, depth):
    # 01: "Sentence: 10, span, pattern terms, close; conditions, each 11, span,
    # result terms, close, pattern terms, close; then 12, result terms, close."
    span = read_span(cursor)
    pattern = read_pattern(cursor, depth)
    conditions = []
    while True:
        mark_place = cursor.place
        mark = cursor.byte()
        if mark == RESULT:
            result = read_result(cursor, depth)
            return Sentence(pattern, conditions, result, span)
        if mark != CONDITION:
            raise Refused(5, mark_place)
        conditions.append(read_condition(cursor, depth))


def read_condition(cursor, depth):
    span = read_span(cursor)
    result = read_result(cursor, depth)
    # Reading: a condition's pattern is a pattern for refusal 9.
    pattern = read_pattern(cursor, depth)
    return Condition(result, pattern, span)


def read_pattern(cursor, depth):
    return read_terms(cursor, depth, in_pattern=True)


def read_result(cursor, depth):
    return read_terms(cursor, depth, in_pattern=False)


def read_terms(cursor, depth, in_pattern):
    """Terms up to a close, which is taken too.

    depth counts the brackets, calls and blocks that are open around them.
    """
    terms = []
    while cursor.look() != CLOSE:
        terms.append(read_term(cursor, depth, in_pattern))
    cursor.byte()
    return terms


def read_term(cursor, depth, in_pattern):
    mark_place = cursor.place
    mark = cursor.byte()
    if mark not in TERM_MARKS:
        raise Refused(5, mark_place)
    # Reading: 9 and 10 are decided by the mark alone, before its span is read.
    # 01: "9: call or block inside a pattern." "Place: the mark."
    if in_pattern and mark in (CALL, BLOCK):
        raise Refused(9, mark_place)
    # 01: "10: brackets, calls and blocks nested above 32, the term itself
    # counted. Place: the mark."
    if mark in NESTING_MARKS and depth + 1 > DEEPEST_NESTING:
        raise Refused(10, mark_place)
    # 01: "Terms, each with a span after its mark"
    span = read_span(cursor)
    if mark == CHARACTER:
        return Character(read_code(cursor), span)
    if mark == IDENTIFIER:
        return Identifier(read_name(cursor), span)
    if mark == NUMBER:
        return Number(read_digits(cursor), span)
    if mark in VARIABLE_KINDS:
        return Variable(VARIABLE_KINDS[mark], read_name(cursor), span)
    # 01: "7 bracket (terms, close); 8 call (name, terms, close); 9 block (terms,
    # close, sentences, close)."
    if mark == BRACKET:
        return Bracket(read_terms(cursor, depth + 1, in_pattern), span)
    if mark == CALL:
        name = read_name(cursor)
        return Call(name, read_result(cursor, depth + 1), span)
    # Reading: a block's argument and its sentences are both one level deeper.
    argument = read_result(cursor, depth + 1)
    return Block(argument, read_sentences(cursor, depth + 1), span)


def read_span(cursor):
    # 01: "A span is two 32-bit numbers, start and end."
    place = cursor.place
    # Reading: a span that is cut off is 5, whatever stands of its start.
    cursor.need(8)
    span = Span(cursor.number32(), cursor.number32())
    # 01: "8: span start above end. Place: the span's first byte."
    if span.start > span.end:
        raise Refused(8, place)
    return span


def read_code(cursor):
    # 01: "1 character (32-bit code)"
    place = cursor.place
    code = cursor.number32()
    # 01: "7: character code above 1,114,111 or in 55,296 to 57,343. Place: its
    # first byte."
    if code > 1114111 or 55296 <= code <= 57343:
        raise Refused(7, place)
    return code


def read_name(cursor):
    return read_spelling(cursor, first=33, last=126)


def read_digits(cursor):
    return read_spelling(cursor, first=ord("0"), last=ord("9"))


def read_spelling(cursor, first, last):
    # 01: "A name is a length byte and its bytes."
    # 01: "6: a name or number with length 0 or above 63, or a byte outside 33 to
    # 126 (number: outside '0' to '9'). Place: that byte."
    length_place = cursor.place
    length = cursor.byte()
    # Reading: for a bad length "that byte" is the length byte.
    if not 1 <= length <= LONGEST_NAME:
        raise Refused(6, length_place)
    spelling = bytearray()
    for _ in range(length):
        # Reading: bytes are taken one by one, so that a bad one before the cut
        # is met before the cut itself.
        byte_place = cursor.place
        byte = cursor.byte()
        if not first <= byte <= last:
            raise Refused(6, byte_place)
        spelling.append(byte)
    return bytes(spelling)


# ------------------------------------------------------------------- encoding


def encode(program):
    """The image of a program, trailer included.

    Nothing is checked, so that images that must be refused can be made too.
    """
    body = encode_body(program)
    first_function = None
    if program.functions:
        first_function = sum(len(encode_declaration(d)) for d in program.declarations)
    return body + encode_trailer(true_trailer(program, len(body), first_function))


def encode_body(program):
    declarations = b"".join(map(encode_declaration, program.declarations))
    return declarations + b"".join(map(encode_function, program.functions))


def encode_trailer(trailer):
    return struct.pack("<IIHH", *trailer)


def encode_declaration(declaration):
    names = b"".join(map(encode_name, declaration.names))
    return marked(DECLARATION, declaration) + bytes([len(declaration.names)]) + names


def encode_function(function):
    head = marked(FUNCTION, function) + bytes([function.entry]) + encode_name(function.name)
    return head + encode_sentences(function.sentences)


def encode_sentences(sentences):
    return b"".join(map(encode_sentence, sentences)) + bytes([CLOSE])


def encode_sentence(sentence):
    head = marked(SENTENCE, sentence) + encode_terms(sentence.pattern)
    conditions = b"".join(map(encode_condition, sentence.conditions))
    return head + conditions + bytes([RESULT]) + encode_terms(sentence.result)


def encode_condition(condition):
    head = marked(CONDITION, condition)
    return head + encode_terms(condition.result) + encode_terms(condition.pattern)


def encode_terms(terms):
    return b"".join(map(encode_term, terms)) + bytes([CLOSE])


def encode_term(term):
    match term:
        case Character():
            return marked(CHARACTER, term) + struct.pack("<I", term.code)
        case Identifier():
            return marked(IDENTIFIER, term) + encode_name(term.name)
        case Number():
            return marked(NUMBER, term) + encode_name(term.name)
        case Variable():
            return marked(VARIABLE_MARKS[term.kind], term) + encode_name(term.name)
        case Bracket():
            return marked(BRACKET, term) + encode_terms(term.terms)
        case Call():
            return marked(CALL, term) + encode_name(term.name) + encode_terms(term.terms)
        case Block():
            argument = marked(BLOCK, term) + encode_terms(term.terms)
            return argument + encode_sentences(term.sentences)
    raise TypeError(f"not a term: {term!r}")


def marked(mark, record):
    return bytes([mark]) + struct.pack("<II", *record.span)


def encode_name(name):
    return bytes([len(name)]) + name


# --------------------------------------------------------------- command line


def main():
    """Reads one image from standard input and says how it is answered."""
    import sys

    answer = read_image(sys.stdin.buffer.read())
    if isinstance(answer, Refusal):
        print(f"refused {answer.number} at {answer.place}")
    else:
        own = sum(len(function.sentences) for function in answer.functions)
        print(f"accepted: {len(answer.functions)} functions, {own} sentences")


if __name__ == "__main__":
    main()
