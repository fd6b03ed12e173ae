"""Writes the corpus that the image reader is replayed on.

    python3 tools/image_vectors.py > crates/vectors/data/image

The stream is records of 8 bytes, little-endian: image length (u16), patch
position (u16), patch value (u8), expected number (u8, 0 is accepted), expected
place (u16, 0 where accepted). If the length is not 0, that many image bytes follow and become the
current image; with 0 the current image stays, and it is empty at the start. A
record asks for the current image with the byte at the patch position set to the
patch value, for this record alone; a position not below the length sets nothing.

Expected answers come from reader.py only. Every group below is a function that
yields questions; counts by group go to standard error.
"""

import copy
import struct
import sys
from collections import Counter

from generate import (
    MARKS,
    NESTING_KINDS,
    PATTERN_KINDS,
    Dice,
    damaged,
    good,
    nest,
    repaired_trailer,
    typical,
)
from reader import (
    TRAILER_LENGTH,
    Block,
    Bracket,
    Call,
    Character,
    Condition,
    Declaration,
    Function,
    Identifier,
    Number,
    Program,
    Refusal,
    Sentence,
    Span,
    Variable,
    encode,
    encode_body,
    encode_trailer,
    read_image,
    read_trailer,
)

NO_PATCH = 65535
LARGEST_NUMBER = (1 << 32) - 1


class Corpus:
    """The stream so far, and what was asked."""

    def __init__(self):
        self.data = bytearray()
        self.current = b""
        self.records = Counter()
        self.images = Counter()
        self.answers = Counter()

    def ask(self, group, image, position=NO_PATCH, value=0):
        question = bytearray(image)
        if position < len(image):
            question[position] = value
        answer = read_image(bytes(question))
        number, place = answer if isinstance(answer, Refusal) else (0, 0)
        new = image != self.current
        length = len(image) if new else 0
        if new and not image:
            raise ValueError("only the stream's beginning can ask for no bytes")
        self.data += struct.pack("<HHBBH", length, position, value, number, place)
        self.data += image if new else b""
        self.current = image
        self.records[group] += 1
        self.images[group] += new
        self.answers[number] += 1


# ------------------------------------------------------------------- material

# Every byte of these numbers differs from 0, so that changing any one can tell.
SPAN = Span(0x40302010, 0x40302011)
SHORT = Span(16, 32)


def every_mark():
    """A small program with every mark, in each place where terms can stand."""
    block_sentence = Sentence(result=[Variable("e", b"X", SPAN)], span=SHORT)
    block = Block([Variable("t", b"T", SPAN)], [block_sentence], SPAN)
    call = Call(b"G", [Number(b"07", SPAN)], SPAN)
    condition = Condition([Identifier(b"Id", SPAN)], [Variable("s", b"S", SPAN)], SPAN)
    pattern = [Bracket([Character(0xD7FF, SPAN)], SPAN)]
    sentence = Sentence(pattern, [condition], [call, block], SPAN)
    function = Function(b"F", [sentence], True, SPAN)
    return Program([Declaration([b"D"], SPAN)], [function])


def in_pattern(terms):
    return Program([], [Function(b"F", [Sentence(pattern=terms)])])


def in_result(terms):
    return Program([], [Function(b"F", [Sentence(result=terms)])])


def in_condition_result(terms):
    return Program([], [Function(b"F", [Sentence(conditions=[Condition(result=terms)])])])


def in_condition_pattern(terms):
    return Program([], [Function(b"F", [Sentence(conditions=[Condition(pattern=terms)])])])


TERM_PLACES = (in_pattern, in_result, in_condition_result, in_condition_pattern)
RESULT_PLACES = (in_result, in_condition_result)


def cut_body(image, length):
    """The image of the body's first bytes, with a trailer to suit."""
    body = image[:length]
    return body + repaired_trailer(body, image)


def upto_first_term(make=in_pattern):
    """A body that ends where the first term of the given place would stand."""
    image = encode(make([Bracket()]))
    return image[: image.index(bytes([7]))]


def with_body(body):
    """An image of any body, with a trailer that gives no refusal before it."""
    return body + repaired_trailer(body, encode_trailer((len(body), len(body), 1, 1)))


# --------------------------------------------------------------------- groups


def sizes():
    """Refusal 1 at its edges, and the smallest images around 12 bytes."""
    yield (b"",)
    for length in range(1, 12):
        yield (bytes(length),)
    yield (bytes([11, 0, 0, 0, 0, 0, 0, 0, 0, 0, 0]),)
    yield (bytes(12),)
    yield (bytes(13),)
    for position in range(12):
        for value in (1, 12, 255):
            yield bytes(12), position, value
    # One body byte: only 17 and 18 begin a record, and both are then cut off.
    one = bytes([0, 1, 0, 0, 0, 0, 0, 0, 0, 0, 0, 0, 0])
    for value in range(256):
        yield one, 0, value


def large():
    """Images of 32,767 and 32,768 bytes are accepted, one of 32,769 is refusal 1."""
    yield (encode(typical(32767, 7)),)
    yield (encode(typical(32769, 9)),)
    image = encode(typical(32768, 8))
    yield (image,)
    body_length = len(image) - TRAILER_LENGTH
    for position in (0, 1, 4, 9, 10, 20000, body_length - 3, body_length - 2, body_length - 1):
        for value in (0, 15, 18, 33, 64, 255):
            yield image, position, value
    # Each trailer byte: the first field gives 4, the second 4 or 11, the counts 11.
    for position in range(body_length, len(image)):
        for value in (0, 1, 127, 128, 255):
            yield image, position, value


def first_and_last():
    """Each refusal of 5 to 10 at the first and the last byte where it can stand.

    The first is that of the shortest way there from the body's start, the last
    is the body's last byte, or the last 8 (span) or 4 (code) bytes.
    """
    term = upto_first_term()
    result_term = upto_first_term(in_result)
    bad_span = struct.pack("<II", 1, 0)
    bad_code = struct.pack("<I", 0xD800)
    span = bytes(8)
    deep = term + (bytes([7]) + span) * 32
    deep_result = result_term + (bytes([8]) + span + b"\x01F") * 32
    bodies = (
        bytes([0]),  # 5 at 0
        bytes([18]) + span + b"\x00\x01F" + bytes([14]),  # 5 at the last byte
        bytes([18]),  # 5 at the body's length
        bytes([17]) + span + b"\x01\x00",  # 6 at 10, the last byte, by the length
        bytes([18]) + span + b"\x00\x40",
        bytes([17]) + span + b"\x01\x01 ",  # 6 at the last byte, by a byte of the name
        bytes([18]) + span + b"\x01\x02F\x7f",
        term + bytes([3]) + span + b"\x01/",
        term + bytes([1]) + span + bad_code,  # 7 at 30, and in the last 4 bytes
        result_term + bytes([1]) + span + bad_code,
        bytes([17]) + bad_span,  # 8 at 1, and in the last 8 bytes
        bytes([18]) + bad_span,
        term + bytes([1]) + bad_span,
        term + bytes([8]),  # 9 at 21, the last byte
        term + bytes([9]),
        deep + bytes([7]),  # 10 at the last byte
        deep_result + bytes([7]),
        deep_result + bytes([8]),
        deep_result + bytes([9]),
    )
    for body in bodies:
        yield (with_body(body),)
        # More bytes after the place must not change the answer of 6 to 10.
        yield (with_body(body + bytes([15])),)
        yield (with_body(body + bytes(20)),)


def two_at_once():
    """Two refusals true of one image, at one place or at two."""
    term = upto_first_term()
    result_term = upto_first_term(in_result)
    span = bytes(8)
    bad_span = struct.pack("<II", LARGEST_NUMBER, 0)
    deep = term + (bytes([7]) + span) * 32
    bodies = (
        deep + bytes([8]),  # 9 and 10 at one mark: 9
        deep + bytes([9]),
        deep + bytes([8]) + bad_span,  # and 8 after it
        term + bytes([8]) + bad_span,  # 9 before 8
        term + bytes([7]) + bad_span + bytes([8]),  # 8 before 9
        deep + bytes([1]) + span + struct.pack("<I", 0xDFFF) + bytes([7]),  # 7 before 10
        bytes([18]) + bad_span + b"\x02\x00",  # 8 before 5 before 6
        bytes([18]) + span + b"\x02\x00",  # 5 before 6
        bytes([18]) + span + b"\x00\x00\x0e",  # 6 before 5
        # A name that is cut off: 6 at a bad byte before the cut, else 5.
        bytes([18]) + span + b"\x00\x05AB",
        bytes([18]) + span + b"\x00\x05A ",
        bytes([18]) + span + b"\x00\x05 A",
        bytes([18]) + span + b"\x00\x05",
        bytes([18]) + span + b"\x00\x40A",
        bytes([18]) + span + b"\x00\xff",
        bytes([18]) + span + b"\x00",
        bytes([17]) + span + b"\xff\x01A",
        bytes([17]) + span + b"\xff\x3f" + b"A" * 62,
        bytes([17]) + span + b"\xff\x3f" + b"A" * 61 + b"\x80",
        term + bytes([3]) + span + b"\x0512",
        term + bytes([3]) + span + b"\x051A",
        term + bytes([3]) + span + b"\x05A1",
    )
    for body in bodies:
        yield (with_body(body),)
    # A code or a span that is cut off is 5, whatever stands of it.
    for kept in range(5):
        for code in (0xD800, 0x110000, LARGEST_NUMBER):
            for before in (term, result_term):
                yield (with_body(before + bytes([1]) + span + struct.pack("<I", code)[:kept]),)
    for kept in range(9):
        for head in (bytes([17]), bytes([18]), term + bytes([1]), term + bytes([7])):
            yield (with_body(head + bad_span[:kept]),)
            yield (with_body(head + struct.pack("<II", 1, 0)[:kept]),)
    # The trailer's refusals against the body's: 4 comes before, 11 after.
    bad_body = term + bytes([8])
    length = len(bad_body)
    for fields in (
        (length + 1, length, 1, 1),
        (length, length + 1, 1, 1),
        (length, 0, 1, 1),
        (length, length, 0, 0),
        (length, length, 65535, 65535),
    ):
        yield (bad_body + encode_trailer(fields),)


def repaired_cuts():
    """Every length of a body cut off, each with a trailer to suit."""
    image = encode(every_mark())
    for length in range(len(image) - TRAILER_LENGTH + 1):
        yield (cut_body(image, length),)


def raw_cuts():
    """Every length of a file cut off, where other bytes become the trailer."""
    image = encode(Program([Declaration()], [Function(b"F", [Sentence([Character(65)])])]))
    for length in range(1, len(image)):
        yield (image[:length],)


def byte_sweep():
    """Every byte of a program with every mark, trailer included, set to 0 to 255."""
    image = encode(every_mark())
    for position in range(len(image)):
        for value in range(256):
            yield image, position, value


def nesting():
    """Depths 32 and 33 by brackets, calls and blocks, alone and mixed."""
    for make in TERM_PLACES:
        # With 40 the refusal has to stand at the 33rd mark, not at the innermost.
        for depth in (31, 32, 33, 40):
            yield (encode(make(nest(["bracket"] * depth))),)
    open_kinds = [kind for kind in NESTING_KINDS if kind not in PATTERN_KINDS]
    for make in RESULT_PLACES:
        for kind in open_kinds[1:]:
            yield from chains_around_32(make, [kind] * 33)
    # Blocks' patterns hold brackets only, so they come after the other kinds.
    for kind in PATTERN_KINDS:
        for before in (0, 31, 32):
            kinds = ["block result"] * before + [kind] + ["bracket"] * (32 - before)
            yield from chains_around_32(in_result, kinds)
    dice = Dice(10)
    for _ in range(6):
        yield from chains_around_32(in_result, [dice.pick(open_kinds) for _ in range(33)])


def chains_around_32(make, kinds):
    yield (encode(make(nest(kinds[:32]))),)
    yield (encode(make(nest(kinds))),)


def nesting_ends():
    """Depth falls again where a bracket, call, block or sentence ends."""
    deep = nest(["bracket"] * 32)
    yield (encode(in_pattern([Bracket() for _ in range(40)])),)
    yield (encode(in_pattern(deep + deep)),)
    yield (encode(in_pattern(deep + nest(["bracket"] * 33))),)
    inner = nest(["bracket"] * 31)
    yield (encode(in_result([Block(inner, [Sentence(inner, [Condition(inner, inner)], inner)])])),)
    for kind in NESTING_KINDS[2:]:
        yield (encode(in_result(nest([kind], nest(["bracket"] * 32)))),)
        # A sibling after a whole block is no deeper than the block.
        yield (encode(in_result([*nest([kind]), *nest(["call"] * 32)])),)
        yield (encode(in_result([*nest([kind]), *nest(["call"] * 33)])),)
    first = Function(b"F", [Sentence(deep, [], deep), Sentence(deep)])
    yield (encode(Program([], [first, first])),)
    # Terms that hold no others may stand at any depth.
    symbols = [Character(65), Identifier(b"A"), Number(b"1"), Variable("e", b"X")]
    yield (encode(in_pattern(nest(["bracket"] * 32, symbols))),)
    # At 33 the mark decides before its span, name or content is looked at.
    image = encode(in_result(nest(["call"] * 33)))
    mark = read_image(image).place
    for length in range(mark, mark + 12):
        yield (cut_body(image, length),)


def patterns():
    """Refusal 9 wherever a pattern is, and nowhere else."""
    for term in (Call(b"F"), Block()):
        for make in TERM_PLACES:
            yield (encode(make([term])),)
            yield (encode(make([Bracket([Character(65), term])])),)
            yield (encode(make([Variable("e", b"X"), Bracket(), term])),)
        for kind in NESTING_KINDS:
            yield (encode(in_result(nest([kind], [term]))),)
            yield (encode(in_result(nest([kind, "bracket"], [term]))),)
            yield (encode(in_result(nest(["call", kind], [term]))),)
        yield (encode(in_pattern(nest(["bracket"] * 31, [term]))),)
        yield (encode(in_pattern(nest(["bracket"] * 32, [term]))),)
    # A pattern after a result is again a pattern, and a result after it a result.
    call = Call(b"F")
    yield (encode(Program([], [Function(b"F", [Sentence([], [], [call]), Sentence([call])])])),)
    conditions = [Condition([call]), Condition([], [call])]
    yield (encode(Program([], [Function(b"F", [Sentence([], conditions, [])])])),)


# Every record that has a name, as a program around one spelling.
NAME_HOLDERS = (
    lambda name: Program([Declaration([name])]),
    lambda name: Program([Declaration([b"A", name, b"B"])]),
    lambda name: Program([], [Function(name)]),
    lambda name: in_result([Call(name)]),
    lambda name: in_condition_result([Call(name, [Character(65)])]),
    lambda name: in_pattern([Identifier(name)]),
    lambda name: in_pattern([Variable("s", name)]),
    lambda name: in_condition_pattern([Variable("t", name)]),
    lambda name: in_result([Variable("e", name)]),
    lambda name: in_pattern([Bracket([Variable("e", name)])]),
)
NUMBER_HOLDERS = (
    lambda name: in_pattern([Number(name)]),
    lambda name: in_result([Bracket([Number(name)])]),
)
EDGE_BYTES = (0, 1, 31, 32, 33, 34, 47, 48, 57, 58, 64, 65, 125, 126, 127, 128, 160, 254, 255)


def names():
    """Lengths and bytes of names in every kind of record that has one."""
    yield from spellings(NAME_HOLDERS, b"N")
    yield from spellings(NUMBER_HOLDERS, b"7")


def spellings(holders, letter):
    for holder in holders:
        for length in (0, 1, 2, 62, 63, 64, 65, 128, 255):
            yield (encode(holder(letter * length)),)
        for length in (1, 3, 63):
            image = encode(holder(letter * length))
            first = image.index(bytes([length]) + letter * length) + 1
            for position in sorted({first, first + length // 2, first + length - 1}):
                for value in EDGE_BYTES:
                    yield image, position, value
            # Other lengths over the same bytes take in too few or too many.
            for value in (0, 1, 2, 3, 4, 8, 62, 63, 64, 127, 128, 255):
                yield image, first - 1, value


CODES = (
    *(0, 1, 10, 39, 127, 128, 255, 256, 2047, 2048),
    *(55294, 55295, 55296, 55297, 56319, 56320, 57342, 57343, 57344, 57345),
    *(65535, 65536, 0x1D800, 0xFD800, 0x10D800, 0x10DFFF),
    *(1114110, 1114111, 1114112, 1114113, 0x11D800),
    *(0xD80000, 0xD8000000, 0x1000000, 0x7FFFFFFF, 0x80000000, 0x80000041, 4294967295),
)


def codes():
    """Character codes around every edge, in each place where terms can stand."""
    for code in CODES:
        yield (encode(in_pattern([Character(code)])),)
    for make in (in_result, in_condition_result, in_condition_pattern):
        for code in (0, 55295, 55296, 57343, 57344, 1114111, 1114112, LARGEST_NUMBER):
            yield (encode(make([Bracket([Character(65), Character(code)])])),)


def records_with_spans(record):
    """Every record of a program that has a span, in file order."""
    if isinstance(record, Program):
        parts = [record.declarations, record.functions]
    else:
        yield record
        names_of_parts = ("terms", "pattern", "conditions", "result", "sentences")
        if isinstance(record, Condition):
            names_of_parts = ("result", "pattern")
        parts = [getattr(record, name, ()) for name in names_of_parts]
    for part in parts:
        for inner in part:
            yield from records_with_spans(inner)


SPANS = (
    *((7, 7), (7, 8), (8, 7), (255, 256), (256, 255), (65536, 65535)),
    *((0, LARGEST_NUMBER), (LARGEST_NUMBER, 0), (LARGEST_NUMBER, LARGEST_NUMBER)),
    *((LARGEST_NUMBER, LARGEST_NUMBER - 1), (1 << 31, (1 << 31) - 1), ((1 << 31) - 1, 1 << 31)),
)


def spans():
    """Equal, one apart either way, and large; then start above end in every record."""
    for start, end in SPANS:
        yield (encode(Program([Declaration([], Span(start, end))])),)
        yield (encode(Program([], [Function(b"F", [], False, Span(start, end))])),)
    base = every_mark()
    for index, _ in enumerate(records_with_spans(base)):
        for start, end in ((8, 7), (1 << 31, (1 << 31) - 1), (LARGEST_NUMBER, LARGEST_NUMBER)):
            program = copy.deepcopy(base)
            list(records_with_spans(program))[index].span = Span(start, end)
            yield (encode(program),)


def trailer_bases():
    """Programs whose trailers differ in kind: no function, one, several, blocks."""
    block = Block([], [Sentence(), Sentence()])
    two = [Function(b"F", [Sentence(), Sentence()]), Function(b"G", [Sentence([], [], [block])])]
    yield Program()
    yield Program([Declaration()])
    yield Program([Declaration([b"A"]), Declaration([b"B", b"C"])])
    yield Program([], [Function(b"F")])
    yield Program([], two)
    yield Program([Declaration([b"A"])], two)


def trailers():
    """Every field of the trailer wrong: off by one, zero, huge, high bytes set."""
    for program in trailer_bases():
        body = encode_body(program)
        true = read_trailer(encode(program))
        yield (encode(program),)
        for field, limit in enumerate((1 << 32, 1 << 32, 1 << 16, 1 << 16)):
            for value in wrong_values(true[field], limit):
                fields = list(true)
                fields[field] = value
                yield (body + encode_trailer(fields),)
        # Counts exchanged, and with the blocks' sentences counted too.
        body_length, first_function, functions, sentences = true
        yield (body + encode_trailer((body_length, first_function, sentences, functions)),)
        yield (body + encode_trailer((body_length, first_function, functions, sentences + 2)),)
        # Pointing at the body's start, or at the last function.
        last = len(encode_body(Program([], program.functions[-1:])))
        yield (body + encode_trailer((body_length, body_length, functions, sentences)),)
        yield (body + encode_trailer((body_length, last, functions, sentences)),)


def wrong_values(value, limit):
    changed = {value - 1, value + 1, 0, limit - 1, limit // 2, value + limit // 256}
    return sorted(wrong for wrong in changed if 0 <= wrong < limit and wrong != value)


def declarations():
    """Counts of names, wrong counts, and declarations where none may stand."""
    function = Function(b"F", [Sentence()])
    for count in (0, 1, 2, 254, 255):
        yield (encode(Program([Declaration([b"A"] * count)])),)
        yield (encode(Program([Declaration([b"A"] * count)], [function])),)
    for declared in ([], [b"A"], [b"A", b"B"]):
        image = encode(Program([Declaration(declared), Declaration([b"C"])], [function]))
        for value in (0, 1, 2, 3, 17, 18, 255):
            yield image, 9, value
    image = encode(Program([Declaration([b"A"] * 255)], [function]))
    yield image, 9, 254
    declaration = encode_body(Program([Declaration([b"A"])]))
    body = encode_body(Program([], [function]))
    # After a function, between two, and inside one before and after its sentence.
    for place in (len(body), 12, len(body) - 1):
        yield (with_body(body[:place] + declaration + body[place:]),)
    yield (with_body(declaration + body + declaration + body),)
    yield (with_body(declaration + declaration + body + body),)
    yield (with_body(body[:12] + body + body[12:]),)


def stray_marks():
    """Each mark put in, left out and doubled at every place of a program's body."""
    image = encode(in_result([Call(b"F", [Bracket([Block([], [Sentence()])])])]))
    body = image[:-TRAILER_LENGTH]
    places = [place for place, byte in enumerate(body) if byte in MARKS]
    for place in places:
        yield (with_body(body[:place] + body[place + 1 :]),)
        yield (with_body(body[:place] + body[place : place + 1] + body[place:]),)
        for mark in MARKS:
            yield image, place, mark
    for mark in MARKS:
        yield (with_body(body + bytes([mark])),)


def random_good():
    """Random and typical programs within the limits, all accepted."""
    yield from small_images(200, lambda seed: encode(good(seed)), 330)
    for size in (25, 48, 49, 100, 500, 1500):
        yield (encode(typical(size, size)),)


def random_damage():
    """Damaged copies of random programs, most with a trailer to suit."""
    yield from small_images(300, lambda seed: damaged(encode(good(seed + 10000)), seed), 300)


def small_images(count, make, longest):
    """The first `count` different images that are not long."""
    seen = set()
    seed = 0
    while len(seen) < count:
        image = make(seed)
        seed += 1
        if 0 < len(image) <= longest and image not in seen:
            seen.add(image)
            yield (image,)


GROUPS = (
    sizes,
    first_and_last,
    two_at_once,
    repaired_cuts,
    raw_cuts,
    byte_sweep,
    nesting,
    nesting_ends,
    patterns,
    names,
    codes,
    spans,
    trailers,
    declarations,
    stray_marks,
    random_good,
    random_damage,
    large,
)


def main():
    corpus = Corpus()
    for group in GROUPS:
        before = len(corpus.data)
        for question in group():
            corpus.ask(group.__name__, *question)
        name = group.__name__
        grown = len(corpus.data) - before
        print(
            f"{name:16} {corpus.records[name]:6} records {corpus.images[name]:4} images"
            f" {grown:7} bytes",
            file=sys.stderr,
        )
    total = f"{corpus.records.total():6} records {corpus.images.total():4} images"
    print(f"{'total':16} {total} {len(corpus.data):7} bytes", file=sys.stderr)
    answers = ", ".join(f"{number}: {count}" for number, count in sorted(corpus.answers.items()))
    print(f"records by answer (0 is accepted): {answers}", file=sys.stderr)
    sys.stdout.buffer.write(corpus.data)


if __name__ == "__main__":
    main()
