"""Checks the tools themselves: reader and encoder, generator, notation, oracle, the three
corpora, and the examples.

    python3 tools/selfcheck.py [ORACLE]

ORACLE is the driver that tools/oracle/build.sh built (default target/oracle/oracle);
without one the checks that need it are left out, and that is said.
"""

import struct
import sys
from collections import Counter
from dataclasses import fields, is_dataclass
from pathlib import Path

import generate
import oracle as asking
from clean_vectors import Asking
from image import NotationError, image_of, program_of, text_of
from overlap_vectors import CASES, expected_answer, one_function, terms
from reader import (
    Call,
    Character,
    Declaration,
    Function,
    Identifier,
    Program,
    Refusal,
    Sentence,
    Variable,
    encode,
    read_image,
)

PROGRAMS = 2000
TEXTS = 500
EXAMPLES = asking.REPOSITORY / "examples"


def check(truth, what):
    if not truth:
        sys.exit(f"wrong: {what}")


# ------------------------------------------------------- reader and generator


def check_round_trips():
    for seed in range(PROGRAMS):
        program = generate.good(seed)
        image = encode(program)
        check(read_image(image) == program, f"good program {seed} is read as it was made")
        check(encode(read_image(image)) == image, f"good program {seed} is encoded alike")
    print(f"{PROGRAMS} good programs accepted and encoded to the same bytes")


def check_typical_sizes():
    for size in [*range(25, 300), 8192, 32767, 32768]:
        program = generate.typical(size, size)
        image = encode(program)
        check(len(image) == size, f"typical program fills {size} bytes")
        check(read_image(image) == program, f"typical program of {size} bytes is accepted")
    print("typical programs of 278 sizes fill them and are accepted")


def check_damage():
    answers = Counter()
    for seed in range(PROGRAMS):
        answer = read_image(generate.damaged(encode(generate.good(seed)), seed))
        answers[answer.number if isinstance(answer, Refusal) else 0] += 1
    check(set(answers) >= {0, 1, 4, 5, 6, 7, 8, 9, 11}, "damage meets the usual refusals")
    print(f"{PROGRAMS} damaged images by answer: {dict(sorted(answers.items()))}")


# --------------------------------------------------------- refusals by hand

SPAN = "00000000 00000000 "
BAD_SPAN = "01000000 00000000 "
FUNCTION = "12 " + SPAN + "00 01 46 "  # F, Local; its sentences begin at 12
SENTENCE = "0a " + SPAN  # its pattern begins 9 bytes on
EMPTY = SENTENCE + "0f 0c 0f "

# Bodies spelled out byte by byte, with the answer that document 01 gives them.
BODIES = (
    ("", None),
    (FUNCTION + "0f", None),
    (FUNCTION + EMPTY + "0f", None),
    ("11 " + SPAN + "00", None),
    ("00", (5, 0)),
    ("0f", (5, 0)),
    ("12", (5, 1)),
    ("12 ff ff ff ff 00 00 00", (5, 8)),
    ("12 " + BAD_SPAN, (8, 1)),
    ("12 " + SPAN + "02 01 46 0f", (5, 9)),
    ("12 " + SPAN + "00 00 0f", (6, 10)),
    ("12 " + SPAN + "00 40", (6, 10)),
    ("12 " + SPAN + "00 01 20 0f", (6, 11)),
    ("12 " + SPAN + "00 3f 46 7f", (6, 12)),
    ("12 " + SPAN + "00 3f 46 46", (5, 13)),
    (FUNCTION + "0f 11 " + SPAN + "00", (5, 13)),
    (FUNCTION + "0b", (5, 12)),
    (FUNCTION + SENTENCE + "08", (9, 21)),
    (FUNCTION + SENTENCE + "09", (9, 21)),
    (FUNCTION + SENTENCE + "0a", (5, 21)),
    (FUNCTION + SENTENCE + "0f 0f", (5, 22)),
    (FUNCTION + SENTENCE + "0f 0b " + SPAN + "0f 08", (9, 32)),
    (FUNCTION + SENTENCE + "0f 0b " + SPAN + "08 " + BAD_SPAN, (8, 32)),
    (FUNCTION + SENTENCE + "01 " + SPAN + "00 d8 00", (5, 33)),
    (FUNCTION + SENTENCE + "01 " + SPAN + "00 d8 00 00", (7, 30)),
    (FUNCTION + SENTENCE + "03 " + SPAN + "02 31 3a", (6, 32)),
    (FUNCTION + SENTENCE + ("07 " + SPAN) * 32 + "0f " * 33 + "0c 0f 0f", None),
    (FUNCTION + SENTENCE + ("07 " + SPAN) * 32 + "07", (10, 21 + 32 * 9)),
    (FUNCTION + SENTENCE + ("07 " + SPAN) * 32 + "08", (9, 21 + 32 * 9)),
    (FUNCTION + SENTENCE + ("07 " + SPAN) * 32 + "06", (5, 22 + 32 * 9)),
    (FUNCTION + SENTENCE + "0f 0c " + ("08 " + SPAN + "01 46 ") * 32 + "09", (10, 23 + 32 * 11)),
)


def check_refusals():
    for text, expected in BODIES:
        body = bytes.fromhex(text)
        # Only the accepted ones need a true trailer: each has one function at most.
        functions = int(text.startswith(FUNCTION))
        trailer = (len(body), len(body) * functions, functions, text.count(SENTENCE))
        answer = read_image(body + struct.pack("<IIHH", *trailer))
        if expected is None:
            check(isinstance(answer, Program), f"accepted: {text}")
        else:
            check(answer == Refusal(*expected), f"{expected}, not {answer}: {text}")
    print(f"{len(BODIES)} bodies written by hand answered as document 01 says")


def check_trailers():
    body = bytes.fromhex(FUNCTION + EMPTY + "0f")
    check(read_image(b"") == Refusal(1, 0), "no bytes")
    check(read_image(bytes(11)) == Refusal(1, 0), "11 bytes")
    check(read_image(bytes(12)) == Program(), "12 zeros")
    check(read_image(bytes(32769)) == Refusal(1, 0), "32,769 bytes")
    trailers = (
        ((25, 25, 1, 1), None),
        ((24, 24, 1, 1), Refusal(4, 0)),
        ((25, 26, 1, 1), Refusal(4, 0)),
        ((25, 24, 1, 1), Refusal(11, 0)),
        ((25, 0, 1, 1), Refusal(11, 0)),
        ((25, 25, 0, 1), Refusal(11, 0)),
        ((25, 25, 1, 2), Refusal(11, 0)),
    )
    for fields, expected in trailers:
        answer = read_image(body + struct.pack("<IIHH", *fields))
        found = answer if isinstance(answer, Refusal) else None
        check(found == expected, f"trailer {fields}")
    print("sizes and trailers answered as document 01 says")


# ------------------------------------------------------------------- notation


def check_texts():
    programs = [generate.good(seed) for seed in range(TEXTS)]
    programs += [generate.typical(size, size) for size in (25, 300, 8192)]
    programs += [named(bytes([byte])) for byte in range(33, 127)]
    for number, program in enumerate(programs):
        text = text_of(program)
        again = program_of(text)
        check(without_spans(again) == without_spans(program), f"program {number} from its text")
        check(text_of(again) == text, f"program {number} is written alike")
        check(read_image(encode(again)) == again, f"program {number} from its text is accepted")
        check_spans(again, 0, len(text), f"spans of program {number}")
    print(f"{len(programs)} programs written as text and read again, the same but for spans")


def named(name):
    """A program with one name in every place that has one, and with its bytes as characters."""
    characters = [Character(code) for code in name]
    result = [Call(name, [Identifier(name)]), *(Variable(kind, name) for kind in "ste")]
    function = Function(name, [Sentence(characters, [], result)])
    return Program([Declaration([name, name])], [function])


def without_spans(record):
    if isinstance(record, list):
        return [without_spans(part) for part in record]
    if not is_dataclass(record):
        return record
    names = [field.name for field in fields(record) if field.name != "span"]
    return type(record), [without_spans(getattr(record, name)) for name in names]


def check_spans(record, start, end, what):
    """Each record lies in the one that holds it, and neighbours do not meet."""
    if hasattr(record, "span"):
        check(start <= record.span.start < record.span.end <= end, what)
        start, end = record.span
    for field in fields(record):
        parts = getattr(record, field.name)
        for part in filter(is_dataclass, parts if isinstance(parts, list) else ()):
            check_spans(part, start, end, what)
            start = part.span.end


# Texts that no image can hold or that are not of the notation, with the answer's beginning.
WRONG_TEXTS = (
    ("F {", "line 1, column 4: a sentence or `}` must stand here"),
    ("F { e.X ", "line 1, column 9: a term, `,` or `=` must stand here"),
    ("F { = <G e.X; }", "line 1, column 13: a term or `>` must stand here"),
    ("F {\n  (<G>) = ; }", "line 2, column 4: a call or a block cannot stand in a pattern"),
    ("F { , : [: {}] = ; }", "line 1, column 9: a call or a block cannot"),
    ("F { = 'A }", "line 1, column 7: a quote that is not closed"),
    ("F { = ''; }", "line 1, column 7: no character between"),
    ("F { = '\u044f\\q'; }", "line 1, column 9: no such escape"),
    ("F { = '\\x{D800}'; }", "line 1, column 8: no character has this code"),
    ("F { = 7a; }", "line 1, column 7: a name begins with a letter"),
    ("F { = `a b`; }", "line 1, column 9: a name holds only"),
    ("F { = e.; }", "line 1, column 8: nothing of the notation"),
    ("F { = e.X }", "line 1, column 11: a term or `;`"),
    ("F {}\n$EXTERN G;", "line 2, column 1: declarations come before"),
    ("e.X", "line 1, column 1: a name must stand here"),
    ("/* F {}", "line 1, column 1: a comment that is not closed"),
    ("F { = %; }", "line 1, column 7: nothing of the notation"),
    (f"F {{ = {'A' * 64}; }}", "line 1, column 7: a name or number has"),
    (f"F {{ = {'7' * 64}; }}", "line 1, column 7: a name or number has"),
    (f"F {{ = {'(' * 33}", "line 1, column 39: brackets, calls and blocks nest"),
    (f"$EXTERN {'A,' * 256}", "line 1, column 519: a declaration has"),
    (f"F {{ = '{'A' * 2600}'; }}", "line 1, column 2612: the image would have"),
)


def check_wrong_texts():
    for text, expected in WRONG_TEXTS:
        try:
            image_of(text.encode())
            check(False, f"accepted: {text}")
        except NotationError as error:
            answer = error.line(text.encode())
            check(answer.startswith(expected), f"{expected!r}, not {answer!r}: {text}")
    print(f"{len(WRONG_TEXTS)} wrong texts answered with line and column")


def check_examples():
    texts = sorted(EXAMPLES.glob("*.ref"))
    for path in texts:
        image = path.with_suffix(".image").read_bytes()
        check(image_of(path.read_bytes()) == image, f"the image of {path.name}")
    print(f"{len(texts)} examples have the images of their texts")


def check_example_reports(oracle):
    texts = sorted(EXAMPLES.glob("*.ref"))
    for path in texts:
        report = oracle.clean(image_of(path.read_bytes()))[1]
        check(report == path.with_suffix(".report").read_bytes(), f"the report of the example {path.stem}")
    check((EXAMPLES / "worked.report").read_bytes() == WORKED_REPORT, "the stored report of the worked example")
    print(f"oracle: {len(texts)} examples have their reports, the worked one document 01's")


# -------------------------------------------------------------------- corpus


def corpus_records(name, layout, following=lambda fields: 0):
    """Number, image, other fields and bytes that follow of each record, by a second reader.

    `following` says how many bytes follow a record besides its image.
    """
    path = asking.REPOSITORY / "crates" / "vectors" / "data" / name
    if not path.exists():
        print(f"left out: no {name} corpus is written")
        return
    data = path.read_bytes()
    place, image, records = 0, b"", 0
    while place < len(data):
        length, *fields = struct.unpack_from(layout, data, place)
        place += struct.calcsize(layout)
        if length:
            image = data[place : place + length]
            place += length
        more = data[place : place + following(fields)]
        place += len(more)
        records += 1
        yield records, image, fields, more
    print(f"{records} records of the {name} corpus answered as written")


def check_image_corpus():
    for number, image, fields, _ in corpus_records("image", "<HHBBH"):
        position, value, *expected = fields
        question = bytearray(image)
        if position < len(question):
            question[position] = value
        answer = read_image(bytes(question))
        found = list(answer) if isinstance(answer, Refusal) else [0, 0]
        check(found == expected, f"record {number} of the image corpus: {found}")


def check_overlap_corpus(oracle):
    for number, image, fields, _ in corpus_records("overlap", "<HHHBBHH"):
        first, second, *expected = fields
        found = list(expected_answer(oracle, image, first, second))
        check(found == expected, f"record {number} of the overlap corpus: {found}")


def check_clean_corpus(oracle):
    answers = Asking(oracle)
    expected = b""
    clean = corpus_records("clean", "<HHHHBBIHH", lambda fields: fields[4] * sum(fields[6:]))
    for record, image, fields, more in clean:
        *lent, number, follow, place, output, report = fields
        expected = more if follow else expected
        found = answers.answer(image, lent)
        lengths = [len(part) for part in found[2:]]
        check([*found[:2], *lengths] == [number, place, output, report], f"clean record {record}")
        if number == 0:
            check(found[2] + found[3] == expected, f"bytes of record {record} of the clean corpus")


# -------------------------------------------------------------------- oracle


def worked_example():
    """$ENTRY Go { e.X = <F 'A' e.X>; } and F { 'A' e.Y = e.Y; (e.Z) = 'B'; }"""
    call = Call(b"F", terms("'A' e.X"))
    go = Function(b"Go", [Sentence(terms("e.X"), [], [call])], entry=True)
    first = Sentence(terms("'A' e.Y"), [], terms("e.Y"))
    second = Sentence(terms("(e.Z)"), [], terms("'B'"))
    return Program([], [go, Function(b"F", [first, second])])


WORKED_REPORT = b"""functions: 2
sentences: 3 -> 2
rounds: 2
removed: 1
  F {(e.Z)} rejected by <'A' e.X>
undecided: 0
uncovered: 0
graph: perfect
"""

EMPTY_REPORT = b"""functions: 0
sentences: 0 -> 0
rounds: 1
removed: 0
undecided: 0
uncovered: 0
graph: empty
"""


def check_oracle(path):
    with asking.Oracle(path) as oracle:
        image = encode(worked_example())
        cleaned, report = oracle.clean(image)
        check(report == WORKED_REPORT, "the worked example's report")
        expected = worked_example()
        del expected.functions[1].sentences[1]
        check(cleaned == encode(expected), "the worked example's cleaned image")
        check(oracle.clean(bytes(12)) == (bytes(12), EMPTY_REPORT), "12 zeros cleaned")
        for number, (first, second, verdict, spent) in enumerate(CASES, 1):
            answer = oracle.overlap(one_function([terms(first), terms(second)]), 0, 1)
            check(answer == (verdict, spent), f"overlap case {number}: {answer}")
        print(f"oracle: worked example, 12 zeros and {len(CASES)} overlap cases as in document 01, empty as in 02")
        check_example_reports(oracle)
        check_oracle_on_programs(oracle)
        check_overlap_corpus(oracle)
        check_clean_corpus(oracle)


def check_oracle_on_programs(oracle):
    """What cleaning must keep, and that the driver's decoder and encoder agree."""
    shortened = 0
    for seed in range(PROGRAMS):
        program = generate.good(seed)
        image = encode(program)
        cleaned_image, report = oracle.clean(image)
        cleaned = read_image(cleaned_image)
        check(isinstance(cleaned, Program), f"cleaned program {seed} is accepted")
        check(cleaned.declarations == program.declarations, f"declarations of {seed}")
        check(heads(cleaned) == heads(program), f"functions of {seed}")
        if b"removed: 0\n" in report:
            check(cleaned_image == image, f"program {seed} without removals is unchanged")
        else:
            shortened += 1
    print(f"oracle: {PROGRAMS} good programs cleaned, {shortened} of them shortened")


def heads(program):
    return [(f.name, f.entry, f.span) for f in program.functions]


def main():
    check_round_trips()
    check_typical_sizes()
    check_damage()
    check_refusals()
    check_trailers()
    check_texts()
    check_wrong_texts()
    check_examples()
    check_image_corpus()
    path = Path(sys.argv[1]) if len(sys.argv) > 1 else asking.DEFAULT_PROGRAM
    if path.exists():
        check_oracle(path)
    else:
        print("left out: no oracle is built")


if __name__ == "__main__":
    main()
