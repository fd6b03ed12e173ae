"""Shows as text: makes an image of a program's text, and a text of an image.

    python3 tools/image.py encode < program.ref > program.image
    python3 tools/image.py decode < program.image > program.ref

docs/NOTATION.md describes the notation. A wrong text is answered with one line
that gives line and column, an image that reader.py refuses with its refusal; both
go to standard error, with exit status 1.

    program_of(text)  -> the program, each record with the span of its text in bytes
    text_of(program)  -> a text, as bytes; program_of gives the program again but for spans
"""

import itertools
import re
import sys
import unicodedata
from typing import NamedTuple

from reader import (
    DEEPEST_NESTING,
    LARGEST_IMAGE,
    LONGEST_NAME,
    Block,
    Bracket,
    Call,
    Character,
    Condition,
    Declaration,
    Function,
    Identifier,
    Number,
    Program,
    Refusal,
    Sentence,
    Span,
    Variable,
    encode,
    read_image,
)

MOST_DECLARED = 255  # a declaration counts its names in one byte
PLAIN_NAME = re.compile(rb"[A-Za-z][A-Za-z0-9_-]*")
PLAIN_VARIABLE = re.compile(rb"[A-Za-z0-9_-]+")


class NotationError(Exception):
    """What is wrong with a text, and at which byte."""

    def __init__(self, place, message):
        super().__init__(place, message)
        self.place = place
        self.message = message

    def line(self, text):
        """The line that is printed; columns count characters, not bytes."""
        before = text[: self.place].decode(errors="replace").split("\n")
        return f"line {len(before)}, column {len(before[-1]) + 1}: {self.message}"


# --------------------------------------------------------------------- tokens

TOKENS = re.compile(
    rb"""
      (?P<passed> [ \t\r\n]+ | ^\*[^\n]* | /\*.*?\*/ )
    | (?P<variable> [ste]\. (?: [A-Za-z0-9_-]+ | `(?:\\[^\n]|[^\\`\n])*` ) )
    | (?P<word> [A-Za-z0-9_-]+ )
    | (?P<characters> '(?:\\[^\n]|[^\\'\n])*' | "(?:\\[^\n]|[^\\"\n])*" )
    | (?P<name> `(?:\\[^\n]|[^\\`\n])*` )
    | (?P<sign> \$ENTRY\b | \$EXTERN\b | [][(){}<>=,:;] )
    """,
    re.VERBOSE | re.DOTALL | re.MULTILINE,
)


class Token(NamedTuple):
    kind: str  # a group of TOKENS or "end"
    text: bytes
    start: int
    end: int


def tokens_of(text):
    """The tokens in order, blanks and comments passed over, and one for the end."""
    found = []
    place = 0
    while place < len(text):
        match = TOKENS.match(text, place)
        if match is None:
            raise NotationError(place, why_no_token(text[place : place + 2]))
        if match.lastgroup != "passed":
            found.append(Token(match.lastgroup, match.group(), place, match.end()))
        place = match.end()
    return [*found, Token("end", b"", place, place)]


def why_no_token(beginning):
    if beginning[:1] in (b"'", b'"', b"`"):
        return "a quote that is not closed on its line"
    if beginning == b"/*":
        return "a comment that is not closed"
    return "nothing of the notation begins here"


# -------------------------------------------------------------- between quotes

PIECES = re.compile(
    rb"\\x\{(?P<hex>[0-9A-Fa-f]+)\}|\\(?P<escaped>[^\n])|[\x00-\x7f]|[\xc0-\xff][\x80-\xbf]+"
)
ESCAPES = {b"n": 10, b"r": 13, b"t": 9, b"\\": 92, b"'": 39, b'"': 34, b"`": 96}
ESCAPED_CODES = {code: escape.decode() for escape, code in ESCAPES.items()}


def quoted_pieces(text, place):
    """Code, start and end of each character of `text`, whose first byte is at `place`."""
    for piece in PIECES.finditer(text):
        start, end = place + piece.start(), place + piece.end()
        yield code_of(piece, start), start, end


def code_of(piece, place):
    if piece["hex"]:
        code = int(piece["hex"], 16)
        if code > 1114111 or 55296 <= code <= 57343:
            raise NotationError(place, "no character has this code")
        return code
    if piece["escaped"]:
        if piece["escaped"] not in ESCAPES:
            raise NotationError(place, "no such escape")
        return ESCAPES[piece["escaped"]]
    return ord(piece.group().decode())


def characters_of(token):
    """A term for each character; the spans of the first and the last take in the quotes."""
    pieces = list(quoted_pieces(token.text[1:-1], token.start + 1))
    if not pieces:
        raise NotationError(token.start, "no character between the quotes")
    terms = [Character(code, Span(start, end)) for code, start, end in pieces]
    terms[0].span = terms[0].span._replace(start=token.start)
    terms[-1].span = terms[-1].span._replace(end=token.end)
    return terms


def name_of(text, place, plain=PLAIN_NAME):
    """The name that is written as `text`: plainly, or between backquotes."""
    name = text
    if text.startswith(b"`"):
        pieces = list(quoted_pieces(text[1:-1], place + 1))
        for code, start, _ in pieces:
            if not 33 <= code <= 126:
                raise NotationError(start, "a name holds only the codes 33 to 126")
        name = bytes(code for code, _, _ in pieces)
    elif not plain.fullmatch(text):
        raise NotationError(place, "a name begins with a letter, or stands between backquotes")
    return checked_length(name, place)


def checked_length(name, place):
    if not 1 <= len(name) <= LONGEST_NAME:
        raise NotationError(place, f"a name or number has 1 to {LONGEST_NAME} bytes")
    return name


# -------------------------------------------------------------------- parsing


def program_of(text):
    """The program that a text writes, within every limit of the image but its length."""
    try:
        text.decode()
    except UnicodeDecodeError as error:
        raise NotationError(error.start, "not UTF-8") from None
    return Parser(tokens_of(text)).program()


class Parser:
    """A place among the tokens; what it takes it leaves behind."""

    def __init__(self, tokens):
        self.tokens = tokens
        self.next = 0

    def look(self):
        return self.tokens[self.next]

    def sees(self, *signs):
        # Only signs have these spellings: a quoted token keeps its quotes.
        return self.look().text in signs

    def take(self):
        token = self.look()
        self.next += 1
        return token

    def expect(self, sign, otherwise=None):
        if not self.sees(sign):
            self.fail(otherwise or f"`{sign.decode()}` must stand here")
        return self.take()

    def fail(self, message):
        raise NotationError(self.look().start, message)

    def span_from(self, first):
        """From a token to the one taken last."""
        return Span(first.start, self.tokens[self.next - 1].end)

    def program(self):
        program = Program()
        while self.look().kind != "end":
            if not self.sees(b"$EXTERN"):
                program.functions.append(self.function())
            elif program.functions:
                self.fail("declarations come before all functions")
            else:
                program.declarations.append(self.declaration())
        return program

    def declaration(self):
        first = self.take()
        names = []
        while not self.sees(b";"):
            if names:
                self.expect(b",")
            if len(names) == MOST_DECLARED:
                self.fail(f"a declaration has at most {MOST_DECLARED} names")
            names.append(self.name())
        self.take()
        return Declaration(names, self.span_from(first))

    def function(self):
        first = self.look()
        entry = self.sees(b"$ENTRY")
        if entry:
            self.take()
        name = self.name()
        sentences = self.sentences(0)
        return Function(name, sentences, entry, self.span_from(first))

    def name(self):
        if self.look().kind not in ("word", "name"):
            self.fail("a name must stand here")
        token = self.take()
        return name_of(token.text, token.start)

    def sentences(self, depth):
        self.expect(b"{")
        sentences = []
        while not self.sees(b"}"):
            if self.look().kind == "end":
                self.fail("a sentence or `}` must stand here")
            sentences.append(self.sentence(depth))
        self.take()
        return sentences

    def sentence(self, depth):
        first = self.look()
        pattern = self.terms(depth, in_pattern=True)
        conditions = []
        while self.sees(b","):
            conditions.append(self.condition(depth))
        self.expect(b"=", "a term, `,` or `=` must stand here")
        result = self.terms(depth)
        self.expect(b";", "a term or `;` must stand here")
        return Sentence(pattern, conditions, result, self.span_from(first))

    def condition(self, depth):
        first = self.take()
        result = self.terms(depth)
        self.expect(b":", "a term or `:` must stand here")
        pattern = self.terms(depth, in_pattern=True)
        return Condition(result, pattern, self.span_from(first))

    def terms(self, depth, in_pattern=False):
        """Terms as long as they come; depth counts what is open around them."""
        terms = []
        while True:
            if self.look().kind == "characters":
                terms.extend(characters_of(self.take()))
            elif self.sees(b"(", b"<", b"["):
                terms.append(self.nesting_term(depth + 1, in_pattern))
            elif self.look().kind in ("word", "name", "variable"):
                terms.append(named_term(self.take()))
            else:
                return terms

    def nesting_term(self, depth, in_pattern):
        if in_pattern and not self.sees(b"("):
            self.fail("a call or a block cannot stand in a pattern")
        if depth > DEEPEST_NESTING:
            self.fail(f"brackets, calls and blocks nest at most {DEEPEST_NESTING} deep")
        first = self.take()
        match first.text:
            case b"(":
                terms = self.terms(depth, in_pattern)
                self.expect(b")", "a term or `)` must stand here")
                return Bracket(terms, self.span_from(first))
            case b"<":
                name, terms = self.name(), self.terms(depth)
                self.expect(b">", "a term or `>` must stand here")
                return Call(name, terms, self.span_from(first))
        argument = self.terms(depth)
        self.expect(b":", "a term or `:` must stand here")
        sentences = self.sentences(depth)
        self.expect(b"]")
        return Block(argument, sentences, self.span_from(first))


def named_term(token):
    span = Span(token.start, token.end)
    if token.kind == "variable":
        kind, name = token.text[:1].decode(), token.text[2:]
        return Variable(kind, name_of(name, token.start + 2, PLAIN_VARIABLE), span)
    if token.text.isdigit():
        return Number(checked_length(token.text, token.start), span)
    return Identifier(name_of(token.text, token.start), span)


# -------------------------------------------------------------------- writing


def text_of(program):
    """The program's text; its spans are not written."""
    declarations = "".join(map(declaration_text, program.declarations))
    functions = map(function_text, program.functions)
    return "\n".join(filter(None, [declarations, *functions])).encode()


def declaration_text(declaration):
    return f"$EXTERN {', '.join(map(name_text, declaration.names))};\n"


def function_text(function):
    entry = "$ENTRY " if function.entry else ""
    return f"{entry}{name_text(function.name)} {sentences_text(function.sentences, '')}\n"


def sentences_text(sentences, margin):
    """A line for each sentence, two blanks further in than the line that they begin on."""
    inner = margin + "  "
    lines = "".join(f"{inner}{sentence_text(sentence, inner)}\n" for sentence in sentences)
    return f"{{\n{lines}{margin}}}"


def sentence_text(sentence, margin):
    conditions = [condition_text(condition, margin) for condition in sentence.conditions]
    head = terms_text(sentence.pattern, margin) + "".join(conditions)
    return spaced(head, "=", terms_text(sentence.result, margin)) + ";"


def condition_text(condition, margin):
    result, pattern = terms_text(condition.result, margin), terms_text(condition.pattern, margin)
    return spaced(",", result, ":", pattern)


def spaced(*parts):
    return " ".join(filter(None, parts))


def terms_text(terms, margin):
    """Neighbouring characters share their quotes."""
    parts = []
    for kind, run in itertools.groupby(terms, type):
        if kind is Character:
            parts.append(characters_text([term.code for term in run]))
        else:
            parts.extend(term_text(term, margin) for term in run)
    return " ".join(parts)


def term_text(term, margin):
    match term:
        case Identifier():
            return name_text(term.name)
        case Number():
            return term.name.decode()
        case Variable():
            return f"{term.kind}.{name_text(term.name, PLAIN_VARIABLE)}"
        case Bracket():
            return f"({terms_text(term.terms, margin)})"
        case Call():
            return f"<{spaced(name_text(term.name), terms_text(term.terms, margin))}>"
        case Block():
            sentences = sentences_text(term.sentences, margin)
            return f"[{spaced(terms_text(term.terms, margin), ':', sentences)}]"
    raise TypeError(f"not a term: {term!r}")


def name_text(name, plain=PLAIN_NAME):
    return name.decode() if plain.fullmatch(name) else quoted(name, "`")


def characters_text(codes):
    """Double quotes where they save an escape, as in a report."""
    return quoted(codes, '"' if ord("'") in codes and ord('"') not in codes else "'")


def quoted(codes, quote):
    return quote + "".join(code_text(code, quote) for code in codes) + quote


def code_text(code, quote):
    letter = chr(code)
    if letter in ("\\", quote):
        return "\\" + letter
    # Unicode 3.2 is the same in every Python, so an image always gives the same text.
    if letter == " " or unicodedata.ucd_3_2_0.category(letter)[0] in "LNPS":
        return letter
    if code in ESCAPED_CODES:
        return "\\" + ESCAPED_CODES[code]
    return f"\\x{{{code:X}}}"


# --------------------------------------------------------------- command line


def image_of(text):
    """The image of a text, or an error if no image can hold it."""
    image = encode(program_of(text))
    if len(image) > LARGEST_IMAGE:
        message = f"the image would have {len(image)} bytes, more than {LARGEST_IMAGE}; divide the program"
        raise NotationError(len(text), message)
    return image


def main():
    if sys.argv[1:] not in (["encode"], ["decode"]):
        sys.exit("usage: image.py encode | decode    (text or image on standard input)")
    data = sys.stdin.buffer.read()
    if sys.argv[1] == "encode":
        try:
            sys.stdout.buffer.write(image_of(data))
        except NotationError as error:
            sys.exit(error.line(data))
        return
    answer = read_image(data)
    if isinstance(answer, Refusal):
        sys.exit(f"refused {answer.number} at {answer.place}")
    sys.stdout.buffer.write(text_of(answer))


if __name__ == "__main__":
    main()
