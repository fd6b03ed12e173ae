"""Makes programs and images from seeds; the same seed always makes the same bytes.

    good(seed)           -> a random program that the reader must accept
    damaged(image, seed) -> a copy of an image with random damage
    typical(size, seed)  -> a program like those people write, filling `size` bytes

On the command line each writes one image to standard output:

    python3 tools/generate.py good SEED
    python3 tools/generate.py damaged SEED
    python3 tools/generate.py typical SIZE SEED
"""

import sys

from reader import (
    LARGEST_IMAGE,
    TRAILER_LENGTH,
    Block,
    Bracket,
    Call,
    Character,
    Condition,
    Declaration,
    Function,
    Identifier,
    Number,
    Program,
    Refused,
    Sentence,
    Span,
    Trailer,
    Variable,
    encode,
    encode_body,
    encode_function,
    encode_sentence,
    encode_trailer,
    read_body,
    read_trailer,
    true_trailer,
)


class Dice:
    """Random numbers by splitmix64, so that no Python release changes a corpus."""

    MASK = (1 << 64) - 1

    def __init__(self, seed):
        self.state = seed & self.MASK

    def next(self):
        self.state = (self.state + 0x9E3779B97F4A7C15) & self.MASK
        mixed = self.state
        mixed = ((mixed ^ (mixed >> 30)) * 0xBF58476D1CE4E5B9) & self.MASK
        mixed = ((mixed ^ (mixed >> 27)) * 0x94D049BB133111EB) & self.MASK
        return mixed ^ (mixed >> 31)

    def between(self, low, high):
        return low + self.next() % (high - low + 1)

    def chance(self, percent):
        return self.between(1, 100) <= percent

    def pick(self, items):
        return items[self.between(0, len(items) - 1)]


# -------------------------------------------------------------------- nesting

# The ways in which a term can hold other terms, each one level of nesting.
NESTING_KINDS = (
    "bracket",
    "call",
    "block argument",
    "block pattern",
    "block result",
    "block condition result",
    "block condition pattern",
)
PATTERN_KINDS = ("block pattern", "block condition pattern")


def wrap(kind, inside):
    """One term that holds the terms `inside` in the place that `kind` names."""
    match kind:
        case "bracket":
            return Bracket(inside)
        case "call":
            return Call(b"F", inside)
        case "block argument":
            return Block(inside)
        case "block pattern":
            return Block([], [Sentence(pattern=inside)])
        case "block result":
            return Block([], [Sentence(result=inside)])
        case "block condition result":
            return Block([], [Sentence(conditions=[Condition(result=inside)])])
        case "block condition pattern":
            return Block([], [Sentence(conditions=[Condition(pattern=inside)])])
    raise ValueError(kind)


def nest(kinds, inside=()):
    """Terms nested as `kinds` lists them, the outermost first."""
    terms = list(inside)
    for kind in reversed(kinds):
        terms = [wrap(kind, terms)]
    return terms


# ------------------------------------------------------------- random programs

CODE_RANGES = (
    (0, 31),
    (32, 126),
    (127, 255),
    (256, 2047),
    (2048, 55295),
    (57344, 65535),
    (65536, 1114111),
)
EDGE_CODES = (0, 10, 34, 39, 127, 128, 2047, 2048, 55295, 57344, 65535, 65536, 1114111)
LARGEST_NUMBER = (1 << 32) - 1


def good(seed):
    """A random program within every limit of the image."""
    while True:
        program = ProgramMaker(Dice(seed)).program()
        if len(encode(program)) <= LARGEST_IMAGE:
            return program
        seed += 1 << 32


class ProgramMaker:
    """Fills one program, drawing on a few names so that calls meet functions."""

    def __init__(self, dice):
        self.dice = dice
        self.terms_left = dice.pick((0, 8, 30, 80, 150))
        self.deepest = dice.pick((1, 2, 3, 6, 32))
        self.wild = dice.pick((0, 0, 5, 30))  # percent of unusual names and codes
        self.plain_arguments = dice.chance(60)  # no call or block in a call
        self.span_style = dice.pick(("zero", "few", "any", "laid out"))
        self.names = [b"Go", b"F", b"G", b"Next", b"H-1"][: dice.between(1, 5)]
        if dice.chance(5):
            self.names.append(dice.pick((b"Mu", b"UP", b"up", b"mU")))

    def program(self):
        dice = self.dice
        declarations = [self.declaration() for _ in range(dice.pick((0, 0, 1, 3)))]
        functions = [self.function(i) for i in range(dice.pick((0, 1, 2, 3, 4, 6)))]
        program = Program(declarations, functions)
        if functions and dice.chance(15):
            self.add_deep_sentence(dice.pick(functions))
        if self.span_style == "laid out":
            Layout().program(program)
        return program

    def declaration(self):
        count = self.dice.pick((0, 1, 2, 5))
        return Declaration([self.name() for _ in range(count)], self.span())

    def function(self, number):
        name = self.name()
        if number < len(self.names) and self.dice.chance(70):
            name = self.names[number]
        sentences = self.sentences(0, self.dice.pick((0, 1, 2, 3, 4)))
        return Function(name, sentences, self.dice.chance(30), self.span())

    def sentences(self, depth, count):
        return [self.sentence(depth) for _ in range(count)]

    def sentence(self, depth):
        pattern = self.terms(depth, in_pattern=True)
        count = self.dice.pick((0, 0, 0, 1, 2))
        conditions = [self.condition(depth) for _ in range(count)]
        return Sentence(pattern, conditions, self.terms(depth), self.span())

    def condition(self, depth):
        result = self.terms(depth)
        return Condition(result, self.terms(depth, in_pattern=True), self.span())

    def add_deep_sentence(self, function):
        """One sentence with a single chain of terms, down to the deepest allowed."""
        kinds = []
        for _ in range(self.dice.pick((8, 31, 32))):
            in_pattern = any(kind in PATTERN_KINDS for kind in kinds)
            kinds.append("bracket" if in_pattern else self.dice.pick(NESTING_KINDS))
        chain = nest(kinds, [self.symbol()])
        brackets = nest(["bracket"] * len(kinds), [self.symbol()])
        match self.dice.pick(("pattern", "result", "condition")):
            case "pattern":
                sentence = Sentence(pattern=brackets)
            case "result":
                sentence = Sentence(result=chain)
            case "condition":
                sentence = Sentence(conditions=[Condition(chain, brackets)])
        function.sentences.append(sentence)

    def terms(self, depth, in_pattern=False):
        count = self.dice.pick((0, 1, 1, 2, 3, 4))
        return [self.term(depth, in_pattern) for _ in range(min(count, self.terms_left))]

    def term(self, depth, in_pattern):
        self.terms_left -= 1
        may_nest = depth < self.deepest and self.terms_left > 0
        if may_nest and self.dice.chance(40):
            return self.nesting_term(depth, in_pattern)
        if self.dice.chance(40):
            return self.variable()
        return self.symbol()

    def nesting_term(self, depth, in_pattern):
        kind = "bracket" if in_pattern else self.dice.pick(("bracket", "call", "call", "block"))
        plain = in_pattern or (kind == "call" and self.plain_arguments)
        inside = self.terms(depth + 1, in_pattern=plain)
        if kind == "bracket":
            return Bracket(inside, self.span())
        if kind == "call":
            return Call(self.name(), inside, self.span())
        sentences = self.sentences(depth + 1, self.dice.pick((0, 1, 2)))
        return Block(inside, sentences, self.span())

    def symbol(self):
        match self.dice.pick(("character", "character", "identifier", "number")):
            case "character":
                return Character(self.code(), self.span())
            case "identifier":
                return Identifier(self.word((b"Abc", b"ABC", b"x_1", b"x-1")), self.span())
            case "number":
                return Number(self.digits(), self.span())

    def variable(self):
        name = self.word((b"X", b"x", b"Y", b"1", b"Rest"))
        return Variable(self.dice.pick("sttee"), name, self.span())

    def code(self):
        if not self.dice.chance(self.wild):
            return ord(self.dice.pick("ABab1'"))
        if self.dice.chance(30):
            return self.dice.pick(EDGE_CODES)
        return self.dice.between(*self.dice.pick(CODE_RANGES))

    def digits(self):
        if not self.dice.chance(self.wild):
            return self.dice.pick((b"7", b"007", b"0", b"1"))
        return self.spelling(ord("0"), ord("9"))

    def name(self):
        name = self.word(self.names)
        if self.dice.chance(20):
            return name.swapcase()
        return name

    def word(self, usual):
        if not self.dice.chance(self.wild):
            return self.dice.pick(usual)
        return self.spelling(33, 126)

    def spelling(self, first, last):
        length = self.dice.pick((1, 2, 62, 63, self.dice.between(1, 63)))
        return bytes(self.dice.between(first, last) for _ in range(length))

    def span(self):
        match self.span_style:
            case "few":
                return self.dice.pick((Span(0, 0), Span(1, 2), Span(5, 5)))
            case "any":
                return self.any_span()
        return Span(0, 0)

    def any_span(self):
        start = self.dice.between(0, self.dice.pick((1, 255, 65536, LARGEST_NUMBER)))
        length = self.dice.between(0, self.dice.pick((0, 1, 300, LARGEST_NUMBER)))
        return Span(start, min(start + length, LARGEST_NUMBER))


# ------------------------------------------------------- spans of a source text


class Layout:
    """Gives every record the span that it would have in a written program."""

    def __init__(self):
        self.place = 0

    def program(self, program):
        for declaration in program.declarations:
            self.declaration(declaration)
        for function in program.functions:
            self.function(function)
        return program

    def declaration(self, declaration):
        start = self.place
        names = sum(len(name) + len(", ") for name in declaration.names)
        self.skip(len("$EXTERN ") + names)
        declaration.span = Span(start, self.place)
        self.skip(len("\n"))

    def function(self, function):
        start = self.place
        self.skip(len("$ENTRY ") if function.entry else 0)
        self.skip(len(function.name) + len(" {\n"))
        self.sentences(function.sentences)
        self.skip(len("}"))
        function.span = Span(start, self.place)
        self.skip(len("\n\n"))

    def sentences(self, sentences):
        for sentence in sentences:
            self.skip(len("  "))
            start = self.place
            self.terms(sentence.pattern)
            for condition in sentence.conditions:
                self.condition(condition)
            self.skip(len(" = "))
            self.terms(sentence.result)
            sentence.span = Span(start, self.place)
            self.skip(len(";\n"))

    def condition(self, condition):
        self.skip(len(", "))
        start = self.place
        self.terms(condition.result)
        self.skip(len(" : "))
        self.terms(condition.pattern)
        condition.span = Span(start, self.place)

    def terms(self, terms):
        for index, term in enumerate(terms):
            self.skip(len(" ") if index > 0 else 0)
            self.term(term)

    def term(self, term):
        start = self.place
        match term:
            case Character():
                self.skip(len("'a'"))
            case Identifier() | Number():
                self.skip(len(term.name))
            case Variable():
                self.skip(len("e.") + len(term.name))
            case Bracket():
                self.inside(0, term.terms)
            case Call():
                self.inside(len(term.name), term.terms)
            case Block():
                self.inside(0, term.terms)
                self.skip(len(" : {\n"))
                self.sentences(term.sentences)
                self.skip(len("}"))
        term.span = Span(start, self.place)

    def inside(self, name_length, terms):
        self.skip(len("<") + name_length)
        self.terms(terms)
        self.skip(len(">"))

    def skip(self, length):
        self.place += length


# ------------------------------------------------------------ typical programs

WORDS = (
    "Go Scan Next Skip Take Put Find Add Del Sort Fold Map Rev Len Cut Join Emit Load Save Test "
    "Walk Init Step Loop Done Pick Drop Swap Flip Pack Mark Copy Move Push Pop Read Eval Bind "
    "Form Trim"
).split()
IDENTIFIERS = (b"Empty", b"Left", b"Right", b"Open", b"End", b"Red", b"Blue", b"Wait", b"On")
OUTSIDE = (b"Prout", b"Card", b"Numb", b"Symb")

EMPTY_FUNCTION = 1 + 8 + 1 + 1 + 1  # mark, span, visibility, name's length, close
EMPTY_SENTENCE = 1 + 8 + 1 + 1 + 1  # mark, span, close, mark of the result, close
CHARACTER_TERM = 1 + 8 + 4  # mark, span, code
SMALLEST_TERM = 1 + 8 + 1 + 1  # mark, span, a name of one byte


def typical(size, seed):
    """A realistic program whose image has `size` bytes exactly.

    Below 25 bytes no function fits, and the program is the empty one.
    """
    name_room = size - TRAILER_LENGTH - EMPTY_FUNCTION
    if name_room < 1:
        return Program()
    if name_room < len(function_name(0)) + EMPTY_SENTENCE + SMALLEST_TERM:
        return Layout().program(Program([], [Function(b"G" * name_room, [], True)]))
    program = TypicalMaker(Dice(seed), size).program()
    # Reading it back gives every term an object, and so a span, of its own.
    return Layout().program(read_body(encode_body(program))[0])


class TypicalMaker:
    """Adds functions, then sentences, then terms, while they leave room for a term."""

    def __init__(self, dice, size):
        self.dice = dice
        self.room = size - TRAILER_LENGTH

    def program(self):
        program = Program()
        outside = Declaration(list(OUTSIDE))
        if self.room > 1000:
            program.declarations.append(outside)
            self.room -= len(encode(Program([outside]))) - TRAILER_LENGTH
        while True:
            function = self.function(len(program.functions))
            if not self.fits(encode_function(function)):
                break
            program.functions.append(function)
        self.fill_last_function(program)
        return program

    def fits(self, record):
        """Takes the record's room if enough for a further term is left after it."""
        if self.room - len(record) < SMALLEST_TERM:
            return False
        self.room -= len(record)
        return True

    def fill_last_function(self, program):
        number = len(program.functions)
        last = Function(function_name(number), [Sentence()], number == 0)
        if self.fits(encode_function(last)):
            program.functions.append(last)
            self.add_sentences(last, number)
        program.functions[-1].sentences[-1].result.extend(self.filling_terms())

    def add_sentences(self, function, number):
        while True:
            sentence = self.sentence(number)
            if not self.fits(encode_sentence(sentence)):
                break
            function.sentences.insert(0, sentence)

    def filling_terms(self):
        terms = []
        while self.room >= CHARACTER_TERM + SMALLEST_TERM:
            terms.append(self.character())
            self.room -= CHARACTER_TERM
        terms.append(Identifier(b"Endless-Filler"[: self.room - SMALLEST_TERM + 1]))
        return terms

    def function(self, number):
        count = self.dice.between(3, 4)
        sentences = [self.sentence(number) for _ in range(count)]
        return Function(function_name(number), sentences, number == 0)

    def sentence(self, number):
        pattern = self.pattern()
        variables = variables_of(pattern)
        conditions = []
        if variables and self.dice.chance(8):
            conditions.append(self.condition(number, variables))
        return Sentence(pattern, conditions, self.result(number, variables))

    def pattern(self):
        rest = Variable("e", b"X")
        match self.dice.between(1, 10):
            case 1 | 2:
                return [self.character(), rest]
            case 3:
                return [self.character(), self.character(), self.character(), rest]
            case 4 | 5:
                return [self.identifier(), rest]
            case 6:
                return [Bracket([Variable("e", b"1")]), Variable("e", b"2")]
            case 7:
                inside = [self.identifier(), Variable("e", b"1")]
                return [Bracket(inside), Variable("s", b"2"), Variable("e", b"3")]
            case 8:
                return [Variable("s", b"A"), rest]
            case 9:
                return [Variable("e", b"1"), self.character(), Variable("e", b"2")]
        return []

    def condition(self, number, variables):
        call = Call(self.callee(number), [self.dice.pick(variables)])
        return Condition([call], [self.identifier(), Variable("e", b"C")])

    def result(self, number, variables):
        rest = variables[-1:]
        match self.dice.between(1, 10):
            case 1 | 2:
                return [self.character(), Call(self.callee(number), rest)]
            case 3 | 4:
                return [Call(self.callee(number), [self.character(), *rest])]
            case 5:
                return [Call(self.callee(number), [Bracket(rest), *variables])]
            case 6:
                return [Call(self.callee(number), [self.identifier(), *rest])]
            case 7:
                inner = Call(self.callee(number), rest)
                return [Bracket(variables[:1]), Call(self.callee(number), [inner])]
            case 8:
                return [self.identifier(), self.number(), *variables]
            case 9 if self.dice.chance(40):
                return [self.block(number, rest)]
        return list(variables)

    def block(self, number, argument):
        sentences = []
        for _ in range(2):
            pattern = [self.identifier(), Variable("e", b"B")]
            result = [Call(self.callee(number), [Variable("e", b"B")])]
            sentences.append(Sentence(pattern, [], result))
        return Block(list(argument), sentences)

    def callee(self, number):
        """Itself, a neighbour, or now and then a function from outside."""
        if self.dice.chance(10):
            return self.dice.pick(OUTSIDE)
        return function_name(max(0, number + self.dice.pick((-2, -1, 0, 0, 1, 2, 3))))

    def character(self):
        return Character(ord(self.dice.pick("abcdxyz+-*(); 0123")))

    def identifier(self):
        return Identifier(self.dice.pick(IDENTIFIERS))

    def number(self):
        return Number(str(self.dice.between(0, 999)).encode())


def function_name(number):
    again, index = divmod(number, len(WORDS))
    return (WORDS[index] + (str(again) if again else "")).encode()


def variables_of(terms):
    found = []
    for term in terms:
        if isinstance(term, Variable):
            found.append(term)
        elif isinstance(term, Bracket):
            found.extend(variables_of(term.terms))
    return found


# --------------------------------------------------------------------- damage

MARKS = (1, 2, 3, 4, 5, 6, 7, 8, 9, 10, 11, 12, 15, 17, 18)


def damaged(image, seed):
    """A copy with one to three damages, and mostly with a trailer to suit."""
    dice = Dice(seed)
    body = bytearray(image[:-TRAILER_LENGTH])
    trailer = bytearray(image[-TRAILER_LENGTH:])
    if dice.chance(10):
        return bytes(damage(body + trailer, dice))
    for _ in range(dice.between(1, 3)):
        body = damage(body, dice)
    if dice.chance(20):
        return bytes(body + trailer)
    return bytes(body) + repaired_trailer(bytes(body), image)


def damage(data, dice):
    """One change of a byte, cut, insertion or repetition."""
    start = dice.between(0, max(0, len(data) - 1))
    length = dice.between(1, 16)
    match dice.between(1, 8):
        case 1:
            return data[:start]
        case 2:
            return data[:start] + data[start + length :]
        case 3:
            return data[:start] + bytes([random_byte(dice)]) + data[start:]
        case 4:
            return data[: start + length] + data[start:]
    return data[:start] + bytes([random_byte(dice)]) + data[start + 1 :]


def random_byte(dice):
    """Often a mark, because other bytes rarely stand for anything."""
    return dice.pick(MARKS) if dice.chance(60) else dice.between(0, 255)


def repaired_trailer(body, image):
    """The true trailer of a readable body, else the old one with its length mended."""
    try:
        program, first_function = read_body(body)
        return encode_trailer(true_trailer(program, len(body), first_function))
    except Refused:
        old = read_trailer(image)
        first = min(old.first_function, len(body))
        return encode_trailer(Trailer(len(body), first, old.functions, old.sentences))


# --------------------------------------------------------------- command line


def main():
    match sys.argv[1:]:
        case ["good", seed]:
            image = encode(good(int(seed)))
        case ["damaged", seed]:
            image = damaged(encode(good(int(seed))), int(seed))
        case ["typical", size, seed]:
            image = encode(typical(int(size), int(seed)))
        case _:
            sys.exit("usage: generate.py good SEED | damaged SEED | typical SIZE SEED")
    sys.stdout.buffer.write(image)


if __name__ == "__main__":
    main()
