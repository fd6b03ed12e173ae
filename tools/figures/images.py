"""The images that tools/figures/run.py measures: one for each kind, always the same bytes.

    python3 tools/figures/images.py             the kinds, with the size and the use of each
    python3 tools/figures/images.py KIND > image
"""

import sys
from pathlib import Path
from typing import Callable, NamedTuple

sys.path.insert(0, str(Path(__file__).resolve().parent.parent))

from generate import typical
from reader import (
    Block,
    Bracket,
    Call,
    Character,
    Condition,
    Function,
    Identifier,
    Program,
    Sentence,
    Variable,
    encode,
)

A = Character(ord("A"))
B = Character(ord("B"))
E = Variable("e", b"x")
FIRST_CODE = 256  # the first of the codes that make characters differ: two bytes in UTF-8


class Kind(NamedTuple):
    """An image, and what is known of the reference's time on it."""

    make: Callable
    what: str
    reference: str = ""  # how long the reference would take, where it is not run
    patience: int = 60  # the seconds in which the reference is sure to end
    timed: bool = True  # otherwise only its stack is measured


# ------------------------------------------------------------------- building


def code(number):
    return Character(FIRST_CODE + number)


def calls(arguments):
    """An entry function whose one sentence calls F with each argument."""
    result = [Call(b"F", argument) for argument in arguments]
    return Function(b"Go", [Sentence([], [], result)], True)


def asked(patterns, arguments):
    """The pairs of each pattern with each argument, and nothing else to ask."""
    sentences = [Sentence(pattern, [], []) for pattern in patterns]
    return Program([], [calls(arguments), Function(b"F", sentences)])


# ----------------------------------------------------- rounds, pairs and names


def chain(count):
    """Each sentence has the only call that keeps the next, so every round drops one."""
    links = [Sentence([code(i)], [], [Call(b"F", [code(i + 1)])]) for i in range(count)]
    last = Sentence([A], [], [])
    return Program([], [calls([[A]]), Function(b"F", [*links, last])])


def wide(sentences, count, arguments, length):
    """Each pattern is searched in vain, for each argument, once for every list that asks."""
    patterns = [[E] * count + [code(i)] for i in range(sentences)]
    others = [[A] * (length - 1) + [code(sentences + i)] for i in range(arguments)]
    return asked(patterns, others)


def diagonal(count):
    """Each sentence is kept by one call of its own."""
    patterns = [[E] * 5 + [code(i)] for i in range(count)]
    return asked(patterns, [[A] * 3 + [code(i)] for i in range(count)])


def removed(count):
    """One round drops all sentences but the last, each with a text of its own."""
    return asked([*([code(i)] for i in range(count)), [A]], [[A]])


def long_brackets(count, length):
    """A search that passes over long brackets again and again."""
    return asked([[E, E, E, B]], [[Bracket([A] * length)] * count])


def three_letters(number):
    return bytes(ord("a") + number // 26**place % 26 for place in range(3))


def functions(count):
    """Functions without sentences: names to look through and little else."""
    return Program([], [calls([[A]]), *(Function(three_letters(i)) for i in range(count))])


def callees(count):
    """Each function calls the one that stands as far from the end as it from the start."""
    called = [Call(three_letters(count - 1 - i), []) for i in range(count)]
    made = [Function(three_letters(i), [Sentence([], [], [called[i]])]) for i in range(count)]
    return Program([], made)


def strangers(count):
    """Calls of names that the program does not define, all of them different."""
    result = [Call(three_letters(i), []) for i in range(count)]
    return Program([], [Function(b"Go", [Sentence([], [], result)], True)])


def uncharacterised(count):
    """Each function is called with a call in its argument, so the report names it."""
    inner = Call(b"F", [])
    result = [Call(three_letters(i), [inner]) for i in range(count)]
    entry = Function(b"Go", [Sentence([], [], result)], True)
    return Program([], [entry, *(Function(three_letters(i)) for i in range(count))])


def sites(count):
    """Short arguments, all of them different, so each is compared with all before."""
    return asked([[E]], [[code(i)] for i in range(count)])


def shared_name(count):
    """Functions of one name share all restrictions, and each is judged by all of them."""
    made = [Function(b"F", [Sentence([code(i)], [], [])]) for i in range(count)]
    return Program([], [calls([[code(i)] for i in range(count)]), *made])


def heads(count, length):
    """Patterns and arguments that are alike but for their last term."""
    patterns = [[A] * (length - 1) + [code(i)] for i in range(count)]
    return asked(patterns, [[A] * (length - 1) + [code(count + i)] for i in range(count)])


def spelled(number):
    """A long identifier that differs from the others at its end only."""
    return Identifier(b"A" * 60 + three_letters(number))


def spellings(count):
    others = [[spelled(count + i)] for i in range(count)]
    return asked([[spelled(i)] for i in range(count)], others)


def variables(count, length):
    """Arguments of many variables, which are numbered before they are compared."""
    names = [Variable("s", three_letters(i)) for i in range(length - 1)]
    return asked([[E]], [[*names, code(i)] for i in range(count)])


def repeats(count, length):
    """Long arguments that differ in their last term only, so each is compared with all before."""
    return asked([[E]], [[A] * (length - 1) + [code(i)] for i in range(count)])


# --------------------------------------------------------- brackets and splits


def nested_pattern(depth, count):
    inner = [B] if depth == 1 else [Bracket(nested_pattern(depth - 1, count))]
    return [E] * count + inner


def nested_argument(depth, width):
    inner = A if depth == 1 else Bracket(nested_argument(depth - 1, width))
    return [inner] * width


def nested(depth, count, width):
    """Brackets are compared inside brackets each time a split tries a further suffix."""
    return asked([nested_pattern(depth, count)], [nested_argument(depth, width)])


def crossed_pattern(depth, count, width):
    """Several brackets a level, each behind `e.` variables, and a last term that nothing meets."""
    if depth == 1:
        return [E] * count + [B]
    inner = Bracket(crossed_pattern(depth - 1, count, width))
    return [*([E] * 4 + [inner]) * width, B]


def crossed(depth, count, width):
    """Every bracket of a level meets every bracket of the other side, all fuel each."""
    return asked([crossed_pattern(depth, count, width)], [nested_argument(depth, width)])


def adjacent(count):
    return asked([[E] * count], [[A]])


def separated(count, length):
    return asked([[E, A] * count], [[A] * length])


def both_separated(count):
    return asked([[E, A] * count], [[E, A] * count])


def level(levels, count):
    """Bracket levels, with `e.` variables before each bracket and in the innermost."""
    inner = [Bracket(level(levels - 1, count))] if levels else []
    return [E] * count + inner


def levels(count):
    """The call takes one of the 32 levels from its argument."""
    return asked([level(32, count)], [level(31, count)])


def one_pattern(terms):
    return Program([], [Function(b"F", [Sentence(terms, [], [])])])


def nested_pair(depth, count, width):
    """The two patterns of `nested`, as sentences of one function."""
    patterns = [nested_pattern(depth, count), nested_argument(depth, width)]
    return Program([], [Function(b"F", [Sentence(pattern, [], []) for pattern in patterns])])


def nested_calls(depth):
    inside = []
    for _ in range(depth):
        inside = [Call(b"F", inside)]
    return Program([], [Function(b"F", [Sentence([], [], inside)], True)])


def nested_blocks(depth):
    inside = []
    for _ in range(depth):
        inside = [Block([], [Sentence([], [], inside)])]
    return Program([], [Function(b"F", [Sentence([], [], inside)], True)])


def nested_conditions(depth):
    """Each block stands in a condition of the block around it."""
    inside = []
    for _ in range(depth):
        inside = [Block([], [Sentence([], [Condition(inside, [])], [])])]
    return Program([], [Function(b"F", [Sentence([], [Condition(inside, [])], [])], True)])


# ----------------------------------------------------------------------- kinds

HOURS = "hours"
YEARS = "years"


def stack_only(make, what, reference=60):
    """Clean is not timed. `reference` is the Rust's patience, or what is known of its time."""
    if isinstance(reference, str):
        return Kind(make, what, reference, timed=False)
    return Kind(make, what, patience=reference, timed=False)


KINDS = {
    "typical8k": Kind(lambda: typical(8192, 1), "typical"),
    "typical32k": Kind(lambda: typical(32768, 1), "typical"),
    "chain8k": Kind(lambda: chain(161), "162 rounds, one sentence each"),
    "chain32k": Kind(lambda: chain(653), "654 rounds, one sentence each"),
    "wide": Kind(lambda: wide(128, 9, 200, 5), "128 sentences of nine `e.`, 200 calls"),
    "unknown": Kind(lambda: wide(118, 10, 180, 5), "118 x 180 pairs, all fuel each"),
    "diagonal": Kind(lambda: diagonal(220), "220 sentences, each kept by its own call"),
    "removed": Kind(lambda: removed(1150), "1,150 sentences dropped in one round"),
    "bigbrackets": Kind(lambda: long_brackets(26, 88), "a search over 26 long brackets"),
    "functions": Kind(lambda: functions(2000), "2,000 functions without sentences"),
    "callees": Kind(lambda: callees(750), "750 functions, each called once"),
    "strangers": Kind(lambda: strangers(2150), "2,150 calls of undefined names"),
    "names": Kind(lambda: uncharacterised(780), "780 uncharacterised functions"),
    "sites": Kind(lambda: sites(1250), "1,250 short arguments, all different"),
    "shared": Kind(lambda: shared_name(480), "480 functions of one name, 480 calls"),
    "heads": Kind(lambda: heads(105, 11), "105 x 105 pairs that differ in their last term"),
    "spellings": Kind(lambda: spellings(185), "185 x 185 pairs of long identifiers"),
    "variables": Kind(lambda: variables(10, 230), "10 arguments of 229 variables, nearly alike"),
    "repeats": Kind(lambda: repeats(205, 11), "205 long arguments, nearly alike"),
    "adjacent": Kind(lambda: adjacent(2900), "2,900 adjacent `e.`"),
    "separated": Kind(lambda: separated(1300, 100), "1,300 separated `e.`"),
    "levels1": Kind(lambda: levels(1), "32 bracket levels with 1 `e.` each"),
    "levels8": Kind(lambda: levels(8), "32 bracket levels with 8 `e.` each"),
    "levels44": Kind(lambda: levels(44), "32 bracket levels with 44 `e.` each"),
    "burn1": Kind(lambda: nested(1, 4, 8), "depth 1, below full fuel"),
    "burn2": Kind(lambda: nested(2, 4, 8), "depth 2, below full fuel"),
    "burn3": Kind(lambda: nested(3, 4, 8), "depth 3, below full fuel"),
    "burn4": Kind(lambda: nested(4, 4, 4), "depth 4, below full fuel"),
    "burn5": Kind(lambda: nested(5, 4, 3), "depth 5, below full fuel"),
    "burn6": Kind(lambda: nested(6, 4, 3), "depth 6, below full fuel"),
    "full1": Kind(lambda: nested(1, 10, 5), "depth 1, full fuel"),
    "full2": Kind(lambda: nested(2, 10, 5), "depth 2, full fuel"),
    "full3": Kind(lambda: nested(3, 10, 5), "depth 3, full fuel", patience=300),
    "full4": Kind(lambda: nested(4, 10, 5), "depth 4, full fuel", HOURS),
    "full5": Kind(lambda: nested(5, 20, 3), "depth 5, full fuel", YEARS),
    "full6": Kind(lambda: nested(6, 20, 3), "depth 6, full fuel", YEARS),
    "full8": Kind(lambda: nested(8, 60, 2), "depth 8, full fuel", YEARS),
    "full10": Kind(lambda: nested(10, 60, 2), "depth 10, full fuel", YEARS),
    "crossed5": Kind(lambda: crossed(3, 10, 5), "depth 3, 5 x 5 pairs a level"),
    "crossed9": Kind(lambda: crossed(3, 10, 9), "depth 3, 9 x 9 pairs a level", patience=300),
    "both": stack_only(lambda: both_separated(650), "650 separated `e.` against 650"),
    "calls32": stack_only(lambda: nested_calls(32), "32 nested calls"),
    "blocks32": stack_only(lambda: nested_blocks(32), "32 nested blocks"),
    "conditions32": stack_only(lambda: nested_conditions(32), "32 blocks nested in conditions"),
    "text32": stack_only(lambda: asked([level(32, 0)], [[A]]), "a line with 32 bracket levels"),
    "self2900": stack_only(lambda: one_pattern([E] * 2900), "2,900 adjacent `e.`"),
    "self1300": stack_only(lambda: one_pattern([E, A] * 1300), "1,300 separated `e.`"),
    "self1": stack_only(lambda: one_pattern(level(32, 1)), "32 bracket levels with 1 `e.` each"),
    "self8": stack_only(lambda: one_pattern(level(32, 8)), "32 bracket levels with 8 `e.` each"),
    "self44": stack_only(lambda: one_pattern(level(32, 44)), "32 bracket levels with 44 `e.` each"),
    "self88": stack_only(lambda: one_pattern(level(32, 88)), "32 bracket levels with 88 `e.` each"),
    "pair3": stack_only(lambda: nested_pair(3, 10, 5), "depth 3, full fuel, two sentences", 300),
    "pair4": stack_only(lambda: nested_pair(4, 10, 5), "depth 4, full fuel, two sentences", HOURS),
    "pair5": stack_only(lambda: nested_pair(5, 20, 3), "depth 5, full fuel, two sentences", YEARS),
    "pair6": stack_only(lambda: nested_pair(6, 20, 3), "depth 6, full fuel, two sentences", YEARS),
    "pair10": stack_only(lambda: nested_pair(10, 60, 2), "depth 10, full fuel, two sentences", YEARS),
}


def image_of(kind):
    return encode(KINDS[kind].make())


def main():
    match sys.argv[1:]:
        case []:
            for kind, about in KINDS.items():
                print(f"{kind:12} {len(image_of(kind)):6}  {about.what}")
        case [kind] if kind in KINDS:
            sys.stdout.buffer.write(image_of(kind))
        case _:
            sys.exit("usage: images.py [KIND]")


if __name__ == "__main__":
    main()
