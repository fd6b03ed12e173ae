"""Programs made to hurt: each family aims at one loop of the cleaner, and takes its sizes as numbers.

    python3 tools/attack/families.py                the families, with the size of each
    python3 tools/attack/families.py FAMILY > image
"""

import sys
from pathlib import Path
from typing import Callable, NamedTuple

TOOLS = Path(__file__).resolve().parent.parent
sys.path.insert(0, str(TOOLS))
sys.path.insert(0, str(TOOLS / "figures"))

from images import A, B, E, asked, calls, code, three_letters
from reader import Bracket, Call, Character, Function, Identifier, Program, Sentence, Variable, encode


class Family(NamedTuple):
    make: Callable
    what: str


# ------------------------------------------------------------------ the search


def chain_pattern(levels, count, last):
    """So many `e.` a level before a bracket; `last` stands behind it on the outer level."""
    inner = [] if levels == 0 else [Bracket(chain_pattern(levels - 1, count, last))]
    return [E] * count + inner + last


def chains(levels, count):
    """Every level's bracket is met again at each end of each split around it."""
    return asked([chain_pattern(levels, count, [B])], [chain_pattern(levels, count, [])])


def tree(levels, leaf):
    return leaf if levels == 0 else [E, Bracket(tree(levels - 1, leaf)), E, Bracket(tree(levels - 1, leaf)), E]


def trees(levels):
    """Two brackets a level: more pairs than any small table holds."""
    return asked([[*tree(levels, [B]), B]], [tree(levels, [A])])


def pairs(patterns, arguments, length):
    """Each pattern is searched to the end in each argument."""
    others = [[E] * (length - 1) + [code(patterns + i)] for i in range(arguments)]
    return asked([[E, E, code(i)] for i in range(patterns)], others)


def empty_brackets(count):
    """As many cells as two lists of terms can have, a bracket pair in each."""
    return asked([[E, *[Bracket([])] * count, B]], [[*[Bracket([])] * count, E]])


def small_brackets(count):
    """The same with one term in each bracket."""
    return asked([[E, *[Bracket([E])] * count, B]], [[*[Bracket([A])] * count, E]])


def adjacent_pairs(count):
    """Only `e.` on both sides, and a last term that does not meet."""
    return asked([[E] * count + [B]], [[E] * count + [A]])


def all_unknown(patterns, arguments):
    """All fuel for each pair, and nothing learnt."""
    return asked([[E, E, E, E, code(i)] for i in range(patterns)], [[A] * 20 + [code(9000 + i)] for i in range(arguments)])


# ----------------------------------------------------------- classes and walks


def shared_variables(functions, arguments, variables):
    """One name for all functions, and arguments whose variables have to be numbered."""
    names = [Variable("s", three_letters(i)[:2]) for i in range(variables)]
    made = [Function(b"F")] * functions
    return Program([], [calls([[*names, code(i)] for i in range(arguments)]), *made])


def dead_sites(functions, live, dead):
    """Sites of one class, half of them in sentences that fall at once."""
    fallen = Sentence([B], [], [Call(b"F", [])] * dead)
    kept = Sentence([A], [], [Call(b"F", [])] * live)
    made = [Function(b"F")] * functions
    first = Function(b"Go", [Sentence([], [], [Call(b"G", [A])])], True)
    return Program([], [first, Function(b"G", [fallen, kept]), *made])


def differing_spans(functions, sites):
    """Arguments that are alike but for a span, so that each is a class of its own."""
    program = dead_sites(functions, 0, 0)
    result = [Call(b"F", [Bracket([], span=(i, i))]) for i in range(sites)]
    return Program([], [Function(b"Go", [Sentence([], [], result)], True), *program.functions[2:]])


def removed_lines(lines, live, dead):
    """Every removed line tells all restrictions again, dead members between live ones."""
    fallen = Sentence([B], [], [Call(b"F", [])] * dead)
    kept = Sentence([A], [], [Call(b"F", [])] * live)
    gone = [Sentence([code(i)], [], []) for i in range(lines)]
    first = Function(b"Go", [Sentence([], [], [Call(b"G", [A])])], True)
    return Program([], [first, Function(b"G", [fallen, kept]), Function(b"F", [*gone, Sentence([], [], [])])])


def one_text(functions, arguments):
    """Uncovered restrictions of one text, for each function of a name."""
    return Program([], [calls([[Bracket([], span=(i, i))] for i in range(arguments)]), *[Function(b"F")] * functions])


def rounds(links, functions):
    """A chain of rounds, and functions whose lists begin with dead sites."""
    names = [three_letters(i) for i in range(functions)]
    chain = [Sentence([code(i)], [], [Call(b"F", [code(i + 1)])]) for i in range(links)]
    dead = Sentence([B], [], [Call(name, []) for name in names])
    made = [Function(name) for name in names]
    return Program([], [calls([[A]]), Function(b"F", [*chain, dead, Sentence([A], [], [])]), *made])


def long_report(lines, restrictions):
    """The report has lines times restrictions texts."""
    gone = [Sentence([code(i)], [], []) for i in range(lines)]
    return Program([], [calls([[A, code(9000 + i)] for i in range(restrictions)]), Function(b"F", [*gone, Sentence([E], [], [])])])


def common_beginnings(count, length):
    """Removed texts that are alike up to their last letter."""
    same = [Variable("s", b"x")] * length
    gone = [Sentence([*same, code(i)], [], []) for i in range(count)]
    return Program([], [calls([[A]]), Function(b"F", [*gone, Sentence([A], [], [])])])


def two_spellings(functions, arguments, variables):
    """Texts that are alike up to their last letter, but every second one begins with an identifier that is spelled as the others' variable is."""
    names = [Variable("s", three_letters(i)[:2]) for i in range(variables)]
    first = [Variable("s", b"x"), Identifier(b"s.x")]
    made = [Function(b"F")] * functions
    return Program([], [calls([[first[i % 2], *names, code(i)] for i in range(arguments)]), *made])


def spelled_beginnings(count, length):
    """The same of removed texts, which are alike up to their last letter."""
    same = [Variable("s", b"x")] * length
    first = [Variable("s", b"x"), Identifier(b"s.x")]
    gone = [Sentence([first[i % 2], *same, code(i)], [], []) for i in range(count)]
    return Program([], [calls([[A]]), Function(b"F", [*gone, Sentence([A], [], [])])])


def bucket_names(count, buckets=4096):
    """Function names that a fixed hash of 31 a letter puts into few buckets."""
    found, number = [], 0
    while len(found) < count and number < 26**6:
        name = bytes(ord("a") + number // 26**place % 26 for place in range(6))
        value = 0
        for letter in name:
            value = (value * 31 + letter) % buckets
        if value == 7:
            found.append(name)
        number += 1
    return Program([], [Function(b"Go", [Sentence([], [], [Call(name, []) for name in found])], True), *map(Function, found)])


FAMILIES = {
    "chains3": Family(lambda: chains(3, 6), "chains of brackets, 6 `e.` a level, 3 levels"),
    "chains4": Family(lambda: chains(4, 6), "the same, 4 levels"),
    "chains31": Family(lambda: chains(31, 6), "the same, 31 levels"),
    "chains31x40": Family(lambda: chains(31, 40), "40 `e.` a level, 31 levels"),
    "trees3": Family(lambda: trees(3), "binary trees of brackets, 3 levels"),
    "trees5": Family(lambda: trees(5), "the same, 5 levels"),
    "trees7": Family(lambda: trees(7), "the same, 7 levels"),
    "pairs": Family(lambda: pairs(340, 15, 88), "340 patterns `e. e. X`, 15 arguments of 88 terms"),
    "empties": Family(lambda: empty_brackets(1600), "1,600 empty brackets against 1,600"),
    "smalls": Family(lambda: small_brackets(740), "740 brackets of one term against 740"),
    "adjacents": Family(lambda: adjacent_pairs(1480), "1,480 `e.` against 1,480"),
    "unknowns": Family(lambda: all_unknown(200, 60), "200 x 60 pairs, all fuel each"),
    "variables": Family(lambda: shared_variables(836, 33, 32), "836 functions of one name, 33 arguments of 32 variables"),
    "dead": Family(lambda: dead_sites(836, 900, 900), "836 functions, 900 live and 900 dead sites of one class"),
    "spans": Family(lambda: differing_spans(836, 980), "836 functions of one name, 980 sites that differ in a span"),
    "lines": Family(lambda: removed_lines(430, 880, 880), "430 removed lines, 880 live and 880 dead sites"),
    "texts": Family(lambda: one_text(1300, 700), "1,300 functions of one name, 700 arguments of one text"),
    "rounds": Family(lambda: rounds(205, 760), "205 rounds, 760 functions, dead sites at the lists' heads"),
    "report": Family(lambda: long_report(560, 480), "560 removed lines, 480 restrictions"),
    "beginnings": Family(lambda: common_beginnings(285, 8), "285 removed texts with a common beginning"),
    "spelled": Family(lambda: two_spellings(836, 33, 32), "836 functions of one name, 33 arguments alike but for the spelling of one term and their last letter"),
    "begun": Family(lambda: spelled_beginnings(285, 7), "285 removed texts alike but for that and their last letter"),
    "bucket": Family(lambda: bucket_names(480), "480 names of one bucket, if names are hashed by 31"),
}


def image_of(family):
    return encode(FAMILIES[family].make())


def main():
    if len(sys.argv) == 2:
        sys.stdout.buffer.write(image_of(sys.argv[1]))
        return
    for name, family in FAMILIES.items():
        print(f"{name:12} {len(image_of(name)):6}  {family.what}")


if __name__ == "__main__":
    main()
