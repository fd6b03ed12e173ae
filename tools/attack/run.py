"""Counts the instructions that Clean takes on images made to hurt, and climbs to worse ones.

    python3 tools/attack/run.py [--family FAMILY].. [--cap SECONDS] [--library FOLDER]
    python3 tools/attack/run.py --climb STEPS [--bytes N] [--seed S] [--library FOLDER]

Without `--climb` a row is printed for each family of families.py: bytes, instructions
(callgrind, collected inside showclean_clean, x86-64), instructions a byte, and the time at
180 MHz and 1.5 cycles an instruction. An image that takes longer than `--cap` seconds
under callgrind is told as `over`. `--climb` starts from small random programs, changes one
thing at a time and keeps what takes more instructions a byte; the worst is left in
target/attack/worst.image. The driver is that of tools/figures.
"""

import argparse
import random
import re
import subprocess
import sys
from pathlib import Path

sys.path.insert(0, str(Path(__file__).resolve().parent))

from families import A, B, E, FAMILIES, image_of
from linked import build, folder_of
from reader import Bracket, Call, Character, Function, Program, Sentence, Variable, encode

FOLDER = folder_of("attack")
LIMIT = 400_000_000  # instructions that no image may take
CYCLES = 1.5 / 180e6


def counted(driver, image, cap):
    """Instructions of one call of Clean, or None where they take too long."""
    path = FOLDER / "asked.image"
    path.write_bytes(image)
    profile = FOLDER / "asked.callgrind"
    tool = ["valgrind", "--tool=callgrind", "--toggle-collect=showclean_clean", f"--callgrind-out-file={profile}"]
    try:
        run = subprocess.run([*tool, str(driver), "once", str(path)], capture_output=True, text=True, timeout=cap)
    except subprocess.TimeoutExpired:
        return None
    return int(re.search(r"Collected : (\d+)", run.stderr).group(1))


def table(driver, names, cap):
    print("| family | image | bytes | instructions | a byte | at 180 MHz, s |")
    print("|---|---|---|---|---|---|")
    over = 0
    for name in names:
        image = image_of(name)
        found = counted(driver, image, cap)
        over += found is None or found > LIMIT
        cells = ["over", "", ""] if found is None else [f"{found:,}", f"{found / len(image):,.0f}", f"{found * CYCLES:.2f}"]
        print("| " + " | ".join([name, FAMILIES[name].what, f"{len(image):,}", *cells]) + " |", flush=True)
    print(f"{over} of {len(names)} above {LIMIT:,} instructions")


# ------------------------------------------------------------------- climbing


def some_terms(dice, depth):
    made = []
    for _ in range(dice.randint(0, 6)):
        kind = dice.randint(0, 9)
        if kind < 4:
            made.append(E)
        elif kind < 7:
            made.append(dice.choice([A, B, Variable("s", b"x"), Variable("t", b"y"), Character(67)]))
        elif depth:
            made.append(Bracket(some_terms(dice, depth - 1)))
    return made


def some_sentence(dice):
    calls = [Call(dice.choice([b"F", b"G"]), some_terms(dice, 3)) for _ in range(dice.randint(0, 3))]
    return Sentence(some_terms(dice, 3), [], calls)


def some_program(dice):
    names = [b"F", b"F", b"G"]
    functions = [Function(dice.choice(names), [some_sentence(dice) for _ in range(dice.randint(0, 4))]) for _ in range(dice.randint(1, 5))]
    first = Function(b"Go", [Sentence([], [], [Call(b"F", some_terms(dice, 3)) for _ in range(4)])], True)
    return Program([], [first, *functions])


def grown(dice, terms, depth=3):
    """One term more, one less, or the same somewhere inside a bracket."""
    terms = list(terms)
    place = dice.randint(0, len(terms))
    inside = [i for i, term in enumerate(terms) if isinstance(term, Bracket)]
    if inside and dice.random() < 0.5:
        i = dice.choice(inside)
        terms[i] = Bracket(grown(dice, terms[i].terms, depth - 1))
    elif terms and dice.random() < 0.3:
        del terms[min(place, len(terms) - 1)]
    else:
        terms[place:place] = some_terms(dice, max(depth, 0)) or [E]
    return terms


def changed(dice, program):
    functions = [Function(f.name, list(f.sentences), f.entry) for f in program.functions]
    f = dice.randrange(len(functions))
    old = functions[f]
    sentences = list(old.sentences)
    if not sentences or dice.random() < 0.2:
        sentences.append(some_sentence(dice))
    else:
        i = dice.randrange(len(sentences))
        s = sentences[i]
        if dice.random() < 0.5:
            s = Sentence(grown(dice, s.pattern), [], s.result)
        else:
            result = list(s.result)
            if result and dice.random() < 0.7:
                j = dice.randrange(len(result))
                result[j] = Call(result[j].name, grown(dice, result[j].terms))
            else:
                result.append(Call(b"F", some_terms(dice, 3)))
            s = Sentence(s.pattern, [], result)
        sentences[i] = s
    functions[f] = Function(old.name, sentences, old.entry)
    return Program([], functions)


def climb(driver, steps, most, seed):
    dice = random.Random(seed)
    best, program = 0, some_program(dice)
    for step in range(steps):
        other = some_program(dice) if step % 50 == 49 else changed(dice, program)
        image = encode(other)
        if len(image) > most:
            continue
        found = counted(driver, image, 60)
        score = (found or 10**12) / len(image)
        if score > best:
            best, program = score, other
            (FOLDER / "worst.image").write_bytes(image)
            print(f"step {step}: {len(image)} bytes, {score:,.0f} instructions a byte", flush=True)


def main():
    words = argparse.ArgumentParser(description=__doc__, formatter_class=argparse.RawDescriptionHelpFormatter)
    words.add_argument("--family", action="append", choices=list(FAMILIES))
    words.add_argument("--cap", type=float, default=120)
    words.add_argument("--climb", type=int)
    words.add_argument("--bytes", type=int, default=1500)
    words.add_argument("--seed", type=int, default=1)
    words.add_argument("--library")
    said = words.parse_args()
    FOLDER.mkdir(parents=True, exist_ok=True)
    driver = build("figures", said.library)
    if said.climb:
        climb(driver, said.climb, said.bytes, said.seed)
    else:
        table(driver, said.family or list(FAMILIES), said.cap)


if __name__ == "__main__":
    main()
