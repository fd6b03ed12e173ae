"""Holds the pictures of `refal graph` to the reports of `refal clean`, on random programs.

    python3 tools/pictures.py [REFAL] [--programs N]

REFAL is the command (default bindings/rust/target/debug/refal). A picture must strike out
as many sentences as the report's second line says, and no call that stays may meet one
that went.
"""

import argparse
import re
import subprocess
import sys

from clean_vectors import LivelyMaker
from generate import Dice
from notation import REFAL
from reader import encode

FIRST_SEED = 70000
GONE_ROW = 'bgcolor="#fbe9e9"'
GONE_EDGE = 'color="#c4bcbc"'

BOX = re.compile(r"^  f(\d+) \[label=<(.*)>\];$", re.M)
ROW = re.compile(r'<td port="r(\d+)" align="left"([^>]*)>(?:<s>)?(.*?)</td>')
EDGE = re.compile(r"^  f\d+:r\d+ -> f(\d+):r(\d+) \[(.*)\];$", re.M)


def asked(refal, command, image):
    """What a command prints of an image."""
    return subprocess.run([str(refal), command], input=image, capture_output=True, check=True).stdout.decode()


def rows_of(dot):
    """Whether each row is struck out and whether it is a sentence's, by its box and number."""
    rows = {}
    for box, label in BOX.findall(dot):
        for number, colour, words in ROW.findall(label):
            rows[box, number] = GONE_ROW in colour, not words.startswith(" ")
    return rows


def removed_of(report):
    before, after = re.search(r"^sentences: (\d+) -> (\d+)$", report, re.M).groups()
    return int(before) - int(after)


def check_picture(refal, seed):
    """The sentences that went, and the calls' edges to sentences."""
    image = encode(LivelyMaker(Dice(seed)).program())
    dot = asked(refal, "graph", image)
    rows, edges = rows_of(dot), EDGE.findall(dot)
    gone = sum(struck and is_sentence for struck, is_sentence in rows.values())
    if gone != removed_of(asked(refal, "clean", image)):
        sys.exit(f"program {seed}: {gone} sentences are struck out")
    for box, row, style in edges:
        if rows[box, row][0] and GONE_EDGE not in style:
            sys.exit(f"program {seed}: a call that stays meets row {row} of box {box}, which went")
    return gone, len(edges)


def main():
    parser = argparse.ArgumentParser()
    parser.add_argument("refal", nargs="?", default=REFAL)
    parser.add_argument("--programs", type=int, default=400)
    arguments = parser.parse_args()
    seeds = range(FIRST_SEED, FIRST_SEED + arguments.programs)
    counts = [check_picture(arguments.refal, seed) for seed in seeds]
    gone, edges = map(sum, zip(*counts))
    print(f"{len(counts)} pictures agree with their reports: {gone} sentences went, {edges} edges to sentences")


if __name__ == "__main__":
    main()
