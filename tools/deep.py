"""An image whose overlap search nests deep: bracket levels, each with `e.` variables before the next.

    python3 tools/deep.py LEVELS COUNT > image

The one sentence, compared with itself, opens each `e.` twice at most.
"""

import sys

from reader import Bracket, Function, Program, Sentence, Variable, encode


def level(levels, count):
    inner = [Bracket(level(levels - 1, count))] if levels else []
    return [Variable("e", b"x") for _ in range(count)] + inner


def main():
    levels, count = (int(word) for word in sys.argv[1:3])
    program = Program([], [Function(b"F", [Sentence(level(levels, count), [], [])])])
    sys.stdout.buffer.write(encode(program))


if __name__ == "__main__":
    main()
