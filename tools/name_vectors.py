"""Writes the table that the comparison of names is replayed on.

    python3 tools/name_vectors.py > crates/vectors/data/names

A record is the lengths of the two names (u8 each), whether they are the same
without regard to ASCII case (u8), how many pairs of bytes are compared (u8), and
then the bytes of both. The answers are computed here, from document 02's words:
none where the lengths differ, else the pairs up to the first that differs, that
one included.
"""

import sys

LONG = "A" * 63

PAIRS = [
    ("Go", "Go"), ("Go", "gO"), ("Go", "Ga"), ("Go", "Ho"), ("F", "Fa"), ("Fa", "F"),
    ("F", "F"), ("F", "f"), ("F", "G"), ("", ""), ("", "F"), ("F", ""),
    ("Abc", "ABC"), ("Abc", "Abd"), ("Abc", "Adc"), ("Abc", "Bbc"),
    ("@", "`"), ("[", "{"), ("Z", "z"), ("A", "a"), ("A-B", "A_B"), ("A1", "a1"), ("A1", "a2"),
    (LONG, LONG), (LONG, LONG.lower()), (LONG, LONG[:-1] + "B"), (LONG, "B" + LONG[1:]),
    (LONG, LONG[:-1]), (LONG[:31] + "x" + LONG[32:], LONG), ("zZ", "Zz"), ("aB9", "Ab8"),
]


def small(byte):
    return byte + 32 if 65 <= byte <= 90 else byte


def answer(first, second):
    if len(first) != len(second):
        return False, 0
    for number, (one, other) in enumerate(zip(first, second), 1):
        if small(one) != small(other):
            return False, number
    return True, len(first)


def main():
    for one, other in PAIRS:
        first, second = one.encode(), other.encode()
        equal, compared = answer(first, second)
        record = bytes([len(first), len(second), equal, compared])
        sys.stdout.buffer.write(record + first + second)
    print(f"{len(PAIRS)} pairs", file=sys.stderr)


if __name__ == "__main__":
    main()
