"""Measures Clean and Overlap against the Rust that document 01 names, and prints tables.

    python3 tools/figures/run.py [--ours] [--kind KIND].. [--table TABLE].. [--cap SECONDS]
                                 [--library FOLDER]

One process runs both, each compiled for release, on the same image. A table is
`clean`, `overlap`, `instructions` or `stack`, and without words all are printed for
all kinds; `profile`, the dearest functions of a kind, only where it is asked for.
`--ours` leaves the Rust's times out; `--cap` is what ours may take on one image. The
static library is built first, unless `--library` names a folder with a libcleaner.a.
The Rust is looked for in REFERENCE (../shared/docs/src, from the root). All that is
built goes to target/figures.
"""

import argparse
import math
import re
import subprocess
import sys
from pathlib import Path

sys.path.insert(0, str(Path(__file__).resolve().parent.parent))

from images import KINDS, image_of
from linked import ROOT, build, folder_of

BUILD = folder_of("figures")
DRIVER = BUILD / "figures"
CRATES = [line.split(":")[0] for line in (ROOT / "crates.txt").read_text().splitlines()]
TABLES = ("clean", "overlap", "instructions", "stack")
ASKED = ("profile",)  # printed only where asked for

# The images whose stack is measured, for Clean and for Overlap of the first sentence with the last.
CLEANED = (
    "typical32k adjacent separated both levels1 levels8 levels44 calls32 blocks32 conditions32"
    " text32".split()
)
OVERLAPPED = "self2900 self1300 self1 self8 self44 self88 pair3 pair4 pair5 pair6 pair10".split()


# ------------------------------------------------------------------ measuring


def image_file(kind):
    path = BUILD / f"{kind}.image"
    path.write_bytes(image_of(kind))
    return str(path)


def asked(*words):
    """The driver's answer as a dictionary: each line is a word and its value."""
    run = subprocess.run([str(DRIVER), *words], check=True, stdout=subprocess.PIPE, text=True)
    return dict(line.split() for line in run.stdout.splitlines())


def profile_of(kind):
    return str(BUILD / f"{kind}.callgrind")


def instructions(kind, cap):
    """Instructions of one call of Clean, or None where they take too long."""
    tool = ["valgrind", "--tool=callgrind", "--toggle-collect=showclean_clean"]
    file = f"--callgrind-out-file={profile_of(kind)}"
    command = [*tool, file, str(DRIVER), "once", image_file(kind)]
    try:
        run = subprocess.run(command, capture_output=True, text=True, timeout=cap)
    except subprocess.TimeoutExpired:
        return None
    return int(re.search(r"Collected : (\d+)", run.stderr).group(1))


# --------------------------------------------------------------------- tables


def size_of(kind):
    return f"{len(image_of(kind)):,}"


def row(*cells):
    print("| " + " | ".join(cells) + " |", flush=True)


def head(*cells):
    row(*cells)
    print("|" + "---|" * len(cells))


def two_digits(value):
    """The value with two digits that count, and never with an exponent."""
    if value >= 10:
        return f"{float(f'{value:.1e}'):,.0f}"
    return f"{value:.{1 - math.floor(math.log10(value))}f}"


def duration(word, cap):
    return f"over {cap:g}" if word == "over" else two_digits(float(word))


def clean_table(kinds, arguments):
    """The Rust's cleaning alone against all of Clean."""
    head("kind", "image", "bytes", "report", "reference, s", "ours, s", "reference / ours")
    for kind in kinds:
        answer = both("clean", kind, arguments)
        report = f"{int(answer['report']):,}" if "report" in answer else ""
        row(kind, KINDS[kind].what, size_of(kind), report, *times(kind, answer, arguments))


def overlap_table(kinds, arguments):
    """The Rust's search alone against all of Overlap, the first sentence with the last."""
    head("kind", "image", "bytes", "reference, s", "ours, s", "reference / ours")
    for kind in kinds:
        answer = both("overlap", kind, arguments)
        row(kind, KINDS[kind].what, size_of(kind), *times(kind, answer, arguments))


def both(entry, kind, arguments):
    skipped = arguments.ours or KINDS[kind].reference
    patience = 0 if skipped else KINDS[kind].patience
    answer = asked(entry, image_file(kind), str(arguments.cap), str(patience))
    if answer.get("agree") == "false":
        sys.exit(f"{kind}: the answers differ")
    return answer


def times(kind, answer, arguments):
    """Three cells: the Rust's time or what is known of it, ours, and how many times ours it is."""
    ours, reference = answer["ours"], answer.get("reference")
    told = duration(reference, KINDS[kind].patience) if reference else KINDS[kind].reference
    ended = reference and "over" not in (ours, reference)
    gain = two_digits(float(reference) / float(ours)) if ended else ""
    return told, duration(ours, arguments.cap), gain


def instruction_table(kinds, arguments):
    head("kind", "bytes", "instructions", "a byte")
    for kind in kinds:
        count = instructions(kind, arguments.cap)
        if count is None:
            row(kind, size_of(kind), "not counted", "")
        else:
            row(kind, size_of(kind), f"{count:,}", f"{count / len(image_of(kind)):,.1f}")


def profile_tables(kinds, arguments):
    """The functions below Clean in which a kind spends most, with what they call."""
    for kind in kinds:
        total = instructions(kind, arguments.cap)
        if total is None:
            continue
        itself = profile_counts(kind, "--inclusive=no", "--threshold=100")
        head(f"{kind}: {total:,}", "with callees", "itself")
        for name, count in profile_counts(kind, "--inclusive=yes").items():
            row(f"`{name}`", share(count, total), share(itself.get(name, 0), total))
        print()


def share(count, total):
    return f"{count:,} ({100 * count / total:.1f} %)"


def profile_counts(kind, inclusive, *words):
    """Instructions of each function of the library, the dearest first."""
    command = ["callgrind_annotate", "--auto=no", inclusive, *words]
    run = subprocess.run([*command, profile_of(kind)], check=True, capture_output=True, text=True)
    counts = {}
    for line in run.stdout.splitlines():
        found = re.match(r" *([\d,]+) \([^)]*\) +[^:\s]*:((\w+)[\w:]*)('\d+)? \[", line)
        if not found or not (found[3] in CRATES or found[3].startswith(("showclean_", "__mem"))):
            continue
        # A recursive function's inner calls have a line of their own, and the outer ones hold them.
        if found[4] and inclusive == "--inclusive=yes":
            continue
        counts[found[2]] = counts.get(found[2], 0) + int(found[1].replace(",", ""))
    return counts


def stack_table(kinds, arguments):
    head("entry point", "image", "bytes", "stack, bytes")
    refused = BUILD / "refused.image"
    refused.write_bytes(b"")
    for entry, chosen in (("clean", CLEANED), ("overlap", OVERLAPPED)):
        answer = asked("stack", entry, str(refused), str(arguments.cap))
        row(entry, "refused at once", "0", f"{int(answer['stack']):,}")
        for kind in chosen:
            if kind in kinds:
                answer = asked("stack", entry, image_file(kind), str(arguments.cap))
                taken = answer["stack"]
                told = f"over {arguments.cap:g} s" if taken == "over" else f"{int(taken):,}"
                row(entry, KINDS[kind].what, size_of(kind), told)


# --------------------------------------------------------------- command line


def chosen_words():
    parser = argparse.ArgumentParser()
    parser.add_argument("--ours", action="store_true")
    parser.add_argument("--library")
    parser.add_argument("--kind", action="append", choices=KINDS, default=[])
    parser.add_argument("--table", action="append", choices=TABLES + ASKED, default=[])
    parser.add_argument("--cap", type=float, default=60)
    return parser.parse_args()


def main():
    arguments = chosen_words()
    build("figures", arguments.library)
    kinds = arguments.kind or list(KINDS)
    timed = [kind for kind in kinds if KINDS[kind].timed]
    for table in arguments.table or TABLES:
        match table:
            case "clean":
                clean_table(timed, arguments)
            case "overlap":
                overlap_table([kind for kind in kinds if kind in OVERLAPPED], arguments)
            case "instructions":
                instruction_table(timed, arguments)
            case "stack":
                stack_table(kinds, arguments)
            case "profile":
                profile_tables(timed, arguments)
        print()


if __name__ == "__main__":
    main()
