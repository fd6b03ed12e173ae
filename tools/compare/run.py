"""Compares the static library with the Rust that document 01 names, on random images.

    python3 tools/compare/run.py [--images N] [--seed S] [--library FOLDER]
    python3 tools/compare/run.py --runs N [--seed S] [--library FOLDER]

One process holds both, each compiled for release. Image number I of seed S is image
number 0 of seed S + I, so `--images 1` with a printed seed asks about that image alone.
With `--runs` raw and cleaned programs are run instead, at least N times. The static
library is built first, unless `--library` names a folder with a libcleaner.a. The Rust
is looked for in REFERENCE (../shared/docs/src, from the root). All that is built goes
to target/compare.
"""

import argparse
import subprocess
import sys
from pathlib import Path

sys.path.insert(0, str(Path(__file__).resolve().parent.parent))

from linked import build


def main():
    parser = argparse.ArgumentParser()
    parser.add_argument("--images", type=int, default=1_000_000)
    parser.add_argument("--runs", type=int)
    parser.add_argument("--seed", type=int, default=1)
    parser.add_argument("--library")
    arguments = parser.parse_args()
    driver = build("compare", arguments.library)
    mode, count = "images", arguments.images
    if arguments.runs is not None:
        mode, count = "runs", arguments.runs
    command = [str(driver), mode, str(count), str(arguments.seed)]
    sys.exit(subprocess.run(command).returncode)


if __name__ == "__main__":
    main()
