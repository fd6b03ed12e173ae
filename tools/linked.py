"""Builds a driver in which the static library and the Rust that document 01 names are linked."""

import os
import subprocess
import sys
from pathlib import Path

TOOLS = Path(__file__).resolve().parent
ROOT = TOOLS.parent
REFERENCE = ROOT / os.environ.get("REFERENCE", "../shared/docs/src")


def folder_of(name):
    """Where all goes that is built for tools/NAME."""
    return ROOT / "target" / name


def build(name, library):
    """Compiles tools/NAME/main.rs, both sides for release; returns the program.

    The static library is built first, unless `library` names a folder with a libcleaner.a.
    """
    folder = folder_of(name)
    folder.mkdir(parents=True, exist_ok=True)
    if library is None:
        called(["sh", "tools/archive.sh"])
        library = ROOT / "target" / "staticlib"
    called(["sh", "tools/oracle/build.sh", str(REFERENCE), str(folder)])
    parts = [TOOLS / "oracle" / "main.rs", TOOLS / "exported.rs"]
    (folder / "oracle.rs").write_text("".join(part.read_text() for part in parts))
    compiled(folder, "oracle", folder / "oracle.rs", "--crate-type", "rlib", "-A", "dead_code")
    linked = ["-L", f"native={library}", "-l", "static=cleaner"]
    compiled(folder, name, TOOLS / name / "main.rs", "--crate-type", "bin", *linked)
    return folder / name


def compiled(folder, name, source, *words):
    externs = []
    for crate in ("refal_ast", "refal_core", "oracle"):
        if crate != name:
            externs += ["--extern", f"{crate}={folder / f'lib{crate}.rlib'}"]
    fixed = ["rustc", "--edition", "2024", "-C", "opt-level=3", "-L", str(folder)]
    called([*fixed, "--out-dir", str(folder), "--crate-name", name, *words, *externs, str(source)])


def called(command):
    # Standard output is for what the driver tells.
    subprocess.run(command, cwd=ROOT, check=True, stdout=sys.stderr)
