"""The repository as the tools see it: its crates and their files."""

import signal
import sys
from pathlib import Path

ROOT = Path(__file__).resolve().parent.parent
CRATES = ROOT / "crates"

signal.signal(signal.SIGPIPE, signal.SIG_DFL)    # `tools/wide | head` ends without a complaint


def stop(message):
    """Says why a tool cannot go on, and ends it."""
    sys.exit(f"{Path(sys.argv[0]).name}: {message}")


def dependencies():
    """Each crate of crates.txt with the names that it depends on, in the file's order."""
    found = {}
    for line in (ROOT / "crates.txt").read_text().splitlines():
        line = line.split("#")[0]
        if ":" in line:
            name, needed = line.split(":", 1)
            found[name.split()[0]] = needed.split()    # a static library has a word after its name
    return found


def known_crate(name):
    """The name, if it is a crate's; else the tool ends."""
    if name not in dependencies():
        stop(f"crates.txt lists no crate {name}")
    return name


def source_files(suffixes=(".rt", ".antt")):
    """The files of code, definitions and proofs, in order. What `rt` keeps in out/ is left out."""
    return sorted(path for name in dependencies() for part in ("src", "specs", "proofs")
                  for path in (CRATES / name / part).rglob("*") if path.suffix in suffixes)


def shown(path):
    """A path as a person wants to read it: from the root."""
    path = Path(path)
    return path.relative_to(ROOT).as_posix() if path.is_absolute() else path.as_posix()
