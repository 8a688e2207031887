"""What `cnb --version` prints: the version, the commit, and the kit that proved the program.

An installed `cnb` has these in the file PROVED.txt, which `./package` writes. In a checkout the version is that of the
newest heading of CHANGELOG.md, the commit that of git, and the kit the one on this machine.
"""

import re
import subprocess
from collections.abc import Sequence
from dataclasses import dataclass
from pathlib import Path

TOP = Path(__file__).resolve().parents[2]
MONTHS = (
    "January February March April May June July August September October November December"
).split()
NUMBER = re.compile(r"^## v?(\d+\.\d+(?:\.\d+)?)\b", re.M)
DAY = re.compile(rf"^## (\d+) ({'|'.join(MONTHS)}) (\d{{4}})$", re.M)
UNKNOWN = "unknown"


@dataclass(frozen=True)
class Version:
    """A state of the program: its number, its commit, and the kit with the logic that proved it."""

    number: str
    commit: str
    kit: str


def number_in(changes: str) -> str | None:
    """The version of the newest heading of a list of changes: its number, or its day as in 2026.12.1."""
    number, day = NUMBER.search(changes), DAY.search(changes)
    if number and not (day and day.start() < number.start()):
        return number[1]
    if day:
        return f"{day[3]}.{MONTHS.index(day[2]) + 1}.{int(day[1])}"
    return None


def fields_of(proved: str) -> dict[str, str]:
    """The first words of the lines of a PROVED.txt, each with the rest of its line."""
    rows = (line.split(" ", 1) for line in proved.splitlines() if line and not line.startswith("#"))
    return {row[0]: row[1] for row in rows if len(row) == 2}


def printed_by(words: Sequence[str], folder: Path) -> str:
    """What a program prints, or that it is unknown where the program isn't there or fails."""
    try:
        ended = subprocess.run(words, cwd=folder, capture_output=True, text=True, check=True)
    except (OSError, subprocess.CalledProcessError):
        return UNKNOWN
    return ended.stdout.strip()


def version_of(top: Path) -> Version:
    """The version of an installed `cnb`, or of a checkout."""
    proved = top / "PROVED.txt"
    if proved.is_file():
        fields = fields_of(proved.read_text(encoding="utf-8"))
        return Version(*(fields.get(name, UNKNOWN) for name in ("lifecycle", "commit", "kit")))
    changes = top / "CHANGELOG.md"
    number = number_in(changes.read_text(encoding="utf-8")) if changes.is_file() else None
    commit = printed_by(["git", "rev-parse", "HEAD"], top)
    return Version(number or UNKNOWN, commit, printed_by(["rt", "version"], top))


def version_line() -> str:
    """The line that `cnb --version` prints."""
    version = version_of(TOP)
    return f"cnb {version.number} (commit {version.commit[:12]}, {version.kit})"
