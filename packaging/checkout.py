"""The checkout that packages are made of: its commit, and its files as they are committed."""

import subprocess
from collections.abc import Sequence
from dataclasses import dataclass
from pathlib import Path

from cnb.version import number_in


class Refused(Exception):
    """Why no package is made, and what to do."""


@dataclass(frozen=True)
class Checkout:
    """A clone in which everything is committed."""

    top: Path
    commit: str
    seconds: int
    """When the commit was made, since 1970: the time of every file in a package."""
    version: str
    executable: dict[str, bool]
    """The committed files, by their paths, and whether each is executable."""

    def text(self, path: str) -> str:
        """The contents of a committed text file."""
        return self.contents(path).decode()

    def contents(self, path: str) -> bytes:
        """The contents of a committed file."""
        if path not in self.executable:
            raise Refused(f"{path} is not in the repository, and a package needs it")
        return (self.top / path).read_bytes()

    def at(self, *places: str) -> list[str]:
        """The committed files at these paths and in folders at them, in order."""
        folders = tuple(f"{place}/" for place in places)
        return sorted(path for path in self.executable if path in places or path.startswith(folders))


def printed(words: Sequence[str], folder: Path) -> str:
    """What a program prints, or the reason why it failed."""
    try:
        ended = subprocess.run(words, cwd=folder, capture_output=True, text=True, check=False)
    except OSError as error:
        raise Refused(f"{words[0]} can't be started: {error.strerror}. Is it installed?") from error
    if ended.returncode != 0:
        raise Refused(f"{' '.join(words)} failed: {ended.stderr.strip() or ended.stdout.strip()}")
    return ended.stdout


def read_checkout(top: Path) -> Checkout:
    """The checkout at a folder. It is refused if something in it isn't committed, since the commit names what is packed."""
    changed = printed(["git", "diff", "--name-only", "HEAD"], top).splitlines()
    changed += printed(["git", "ls-files", "--others", "--exclude-standard", "crates"], top).splitlines()
    if changed:
        raise Refused(f"not committed: {changed[0]}, {len(changed)} in all. Commit or stash what was changed first")
    commit, seconds = printed(["git", "log", "-1", "--format=%H %ct"], top).split()
    version = number_in((top / "CHANGELOG.md").read_text(encoding="utf-8"))
    if version is None:
        raise Refused("CHANGELOG.md has no heading with a version or a day, as `## 0.1.0` or `## 1 December 2026`")
    executable = {}
    for row in printed(["git", "ls-files", "--stage", "-z"], top).split("\0"):
        if row:
            words, path = row.split("\t", 1)
            executable[path] = words.startswith("100755")
    return Checkout(top, commit, int(seconds), version, executable)
