"""PROVED.txt: what was proved, by which kit, and which program came of it, so that others can compare."""

import hashlib

from checkout import Checkout
from program import Program

HEAD = """\
# What this package was built from. The kit builds the program only where it has proved every crate below cnb_main.
# The digest of a crate is that of the list that this prints at the top of the repository:
#   find crates/NAME \\( -name out -o -name must-fail \\) -prune -o -type f -print0 | LC_ALL=C sort -z | xargs -0 sha256sum
# The digest of the sources is that of the lines `crate ..` below. `./package --check FILE` compares a package with a checkout.
# The verdict is that of the gate on sources of this digest.
"""
VERDICT = "bin/verdict"


def sha256(contents: bytes) -> str:
    """The SHA-256 of some bytes, in hexadecimal digits."""
    return hashlib.sha256(contents).hexdigest()


def crates(checkout: Checkout) -> list[str]:
    """The names in crates.txt, lowest first."""
    rows = checkout.text("crates.txt").splitlines()
    return [row.split(":")[0].split()[0] for row in rows if row and not row.startswith("#")]


def crate_digest(checkout: Checkout, crate: str) -> str:
    """The digest of a crate's sources: of the list that sha256sum prints of its files, without its wrong bodies."""
    paths = (path for path in checkout.at(f"crates/{crate}") if "must-fail" not in path.split("/"))
    lines = (f"{sha256(checkout.contents(path))}  {path}\n" for path in sorted(paths, key=str.encode))
    return sha256("".join(lines).encode())


def crate_lines(checkout: Checkout) -> str:
    """A line for each crate, with the digest of its sources."""
    rows = [f"crate crates.txt {sha256(checkout.contents('crates.txt'))}\n"]
    rows += [f"crate {crate} {crate_digest(checkout, crate)}\n" for crate in crates(checkout)]
    return "".join(rows)


def sources_digest(checkout: Checkout) -> str:
    """The digest of all sources: the first line of bin/verdict, by which a verdict is known to be about them."""
    return sha256(crate_lines(checkout).encode())


def verdict(checkout: Checkout) -> str:
    """The verdict that the gate left for these sources."""
    kept = checkout.top / VERDICT
    lines = kept.read_text(encoding="utf-8").splitlines() if kept.is_file() else []
    if len(lines) == 2 and lines[0] == sources_digest(checkout):
        return lines[1]
    return "none: the gate has not left one for these sources"


def proved_text(checkout: Checkout, program: Program) -> str:
    """The text of PROVED.txt."""
    rows = {
        "lifecycle": checkout.version,
        "commit": checkout.commit,
        "kit": program.kit,
        "program": sha256(program.contents),
        "glibc": program.c_library,
        "sources": sources_digest(checkout),
        "verdict": verdict(checkout),
    }
    return HEAD + "".join(f"{name} {value}\n" for name, value in rows.items()) + crate_lines(checkout)
