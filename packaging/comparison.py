"""Whether a package is what a checkout builds, and where it differs if it isn't."""

import os
import tempfile
from collections.abc import Iterator
from pathlib import Path

from archives import deb_name, tar_name, write_all
from checkout import Checkout, Refused, printed
from program import Program
from tree import Tree

PROVED = "share/lifecycle/PROVED.txt"


def unpack(package: Path, folder: Path) -> None:
    """Lays the files of a package into a folder, those of a Debian package with its control files."""
    if package.name.endswith(".deb"):
        printed(["dpkg-deb", "--raw-extract", str(package), str(folder)], Path("/"))
    else:
        folder.mkdir()
        printed(["tar", "-xf", str(package), "-C", str(folder)], Path("/"))


def contents(folder: Path) -> dict[str, bytes]:
    """What lies below a folder: files with their contents and modes, links with their targets."""
    found = {}
    for parent, folders, files in os.walk(folder):
        for path in (Path(parent, name) for name in folders + files):
            name = str(path.relative_to(folder))
            if path.is_symlink():
                found[name] = b"-> " + os.readlink(path).encode()
            elif path.is_file():
                found[name] = f"{path.stat().st_mode:o} ".encode() + path.read_bytes()
    return found


def proved_lines(files: dict[str, bytes]) -> set[str]:
    """The lines of the PROVED.txt of a package."""
    texts = [text for path, text in files.items() if path.endswith(PROVED)]
    return set(texts[0].decode().splitlines()) if texts else set()


def differences(theirs: dict[str, bytes], ours: dict[str, bytes]) -> Iterator[str]:
    """What differs, file by file, and the lines of PROVED.txt that the package has and the checkout hasn't."""
    for path in sorted(theirs.keys() | ours.keys()):
        if path not in ours:
            yield f"only in the package: {path}"
        elif path not in theirs:
            yield f"only in the checkout: {path}"
        elif theirs[path] != ours[path]:
            yield f"other contents: {path}"
    for line in sorted(proved_lines(theirs) - proved_lines(ours)):
        yield f"the package's PROVED.txt says: {line}"


def compare(checkout: Checkout, program: Program, tree: Tree, package: Path) -> list[str]:
    """What differs between a package and the one that this checkout builds: nothing if they have the same bytes."""
    if not package.is_file():
        raise Refused(f"{package} is no file: name a package, as {deb_name(checkout)}")
    with tempfile.TemporaryDirectory() as room:
        built = Path(room, "built")
        write_all(checkout, program, tree, built)
        ours = built / (deb_name(checkout) if package.name.endswith(".deb") else tar_name(checkout))
        if ours.read_bytes() == package.read_bytes():
            return []
        found: list[dict[str, bytes]] = []
        for file in (package, ours):
            folder = Path(room, f"files{len(found)}")
            unpack(file, folder)
            found.append(contents(folder))
    return list(differences(*found)) or ["the files are the same, and packed in another way: by another dpkg-deb or Python?"]
