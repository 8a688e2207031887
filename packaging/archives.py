"""The two archives of an installation, a Debian package and a tar, each with the same bytes for the same commit and program."""

import gzip
import hashlib
import io
import os
import re
import subprocess
import tarfile
import tempfile
import textwrap
import time
from collections.abc import Mapping
from pathlib import Path
from string import Template

from checkout import Checkout, Refused
from program import Program
from tree import File, Tree, zipped

DEPENDS = ["python3 (>= 3.11)", "python3-click", "python3-jinja2", "python3-pathspec", "python3-rich"]
SCRIPTS = ("postinst", "prerm")
EXECUTABLE, PLAIN = 0o755, 0o644


def deb_name(checkout: Checkout) -> str:
    """The file name of the Debian package."""
    return f"lifecycle_{checkout.version}_amd64.deb"


def tar_name(checkout: Checkout) -> str:
    """The file name of the tar."""
    return f"lifecycle-{checkout.version}-linux-amd64.tar.gz"


def filled(checkout: Checkout, name: str, values: Mapping[str, str]) -> bytes:
    """A template of packaging/debian with its values."""
    return Template(checkout.text(f"packaging/debian/{name}")).substitute(values).encode()


def debian_changes(checkout: Checkout) -> bytes:
    """The newest section of CHANGELOG.md in the form of a Debian changelog."""
    section = checkout.text("CHANGELOG.md").split("\n## ")[1]
    points = (" ".join(point.split()) for point in re.split(r"^- ", section, flags=re.M)[1:])
    wrapped = (textwrap.fill(point, 78, initial_indent="  * ", subsequent_indent="    ") for point in points)
    changes = "\n".join(wrapped)
    day = time.strftime("%a, %d %b %Y %H:%M:%S +0000", time.gmtime(checkout.seconds))
    return filled(checkout, "changelog", {"version": checkout.version, "changes": changes, "day": day})


def debian_tree(checkout: Checkout, tree: Tree) -> Tree:
    """An installation below /usr, with what Debian wants of every package."""
    documents = "usr/share/doc/lifecycle"
    return {f"usr/{path}": entry for path, entry in tree.items()} | {
        f"{documents}/copyright": File(checkout.contents("packaging/debian/copyright")),
        f"{documents}/changelog.gz": File(zipped(debian_changes(checkout))),
        "usr/share/lintian/overrides/lifecycle": File(checkout.contents("packaging/debian/lintian-overrides")),
    }


def control(checkout: Checkout, program: Program, tree: Tree) -> Tree:
    """The control files of the Debian package."""
    files = {path: entry.contents for path, entry in sorted(tree.items()) if isinstance(entry, File)}
    kibibytes = sum(-(-len(contents) // 1024) for contents in files.values())
    sums = "".join(f"{hashlib.md5(contents).hexdigest()}  {path}\n" for path, contents in files.items())
    values = {
        "version": checkout.version,
        "size": str(kibibytes),
        "depends": ", ".join(program.depends() + DEPENDS),
        "commit": checkout.commit,
    }
    scripts = {name: File(checkout.contents(f"packaging/debian/{name}"), is_executable=True) for name in SCRIPTS}
    return {"control": File(filled(checkout, "control", values)), "md5sums": File(sums.encode()), **scripts}


def lay(tree: Tree, folder: Path) -> None:
    """Writes a tree below a folder, with modes that don't depend on who writes it."""
    for path, entry in tree.items():
        place = folder / path
        place.parent.mkdir(parents=True, exist_ok=True)
        if isinstance(entry, File):
            place.write_bytes(entry.contents)
            place.chmod(EXECUTABLE if entry.is_executable else PLAIN)
        else:
            place.symlink_to(entry.target)
    for parent, _, _ in os.walk(folder):
        os.chmod(parent, EXECUTABLE)


def write_deb(checkout: Checkout, program: Program, tree: Tree, file: Path) -> None:
    """Writes the Debian package."""
    files = debian_tree(checkout, tree)
    with tempfile.TemporaryDirectory() as room:
        lay(files, Path(room))
        lay(control(checkout, program, files), Path(room, "DEBIAN"))
        words = ["dpkg-deb", "--root-owner-group", "--threads-max=1", "-Zxz", "--build", room, str(file)]
        environment = {**os.environ, "SOURCE_DATE_EPOCH": str(checkout.seconds)}
        try:
            ended = subprocess.run(words, env=environment, capture_output=True, text=True, check=False)
        except FileNotFoundError as error:
            raise Refused("dpkg-deb isn't installed: packages are made on Debian, or on a system that has it") from error
    if ended.returncode != 0:
        raise Refused(f"dpkg-deb failed: {ended.stderr.strip()}")


def member(path: str, checkout: Checkout) -> tarfile.TarInfo:
    """A member of the tar, which belongs to root and has the commit's time."""
    row = tarfile.TarInfo(path)
    row.mtime = checkout.seconds
    row.uname = row.gname = "root"
    return row


def write_tar(checkout: Checkout, tree: Tree, file: Path) -> None:
    """Writes the tar: one folder, from which everything runs wherever it lies."""
    top = tar_name(checkout).removesuffix(".tar.gz")
    tree = {**tree, "LICENSE": File(checkout.contents("LICENSE"))}
    bytes_of_tar = io.BytesIO()
    with tarfile.open(fileobj=bytes_of_tar, mode="w", format=tarfile.PAX_FORMAT) as tar:
        for path, entry in sorted(tree.items()):
            row = member(f"{top}/{path}", checkout)
            if isinstance(entry, File):
                row.size = len(entry.contents)
                row.mode = EXECUTABLE if entry.is_executable else PLAIN
                tar.addfile(row, io.BytesIO(entry.contents))
            else:
                row.type, row.linkname = tarfile.SYMTYPE, entry.target
                tar.addfile(row)
    file.write_bytes(gzip.compress(bytes_of_tar.getvalue(), compresslevel=9, mtime=0))


def write_sums(checkout: Checkout, folder: Path) -> None:
    """Writes SHA256SUMS beside the two archives, for `sha256sum --check`."""
    names = sorted((deb_name(checkout), tar_name(checkout)))
    lines = (f"{hashlib.sha256((folder / name).read_bytes()).hexdigest()}  {name}\n" for name in names)
    (folder / "SHA256SUMS").write_text("".join(lines), encoding="utf-8")


def write_all(checkout: Checkout, program: Program, tree: Tree, folder: Path) -> list[Path]:
    """Writes both archives and their sums into a folder, and says which files these are."""
    folder.mkdir(parents=True, exist_ok=True)
    write_deb(checkout, program, tree, folder / deb_name(checkout))
    write_tar(checkout, tree, folder / tar_name(checkout))
    write_sums(checkout, folder)
    return [folder / name for name in (deb_name(checkout), tar_name(checkout), "SHA256SUMS")]
