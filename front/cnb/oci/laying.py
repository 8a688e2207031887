"""Layers laid in a folder. Links of the image are followed as if the folder were the root, and nothing outside is touched."""

import os
import shutil
import stat
import tarfile
from pathlib import Path
from typing import IO

from cnb.failure import Failure
from cnb.oci.layout import PIECE
from cnb.oci.losses import Losses
from cnb.oci.packing import MOST_LAID
from cnb.oci.printable import printable

MOST_LINKS = 40
KINDS = {stat.S_IFLNK: "link", stat.S_IFDIR: "folder", stat.S_IFREG: "file"}


class Misplaced(Exception):
    """Why an entry can't be laid, in the words behind its name."""


def parts_of(name: str) -> list[str]:
    parts = [part for part in name.split("/") if part not in ("", ".")]
    if name.startswith("/") or ".." in parts:
        raise Misplaced("leads out of the folder")
    return parts


def is_whiteout(parts: list[str]) -> bool:
    return bool(parts) and parts[-1].startswith(".wh.")


class LaidRoot:
    """The folder that layers are laid in, and what is lost of them there."""

    def __init__(self, folder: Path) -> None:
        self.folder = folder
        self.losses = Losses()
        self.laid = 0

    def layer(self, plain: IO[bytes], number: int) -> None:
        """Lays a layer: first its whiteouts, which hide what is below it alone, then its entries."""
        try:
            with tarfile.open(fileobj=plain, mode="r:") as archive:
                for info in archive:
                    self.judged(info, number, archive, is_hiding=True)
                for info in archive:
                    self.judged(info, number, archive, is_hiding=False)
                # tarfile takes a header that isn't whole for the end.
                plain.seek(archive.offset)
                if plain.read(tarfile.BLOCKSIZE).strip(b"\0"):
                    raise Failure(f"Layer {number} is no whole tar archive: it has no end.")
        except (tarfile.TarError, EOFError) as fault:
            raise Failure(f"Layer {number} is no whole tar archive: {fault}.") from fault

    def judged(self, info: tarfile.TarInfo, number: int, archive: tarfile.TarFile, *, is_hiding: bool) -> None:
        """Lays an entry, or says which one can't be laid and why."""
        name = printable(info.name)
        try:
            parts = parts_of(info.name)
            if is_whiteout(parts) != is_hiding:
                return
            if is_hiding:
                self.white_out(parts)
            else:
                self.lay(archive, info, parts)
        except Misplaced as fault:
            raise Failure(f"The entry {name} of layer {number} {fault}.") from fault
        except (OSError, ValueError, RecursionError) as fault:
            why = getattr(fault, "strerror", None) or str(fault)
            raise Failure(f"The entry {name} of layer {number} can't be laid: {why}.") from fault

    def path(self, parts: list[str]) -> Path:
        return self.folder.joinpath(*parts)

    def kind(self, parts: list[str]) -> str | None:
        """link, folder, file, other, or None where nothing is there."""
        try:
            mode = os.lstat(self.path(parts)).st_mode
        except FileNotFoundError:
            return None
        return KINDS.get(stat.S_IFMT(mode), "other")

    def followed(self, at: list[str], part: str, links: int = 0) -> list[str]:
        """The folder that a link leads to, which must be one of the image."""
        target = os.readlink(self.path([*at, part]))
        link = printable("/".join([*at, part]))
        lost = Misplaced(f"goes through {link}, a link to {printable(target)}, which is no folder of the image")
        if links >= MOST_LINKS:
            raise lost
        at = [] if target.startswith("/") else list(at)
        for step in target.split("/"):
            if step in ("", "."):
                continue
            if step == "..":
                if not at:
                    raise lost
                at.pop()
                continue
            kind = self.kind([*at, step])
            if kind == "link":
                at = self.followed(at, step, links + 1)
            elif kind == "folder":
                at.append(step)
            else:
                raise lost
        return at

    def parent(self, parts: list[str], *, is_made: bool) -> list[str] | None:
        """The folder that an entry of these parts belongs into; None where it isn't there and isn't made."""
        at: list[str] = []
        for part in parts[:-1]:
            kind = self.kind([*at, part])
            if kind == "link":
                at = self.followed(at, part)
            elif kind == "folder":
                at.append(part)
            elif kind is not None:
                raise Misplaced(f"goes through {printable('/'.join([*at, part]))}, which is a file")
            elif not is_made:
                return None
            else:
                at.append(part)
                os.mkdir(self.path(at), 0o755)
        return at

    def clear(self, parts: list[str]) -> None:
        kind = self.kind(parts)
        if kind == "folder":
            shutil.rmtree(self.path(parts))
        elif kind is not None:
            os.remove(self.path(parts))

    def white_out(self, parts: list[str]) -> None:
        """Removes what a whiteout hides of the layers below."""
        hidden = parts[-1].removeprefix(".wh.")
        at = self.parent(parts, is_made=False)
        if hidden in ("", ".", ".."):
            raise Misplaced("hides no name of its folder")
        if at is None or (hidden.startswith(".wh.") and hidden != ".wh..opq"):
            return
        for name in os.listdir(self.path(at)) if hidden == ".wh..opq" else [hidden]:
            self.clear([*at, name])

    def lay(self, archive: tarfile.TarFile, info: tarfile.TarInfo, parts: list[str]) -> None:
        """Lays one entry: a folder into a folder, anything else in place of what is there."""
        if not parts:
            if not info.isdir():
                raise Misplaced("is the root and no folder")
            return
        above = self.parent(parts, is_made=True)
        assert above is not None
        at = [*above, parts[-1]]
        if info.isdir():
            self.lay_folder(at, info)
        elif info.issym():
            self.clear(at)
            os.symlink(info.linkname, self.path(at))
        elif info.islnk():
            self.lay_hard_link(at, info.linkname)
        elif info.isreg():
            self.clear(at)
            self.lay_file(at, archive, info)
        else:
            raise Misplaced("is a device, a pipe or of an unknown kind")
        self.losses.note_entry(info)

    def lay_folder(self, at: list[str], info: tarfile.TarInfo) -> None:
        if self.kind(at) != "folder":
            self.clear(at)
            os.mkdir(self.path(at))
        os.chmod(self.path(at), info.mode & 0o777 | 0o700)

    def lay_hard_link(self, at: list[str], name: str) -> None:
        try:
            other = parts_of(name)
            above = self.parent(other, is_made=False) if other else None
        except Misplaced as fault:
            raise Misplaced(f"is a hard link to {printable(name)}, which {fault}") from fault
        if above is None or self.kind([*above, other[-1]]) not in ("file", "link") or [*above, other[-1]] == at:
            raise Misplaced(f"is a hard link to {printable(name)}, which is no other file of the image")
        self.clear(at)
        os.link(self.path([*above, other[-1]]), self.path(at), follow_symlinks=False)

    def lay_file(self, at: list[str], archive: tarfile.TarFile, info: tarfile.TarInfo) -> None:
        self.laid += info.size
        if self.laid > MOST_LAID:
            raise Misplaced("is too large: an image may hold 8 GB")
        contents = archive.extractfile(info)
        assert contents is not None
        descriptor = os.open(self.path(at), os.O_WRONLY | os.O_CREAT | os.O_EXCL | os.O_NOFOLLOW, 0o600)
        with os.fdopen(descriptor, "wb") as made:
            shutil.copyfileobj(contents, made, PIECE)
            os.fchmod(made.fileno(), info.mode & 0o777 | 0o600)
