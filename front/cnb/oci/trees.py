"""The trees of a store, read from the front (docs/FORMATS.md, "Canonical trees")."""

import hashlib
from collections.abc import Iterator
from contextlib import contextmanager
from dataclasses import dataclass
from pathlib import Path
from typing import BinaryIO

from cnb.failure import Failure

MAGIC = b"CNBT\x01"
VERIFY = "cnb verify NAME says which layers of an image are missing or damaged."


@dataclass(frozen=True)
class Folder:
    path: str


@dataclass(frozen=True)
class Link:
    path: str
    target: str


@dataclass(frozen=True)
class File:
    """A file, whose contents are the next bytes of the tree: they are read before the next node is asked for."""

    path: str
    is_executable: bool
    size: int


Node = Folder | Link | File


class Tree:
    """The bytes of a tree."""

    def __init__(self, stored: BinaryIO) -> None:
        self.stored = stored

    def take(self, length: int) -> bytes:
        part = self.stored.read(length)
        if len(part) != length:
            raise Failure(f"{self.stored.name} ends too early.")
        return part

    def number(self, width: int) -> int:
        return int.from_bytes(self.take(width), "big")

    def text(self) -> str:
        return self.take(self.number(2)).decode()

    def nodes(self, path: str) -> Iterator[Node]:
        """A node at a path, and for a folder all that is in it."""
        tag = self.take(1)
        if tag == b"D":
            yield Folder(path)
            for _ in range(self.number(4)):
                name = self.text()
                yield from self.nodes(f"{path}/{name}".lstrip("/"))
        elif tag == b"F":
            is_executable = self.number(1) == 1
            yield File(path, is_executable, self.number(8))
        elif tag == b"L":
            yield Link(path, self.text())
        else:
            raise Failure(f"{self.stored.name} has a node of an unknown kind at {path}.")


@contextmanager
def opened(store: Path, digest: str) -> Iterator[Tree]:
    """The tree of a digest, which its bytes have."""
    path = store / "trees" / digest
    try:
        stored = open(path, "rb")
    except OSError as fault:
        raise Failure(f"The tree {path} can't be read: {fault.strerror}.", hint=VERIFY) from fault
    with stored:
        if hashlib.file_digest(stored, "sha256").hexdigest() != digest:
            raise Failure(f"The tree {path} has another digest.", hint=VERIFY)
        stored.seek(0)
        tree = Tree(stored)
        if tree.take(len(MAGIC)) != MAGIC:
            raise Failure(f"{path} is no tree.")
        yield tree
