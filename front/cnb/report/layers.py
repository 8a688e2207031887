"""The rows of an image: how large each is, what made it, and whether the image before had it."""

from collections.abc import Sequence
from dataclasses import dataclass
from pathlib import Path
from typing import Literal

from cnb.documents import Image, Row
from cnb.home import Home

State = Literal["new", "reused", "unchanged", "run image"]


@dataclass(frozen=True)
class Layer:
    row: Row
    size: int | None
    state: State

    @property
    def name(self) -> str:
        """A short name: a layer's own, or what the row is."""
        words = {"run": "run image", "app": "application", "process": "processes"}
        return self.row.by.partition(":")[2] if self.row.role == "layer" else words.get(self.row.role, self.row.role)


@dataclass(frozen=True)
class Stack:
    """The rows of an image, the lowest first, and those of the image before."""

    now: Sequence[Layer]
    before: Sequence[Layer]

    @property
    def new(self) -> int:
        return sum(layer.state == "new" for layer in self.now)

    @property
    def size(self) -> int:
        """How many bytes its different trees have."""
        return sum({layer.row.digest: layer.size or 0 for layer in self.now}.values())


def stack_of(image: Image | None, before: Image | None, home: Home, printed: Sequence[str]) -> Stack:
    """The stack of an image. `printed` has the lines of `export`, which name the layers that were taken over unread."""
    reused = {line.removeprefix("reused ") for line in printed if line.startswith("reused ")}
    known = {row.digest for row in before.rows} if before else set[str]()

    def state(row: Row) -> State:
        if _layer_name(row) in reused:
            return "reused"
        if row.digest in known:
            return "unchanged"
        return "run image" if row.role == "run" else "new"

    now = [Layer(row, _size(home.tree(row.digest)), state(row)) for row in (image.rows if image else ())]
    return Stack(now, [Layer(row, _size(home.tree(row.digest)), "unchanged") for row in (before.rows if before else ())])


def _size(tree: Path) -> int | None:
    """The size of a tree in the store, or None if it isn't there any more."""
    return tree.stat().st_size if tree.is_file() else None


def _layer_name(row: Row) -> str:
    """What `export` prints for a layer, `<id>:<layer>`."""
    buildpack, _, layer = row.by.partition(":")
    return f"{buildpack.partition('@')[0]}:{layer}" if row.role == "layer" else ""
