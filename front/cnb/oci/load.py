"""Reads an image that `save` wrote as a layout into a store, with the digests that it had where it was saved.

The image's document is in a label of the config. The program stores the trees of the layers again, and so says what their
digests are; the image gets its name once they are those of the document, and `verify` has read it as a whole."""

import hashlib
import os
import secrets
import tempfile
import tomllib
from collections.abc import Iterator
from contextlib import contextmanager
from dataclasses import dataclass
from pathlib import Path
from typing import Any

from cnb.documents import read_run_image
from cnb.failure import Failure
from cnb.oci.laying import LaidRoot
from cnb.oci.read import LayoutImage
from cnb.oci.store import DOCUMENT_LABEL, image_path, keep, locked, replace, run_path
from cnb.program import Program


@dataclass(frozen=True)
class SavedRow:
    """A row of the document, as far as it is needed to find its tree."""

    place: str
    digest: str


@dataclass(frozen=True)
class LoadedImage:
    """An image of a layout that is loaded, and the document that it has there."""

    image: LayoutImage
    document: str
    rows: list[SavedRow]

    @staticmethod
    def open(place: str) -> "LoadedImage":
        image = LayoutImage.open(place)
        document = image.settings.labels.get(DOCUMENT_LABEL)
        if document is None:
            raise Failure(
                f"The image of {place} was not made by cnb.",
                hint=f"As a run image it can be had: cnb run-image add NAME --oci {place}",
            )
        rows = rows_of(document)
        if len(rows) + 1 != len(image.layers):
            raise Failure("The layout has other layers than the image that was saved: something was added or taken away.")
        return LoadedImage(image, document, rows)

    def lay(self, room: Path) -> list[Path]:
        """Lays each layer in a folder of its own, and gives the tree of each row."""
        found = []
        for number, row in enumerate(self.rows, 1):
            folder = room / str(number)
            folder.mkdir()
            self.image.lay_layer(number, LaidRoot(folder))
            found.append(tree_at(folder, row, number))
        return found


def rows_of(document: str) -> list[SavedRow]:
    try:
        table: dict[str, Any] = tomllib.loads(document)
        return [SavedRow(str(row["place"]), str(row["digest"])) for row in table["rows"]]
    except (ValueError, KeyError, TypeError) as fault:
        raise Failure(f"The label {DOCUMENT_LABEL} of the layout is no image's document: {fault}.") from fault


def tree_at(folder: Path, row: SavedRow, number: int) -> Path:
    """The folder of a row in its layer, which has nothing beside it and is reached by no link."""
    at = folder
    for part in row.place.strip("/").split("/") if row.place != "/" else []:
        if part in ("", ".", "..") or os.listdir(at) != [part] or (at / part).is_symlink():
            raise Failure(f"Layer {number} of the layout has other files than those at {row.place}.")
        at = at / part
    return at


@contextmanager
def passing_name(store: Path) -> Iterator[str]:
    """A name for an image and a run image, whose documents are gone afterwards."""
    name = f"loading-{secrets.token_hex(8)}"
    try:
        yield name
    finally:
        image_path(store, name).unlink(missing_ok=True)
        run_path(store, name).unlink(missing_ok=True)


def load(program: Program, place: str, store: Path, name: str) -> int:
    """Loads the image at LAYOUT or LAYOUT:NAME under a name of this store, and gives the number of its rows."""
    named = image_path(store, name)
    loaded = LoadedImage.open(place)
    of_store = ["--store", str(store.absolute())]
    with passing_name(store) as passing, tempfile.TemporaryDirectory(prefix="cnb-") as room:
        target = ["--os", loaded.image.settings.os, "--arch", loaded.image.settings.architecture]
        trees = [word for tree in loaded.lay(Path(room)) for word in ("--tree", str(tree))]
        program.finish(["base", *of_store, "--run", passing, *target, *trees])
        compare(loaded.rows, read_run_image(run_path(store, passing)).rows)
        image_path(store, passing).parent.mkdir(exist_ok=True)
        with locked(store):
            replace(image_path(store, passing), loaded.document)
        program.finish(["verify", *of_store, "--image", passing])
        with locked(store):
            os.rename(image_path(store, passing), named)
            keep(named, hashlib.sha256(loaded.document.encode()).hexdigest(), loaded.image.settings.kept)
    return len(loaded.rows)


def compare(rows: list[SavedRow], digests: tuple[str, ...]) -> None:
    for number, (row, digest) in enumerate(zip(rows, digests, strict=True), 1):
        if row.digest != digest:
            raise Failure(f"Layer {number} of the layout isn't the tree that its image had: {digest}, and not {row.digest}.")
