"""The documents and blobs of an OCI image layout, read as what a stranger wrote."""

import hashlib
import json
import os
import platform
import re
import stat
from collections.abc import Iterator
from pathlib import Path
from typing import Any, BinaryIO, TypeVar

from cnb.failure import Failure
from cnb.oci.printable import printable

Descriptor = dict[str, Any]
Kind = TypeVar("Kind")

PIECE = 1 << 20
MOST_DOCUMENT = 4 << 20
INDEXES = ("application/vnd.oci.image.index.v1+json", "application/vnd.docker.distribution.manifest.list.v2+json")
MACHINES = {"x86_64": "amd64", "aarch64": "arm64", "armv7l": "arm", "i686": "386"}


def architecture() -> str:
    """The processor of this machine, as images name it."""
    return MACHINES.get(platform.machine(), platform.machine())


def expected(value: object, kind: type[Kind], what: str) -> Kind:
    """The value, where it is of this kind."""
    if not isinstance(value, kind) or isinstance(value, bool):
        raise Failure(f"{what[0].upper()}{what[1:]} isn't what it should be.")
    return value


def texts(value: object, what: str) -> list[str]:
    """The texts of a list, which may be absent."""
    return [expected(text, str, what) for text in expected(value if value is not None else [], list, what)]


def opened(path: Path) -> BinaryIO:
    """A regular file that isn't a link, to read."""
    try:
        descriptor = os.open(path, os.O_RDONLY | os.O_NOFOLLOW | os.O_NONBLOCK)
    except OSError as fault:
        raise Failure(f"{printable(str(path))} can't be read: {fault.strerror}.") from fault
    if not stat.S_ISREG(os.fstat(descriptor).st_mode):
        os.close(descriptor)
        raise Failure(f"{printable(str(path))} is no regular file.")
    return os.fdopen(descriptor, "rb")


def parsed(name: str, data: bytes) -> object:
    try:
        value: object = json.loads(data)
    except (ValueError, RecursionError) as fault:
        raise Failure(f"{printable(name)} is no JSON.") from fault
    return value


class Layout:
    """A layout that is read."""

    def __init__(self, folder: Path) -> None:
        self.folder = folder

    def document(self, name: str) -> Descriptor:
        with opened(self.folder / name) as stored:
            return expected(parsed(name, stored.read(MOST_DOCUMENT)), dict, f"the file {name}")

    def blob(self, described: Descriptor) -> Iterator[bytes]:
        """The pieces of a blob, which is compared with its digest and size behind the last."""
        digest = expected(expected(described, dict, "a descriptor").get("digest"), str, "a descriptor's digest")
        if not re.fullmatch(r"sha256:[0-9a-f]{64}|sha512:[0-9a-f]{128}", digest):
            raise Failure(f"The digest {printable(digest)} is none that can be compared.")
        algorithm, name = digest.split(":")
        found, size = hashlib.new(algorithm), 0
        with opened(self.folder / "blobs" / algorithm / name) as stored:
            while piece := stored.read(PIECE):
                found.update(piece)
                size += len(piece)
                yield piece
        if found.hexdigest() != name or size != described.get("size"):
            raise Failure(f"The blob {digest} isn't what its digest and size say.")

    def json_blob(self, described: object) -> Descriptor:
        descriptor = expected(described, dict, "a descriptor")
        if expected(descriptor.get("size"), int, "a descriptor's size") > MOST_DOCUMENT:
            raise Failure("A document of the layout is larger than 4 MB.")
        data = b"".join(self.blob(descriptor))
        return expected(parsed(str(descriptor.get("digest")), data), dict, "a document of the layout")


def name_of(described: Descriptor) -> object:
    return (described.get("annotations") or {}).get("org.opencontainers.image.ref.name")


def platform_of(described: Descriptor) -> tuple[object, object]:
    target = described.get("platform") or {}
    return target.get("os"), target.get("architecture")


def named(described: Descriptor) -> str:
    return printable(str(name_of(described) or "/".join(map(str, platform_of(described)))))


def chosen(layout: Layout, index: Descriptor, name: str | None) -> Descriptor:
    """The manifest of an index: the one of this name, or the only one, or the one for this machine."""
    found = [expected(one, dict, "a descriptor") for one in expected(index.get("manifests"), list, "the index")]
    if name is not None:
        found = [one for one in found if name_of(one) == name]
        if not found:
            raise Failure(f"The layout has no image {printable(name)}.")
    if len(found) > 1:
        found = [one for one in found if platform_of(one) == ("linux", architecture())] or found
    if len(found) != 1:
        names = ", ".join(map(named, found)) or "none"
        raise Failure(f"The layout has not one image that could be meant but these: {names}; name one as LAYOUT:NAME.")
    inner = layout.json_blob(found[0])
    return chosen(layout, inner, None) if found[0].get("mediaType") in INDEXES else inner


def split(place: str) -> tuple[Path, str | None]:
    """The folder of a layout, and the name of an image where one is given."""
    folder, colon, name = place.rpartition(":")
    return (Path(place), None) if os.path.isdir(place) or not colon else (Path(folder), name)
