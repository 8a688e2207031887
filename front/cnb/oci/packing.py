"""Layers as plain tar files, whatever they are packed by."""

import gzip
import hashlib
import importlib
import re
import shutil
import subprocess
import tempfile
import zlib
from collections.abc import Callable, Iterable, Iterator
from contextlib import contextmanager
from typing import IO

from cnb.failure import Failure
from cnb.oci.layout import PIECE, Descriptor, Layout, expected
from cnb.oci.printable import printable

MOST_LAID = 8 << 30
LAYERS = re.compile(r"application/vnd\.(oci\.image\.layer\.(nondistributable\.)?v1\.tar|docker\.image\.rootfs\.(foreign\.)?diff\.tar)")


@contextmanager
def stored(pieces: Iterable[bytes]) -> Iterator[IO[bytes]]:
    """The pieces in a file of their own, from its begin."""
    with tempfile.TemporaryFile() as packed:
        packed.writelines(pieces)
        packed.seek(0)
        yield packed


def pieces_of(plain: IO[bytes] | gzip.GzipFile) -> Iterator[bytes]:
    while piece := plain.read(PIECE):
        yield piece


def with_zstd(pieces: Iterable[bytes]) -> Iterator[bytes]:
    """The pieces of a zstd stream, by Python where it has it, else by the program."""
    for module in ("compression.zstd", "backports.zstd"):
        try:
            package = importlib.import_module(module)
        except ImportError:
            continue
        with stored(pieces) as packed, package.ZstdFile(packed) as plain:
            yield from pieces_of(plain)
        return
    if shutil.which("zstd") is None:
        raise Failure("A layer is packed by zstd, which neither this Python nor a program reads here: install zstd.")
    words = ["zstd", "-dcq"]
    with stored(pieces) as packed:
        with subprocess.Popen(words, stdin=packed, stdout=subprocess.PIPE, stderr=subprocess.DEVNULL) as child:
            assert child.stdout is not None
            yield from pieces_of(child.stdout)
        if child.returncode != 0:
            raise Failure("A layer isn't the zstd stream that its kind says.")


def with_gzip(pieces: Iterable[bytes]) -> Iterator[bytes]:
    with stored(pieces) as packed:
        try:
            with gzip.GzipFile(fileobj=packed) as plain:
                yield from pieces_of(plain)
        except (OSError, EOFError, zlib.error) as fault:
            raise Failure("A layer isn't the gzip stream that its kind says.") from fault


def as_it_is(pieces: Iterable[bytes]) -> Iterator[bytes]:
    yield from pieces


PACKED: dict[str | None, Callable[[Iterable[bytes]], Iterator[bytes]]] = {"": as_it_is, "gzip": with_gzip, "zstd": with_zstd}


@contextmanager
def unpacked(layout: Layout, described: Descriptor, identity: str) -> Iterator[IO[bytes]]:
    """A layer as a tar file, which is compared with the identity that the config has."""
    kind = expected(expected(described, dict, "a descriptor").get("mediaType"), str, "a layer's kind")
    found = LAYERS.match(kind)
    how = kind[found.end() :].lstrip("+.") if found else None
    if how not in PACKED:
        raise Failure(f"A layer is of the kind {printable(kind)}, which isn't read here.")
    with tempfile.TemporaryFile() as plain:
        digest, size = hashlib.sha256(), 0
        for piece in PACKED[how](layout.blob(described)):
            digest.update(piece)
            plain.write(piece)
            size += len(piece)
            if size > MOST_LAID:
                raise Failure(f"The layer {described['digest']} holds more than 8 GB.")
        if f"sha256:{digest.hexdigest()}" != identity:
            raise Failure(f"The layer {described['digest']} isn't the one that the config names.")
        plain.seek(0)
        yield plain
