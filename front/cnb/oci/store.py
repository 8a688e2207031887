"""The documents of a store, replaced as the program does it.

Beside a document `NAME.toml` of a run image or an image there may be `NAME.json`, which the program passes over. It keeps what
the config of the run image said in its layout, or that of the image in the layout that it was loaded from, and says of what it
is true: `of` is the digest of the topmost tree of the run image, or of the image's document."""

import contextlib
import fcntl
import hashlib
import json
import os
from collections.abc import Iterator, Mapping
from dataclasses import asdict, dataclass, field
from pathlib import Path

from cnb.documents import Image
from cnb.home import checked_name


def image_path(store: Path, name: str) -> Path:
    return store / "images" / f"{checked_name(name)}.toml"


def run_path(store: Path, name: str) -> Path:
    return store / "runs" / f"{checked_name(name, 'run image')}.toml"


@contextlib.contextmanager
def locked(store: Path) -> Iterator[None]:
    """Holds the lock that each command of the program takes which writes in a store."""
    folder = os.open(store, os.O_RDONLY)
    try:
        with contextlib.suppress(OSError):  # a file system without locks
            fcntl.flock(folder, fcntl.LOCK_EX)
        yield
    finally:
        os.close(folder)


def replace(path: Path, contents: str) -> None:
    """Writes a file beside the one that is there, and renames it."""
    beside = path.with_name(f"{path.name}.new")
    with open(beside, "w", encoding="utf-8", newline="") as made:
        made.write(contents)
        made.flush()
        os.fsync(made.fileno())
    os.rename(beside, path)

# The label of a saved image with its document.
DOCUMENT_LABEL = "lifecycle.image"


@dataclass(frozen=True)
class Kept:
    """What the config of a layout says that a document of the program has no place for."""

    user: str = ""
    labels: Mapping[str, str] = field(default_factory=dict)
    ports: tuple[str, ...] = ()
    volumes: tuple[str, ...] = ()
    stop_signal: str = ""


NOTHING_KEPT = Kept()


def keep(document: Path, of: str, kept: Kept) -> None:
    """Keeps this beside a document, or that there is nothing."""
    path = document.with_suffix(".json")
    if kept != NOTHING_KEPT:
        replace(path, json.dumps({"of": of, **asdict(kept)}) + "\n")
    else:
        path.unlink(missing_ok=True)


def kept_beside(document: Path, of: str) -> Kept:
    """What is kept beside a document, if it is true of these contents; else nothing."""
    try:
        found = json.loads(document.with_suffix(".json").read_bytes())
        if found["of"] != of:
            return NOTHING_KEPT
        labels = {str(key): str(value) for key, value in found.get("labels", {}).items()}
        ports, volumes = (tuple(map(str, found.get(key, ()))) for key in ("ports", "volumes"))
        return Kept(str(found.get("user", "")), labels, ports, volumes, str(found.get("stop_signal", "")))
    except (OSError, ValueError, KeyError, TypeError, AttributeError):
        return NOTHING_KEPT


def kept_of_image(store: Path, name: str, document: bytes, image: Image) -> Kept:
    """What is kept of the layout that an image with this document was loaded from, or else of its run image."""
    loaded = kept_beside(image_path(store, name), hashlib.sha256(document).hexdigest())
    return loaded if loaded != NOTHING_KEPT else kept_beside(run_path(store, image.run_image), image.top)
