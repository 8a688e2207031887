"""Images of the store: what they are, and the commands that change them."""

import os
from dataclasses import asdict, dataclass
from datetime import UTC, datetime
from pathlib import Path
from typing import Any

from cnb.documents import Image, read_image, read_run_image
from cnb.failure import Failure
from cnb.home import Home, remove_tree
from cnb.oci.store import Kept, kept_of_image
from cnb.phases import image_bytes
from cnb.program import Program
from cnb.running import forget_root, no_image


@dataclass(frozen=True)
class Found:
    """An image, when it was written, how many bytes its trees have, and what its run image said of how it is started."""

    name: str
    image: Image
    written: datetime
    bytes: int
    kept: Kept

    @property
    def labels(self) -> dict[str, str]:
        """The labels of the run image, and before them those of the image."""
        return {**self.kept.labels, **dict(self.image.labels)}


def find_image(home: Home, name: str) -> Found:
    document = home.image(name)
    if not document.is_file():
        raise no_image(home, name)
    image = read_image(document)
    written = datetime.fromtimestamp(document.stat().st_mtime, UTC).replace(microsecond=0)
    kept = kept_of_image(home.store, name, document.read_bytes(), image)
    return Found(name, image, written, image_bytes(home, image), kept)


def all_images(home: Home) -> list[Found]:
    return [find_image(home, name) for name in home.image_names()]


def as_data(home: Home, found: Found) -> dict[str, Any]:
    """An image as data, with the size of each row's tree."""
    image = found.image
    return {
        "name": found.name,
        "written": found.written.isoformat(),
        "bytes": found.bytes,
        "run_image": image.run_image,
        "target": {"os": image.os, "arch": image.arch},
        "entrypoint": image.entrypoint,
        "buildpacks": [asdict(buildpack) for buildpack in image.buildpacks],
        "processes": [asdict(process) for process in image.processes],
        "default": image.default,
        "env": {variable.name: variable.value for variable in image.env},
        "labels": found.labels,
        "user": found.kept.user,
        "ports": list(found.kept.ports),
        "volumes": list(found.kept.volumes),
        "stop_signal": found.kept.stop_signal,
        "rows": [asdict(row) | {"bytes": tree_bytes(home, row.digest)} for row in image.rows],
    }


def tree_bytes(home: Home, digest: str) -> int | None:
    """The bytes of a tree, if the store has it."""
    tree = home.tree(digest)
    return tree.stat().st_size if tree.is_file() else None


def remove_image(home: Home, name: str) -> None:
    """Removes an image, and what builds kept of it. Its trees are left to `prune`."""
    document, app = home.image(name), home.app(name)
    with home.lock_app(name):
        if not document.is_file() and not app.root.is_dir():
            raise no_image(home, name)
        document.unlink(missing_ok=True)
        document.with_suffix(".json").unlink(missing_ok=True)
        remove_tree(app.root)


@dataclass(frozen=True)
class Pruned:
    """What `prune` removed: trees of the store, and unpacked images and launchers of the home."""

    trees: tuple[str, ...]
    kept: int
    roots: int
    launchers: int


def prune(home: Home, program: Program) -> Pruned:
    """Removes what no image needs, when no build exports."""
    with home.lock_store(shared=False):
        lines = program.finish(["prune", "--store", str(home.store)]).splitlines()
        launchers = _remove_launchers(home)
    trees = tuple(line.removeprefix("removed ") for line in lines if line.startswith("removed "))
    roots = sum(forget_root(home, root) for root in home.roots.iterdir() if not root.name.startswith("."))
    return Pruned(trees, int(lines[-1].removeprefix("kept ")), roots, launchers)


def _remove_launchers(home: Home) -> int:
    folder = home.root / "launchers"
    names = os.listdir(folder) if folder.is_dir() else []
    for name in names:
        remove_tree(folder / name)
    return len(names)


def verify(home: Home, program: Program, name: str) -> str:
    """Reads each tree of an image; returns the line of `lifecycle verify`."""
    find_image(home, name)
    return program.finish(["verify", "--store", str(home.store), "--image", name]).strip()


def rebase(home: Home, program: Program, name: str, run_image: str | None) -> str:
    """Puts an image on a run image, its own if none is named; returns the line of `lifecycle rebase`."""
    wanted = run_image or find_image(home, name).image.run_image
    if not home.run_image(wanted).is_file():
        raise Failure(f"There is no run image {wanted}.", hint=f"cnb run-image add {wanted} --root DIR makes it.", status=31)
    with home.lock_app(name):
        return program.finish(["rebase", "--store", str(home.store), "--image", name, "--run", wanted]).strip()


def is_on_current_run_image(home: Home, image: Image) -> bool | None:
    """Whether an image lies on its run image as it is now; None where that isn't in the store."""
    document: Path = home.run_image(image.run_image)
    if not document.is_file():
        return None
    rows = tuple(row.digest for row in image.rows if row.role == "run")
    return read_run_image(document).rows == rows
