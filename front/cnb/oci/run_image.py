"""Run images made of root folders and of images of layouts, with the variables in which programs of an image are started."""

import os
import tempfile
from collections.abc import Callable, Iterable, Iterator
from contextlib import contextmanager
from dataclasses import dataclass
from pathlib import Path

from cnb.documents import RunImage, read_run_image, toml_text
from cnb.failure import Failure
from cnb.oci.layout import architecture
from cnb.oci.read import LayoutImage
from cnb.oci.root import copied, path_of
from cnb.oci.store import NOTHING_KEPT, Kept, keep, locked, replace, run_path
from cnb.program import Ended, Program

Variables = list[tuple[str, str]]


def variables_of(words: Iterable[str]) -> Variables:
    """The variables of words NAME=VALUE by ascending names, as a document has them. A word without `=` is passed over, and of
    two with one name the later is taken."""
    found = dict(word.split("=", 1) for word in words if word.find("=") > 0)
    return sorted(found.items(), key=lambda item: item[0].encode())


def document_of(image: RunImage, variables: Variables) -> str:
    lines = [f"arch = {toml_text(image.arch)}", f"os = {toml_text(image.os)}"]
    lines.append(f"rows = [{', '.join(map(toml_text, image.rows))}]")
    for name, value in variables:
        lines += ["", "[[env]]", f"name = {toml_text(name)}", f"value = {toml_text(value)}"]
    return "".join(f"{line}\n" for line in lines)


def unseen(_: Path) -> list[str]:
    return []


@dataclass(frozen=True)
class RunImageMaker:
    """Makes run images in a store by `base`, which itself gives them no variables. `look` has a line for each thing that a
    person should know of a root before an image is built on it."""

    program: Program
    store: Path
    look: Callable[[Path], list[str]] = unseen

    def make(self, name: str, folder: Path, target: tuple[str, str], words: Iterable[str], kept: Kept = NOTHING_KEPT) -> Ended:
        """A run image of a folder, for a system and a processor. What `base` refuses is handed back as it ended."""
        store = self.store.absolute()
        of_target = ["--os", target[0], "--arch", target[1]]
        ended = self.program.run(["base", "--store", str(store), "--run", name, *of_target, "--tree", str(folder.absolute())])
        if ended.status == 0:
            try:
                write_settings(store, name, variables_of(words), kept)
            except OSError as fault:
                raise Failure(f"The run image {name} can't be made: {fault}.") from fault
        return ended

    def of_root(self, name: str, root: Path) -> tuple[Ended, list[str]]:
        """A run image of the root folder of a distribution, and what is lost by it."""
        if not (root / "bin").is_dir():
            raise Failure(f"{root} is no root folder: it has no bin.")
        with room_beside(root) as room:
            losses = copied(root, room / "root")
            ended = self.make(name, room / "root", ("linux", architecture()), [f"PATH={path_of(root)}"])
            return ended, losses.lines() + self.look(room / "root")

    def of_layout(self, name: str, place: str) -> tuple[Ended, list[str]]:
        """A run image of an image at LAYOUT or LAYOUT:NAME, and what is lost by it."""
        image = LayoutImage.open(place)
        with tempfile.TemporaryDirectory(prefix="cnb-") as room:
            root = Path(room) / "root"
            losses = image.lay(root)
            ended = self.of_laid(name, root, image)
            return ended, losses.lines() + image.settings.losses() + self.look(root)

    def of_laid(self, name: str, folder: Path, image: LayoutImage) -> Ended:
        """A run image of an image that was laid in a folder."""
        settings = image.settings
        return self.make(name, folder, (settings.os, settings.architecture), settings.variables, settings.kept)


@contextmanager
def room_beside(root: Path) -> Iterator[Path]:
    """A folder where a copy can be made of links, if the folder around the root may be written; else one for temporary files."""
    around = root.absolute().parent
    with tempfile.TemporaryDirectory(prefix="cnb-", dir=around if os.access(around, os.W_OK) else None) as room:
        yield Path(room)


def write_settings(store: Path, name: str, variables: Variables, kept: Kept) -> None:
    """Writes the variables into the document of a run image, and keeps what else its config says beside it."""
    path = run_path(store, name)
    with locked(store):
        image = read_run_image(path)
        replace(path, document_of(image, variables))
        keep(path, image.rows[-1], kept)
