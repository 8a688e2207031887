"""The home of `cnb`: the folder with its store, builders, applications and unpacked images."""

import os
import re
import shutil
import stat
from collections.abc import Callable
from contextlib import AbstractContextManager
from dataclasses import dataclass
from pathlib import Path

from cnb.failure import Failure
from cnb.locks import held

NAME = re.compile(r"[a-z0-9][a-z0-9._-]{0,127}")


def checked_name(name: str, what: str = "image") -> str:
    """A name in the form that the program has for images and run images, in which it may become part of a path."""
    if NAME.fullmatch(name) is None:
        raise Failure(
            f"{name!r} is no name of {'an' if what[0] in 'aeiou' else 'a'} {what}.",
            hint="A name has 1 to 128 lower-case letters, digits, '.', '_' and '-', of which the first is a letter or a digit.",
        )
    return name


def remove_tree(path: Path) -> None:
    """Removes what is at a path, be it a file, a link or a folder, also folders that nobody may enter or list."""
    if not os.path.lexists(path):
        return
    if path.is_symlink() or not path.is_dir():
        path.unlink()
        return
    path.chmod(0o700)
    for folder, folders, _ in os.walk(path):
        for name in folders:
            found = Path(folder, name)
            if not found.is_symlink():
                found.chmod(stat.S_IMODE(found.stat().st_mode) | 0o700)
    shutil.rmtree(path)


def emptied(path: Path) -> Path:
    """This folder, new and empty."""
    remove_tree(path)
    path.mkdir(parents=True)
    return path


@dataclass(frozen=True)
class AppFolder:
    """The folder of one application, and what builds keep in it."""

    root: Path

    @property
    def work(self) -> Path:
        """The documents that one phase leaves for the next."""
        return self.root / "work"

    @property
    def layers(self) -> Path:
        return self.root / "layers"

    @property
    def cache(self) -> Path:
        return self.root / "cache"

    @property
    def platform(self) -> Path:
        return self.root / "platform"

    @property
    def workspace(self) -> Path:
        """The copy of the application that buildpacks are given."""
        return self.root / "workspace"

    @property
    def build(self) -> Path:
        """What is kept of the last build, for `cnb why`."""
        return self.root / "build"


class Home:
    """The folder of `cnb`. Only names that `checked_name` lets pass become parts of its paths."""

    def __init__(self, root: Path) -> None:
        self.root = root
        self.store = root / "store"
        self.builders = root / "builders"
        self.apps = root / "apps"
        self.roots = root / "roots"
        self.locks = root / "locks"

    @staticmethod
    def open() -> "Home":
        """$CNB_HOME, else $XDG_DATA_HOME/cnb, else ~/.local/share/cnb; made for this user alone."""
        named, data = os.environ.get("CNB_HOME"), os.environ.get("XDG_DATA_HOME")
        path = named or os.path.join(data or os.path.expanduser("~/.local/share"), "cnb")
        root = Path(os.path.abspath(path))
        try:
            root.parent.mkdir(parents=True, exist_ok=True)
            if not root.is_dir():
                root.mkdir(mode=0o700)
            home = Home(root)
            for folder in (home.store, home.builders, home.apps, home.roots, home.locks):
                folder.mkdir(exist_ok=True)
        except OSError as fault:
            raise Failure(
                f"The home of cnb, {root}, can't be made: {fault.strerror}.", hint="CNB_HOME names another folder."
            ) from fault
        return home

    def builder(self, name: str) -> Path:
        return self.builders / checked_name(name, "builder")

    def app(self, name: str) -> AppFolder:
        return AppFolder(self.apps / checked_name(name))

    def image(self, name: str) -> Path:
        """The document of an image, which may be absent."""
        return self.store / "images" / f"{checked_name(name)}.toml"

    def run_image(self, name: str) -> Path:
        """The document of a run image, which may be absent."""
        return self.store / "runs" / f"{checked_name(name, 'run image')}.toml"

    def tree(self, digest: str) -> Path:
        return self.store / "trees" / digest

    def names_in(self, folder: Path, suffix: str = "") -> list[str]:
        """The names that a folder of the home has, in order."""
        if not folder.is_dir():
            return []
        found = (name.removesuffix(suffix) for name in os.listdir(folder) if name.endswith(suffix))
        return sorted(name for name in found if NAME.fullmatch(name))

    def image_names(self) -> list[str]:
        return self.names_in(self.store / "images", ".toml")

    def run_image_names(self) -> list[str]:
        return self.names_in(self.store / "runs", ".toml")

    def builder_names(self) -> list[str]:
        return self.names_in(self.builders)

    def lock_app(self, name: str, waiting: Callable[[], None] | None = None) -> AbstractContextManager[None]:
        """The lock of an application, which one build at a time holds."""
        return held(self.locks / f"app-{checked_name(name)}", waiting=waiting)

    def lock_store(self, *, shared: bool, waiting: Callable[[], None] | None = None) -> AbstractContextManager[None]:
        """The lock of the store: shared by all that put trees there, held alone by `prune`."""
        return held(self.locks / "store", shared=shared, waiting=waiting)
