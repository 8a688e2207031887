"""The root folder of a distribution, as debootstrap leaves one, copied without what a container has of its own."""

import os
import re
import shutil
import stat
from pathlib import Path

from cnb.failure import Failure
from cnb.oci.losses import Losses

USUAL_PATH = "/usr/local/sbin:/usr/local/bin:/usr/sbin:/usr/bin:/sbin:/bin"
PATH_SETTINGS = (("environment", r'PATH="?([^"\n]+)"?'), ("login.defs", r"ENV_SUPATH\s+PATH=(\S+)"))
KEPT = (stat.S_IFDIR, stat.S_IFREG, stat.S_IFLNK)


def path_of(root: Path) -> str:
    """The PATH that the distribution gives its administrator."""
    for name, form in PATH_SETTINGS:
        try:
            settings = (root / "etc" / name).read_text(encoding="utf-8", errors="replace")
        except OSError:
            continue
        found = re.search(rf"^\s*{form}\s*$", settings, re.MULTILINE)
        if found:
            return found[1]
    return USUAL_PATH


def linked(source: str, target: str) -> None:
    """A copy that takes no room, where the file system allows it."""
    try:
        os.link(source, target, follow_symlinks=False)
    except OSError:
        shutil.copy(source, target, follow_symlinks=False)


def has_attributes(path: str) -> bool:
    try:
        return bool(os.listxattr(path, follow_symlinks=False))
    except OSError:
        return False


class RootCopy:
    """A copy of a root folder that is being made, and what is lost by it."""

    def __init__(self, root: Path, copy: Path) -> None:
        self.root, self.copy = root, copy
        self.device = os.lstat(root).st_dev
        self.room = os.lstat(copy.parent)
        self.losses = Losses()

    def make(self) -> Losses:
        shutil.copytree(self.root, self.copy, symlinks=True, ignore=self.left_out, copy_function=linked)
        for short in self.losses.mounted:
            (self.copy / short).mkdir(parents=True, exist_ok=True)
        return self.losses

    def left_out(self, folder: str, names: list[str]) -> list[str]:
        return [name for name in names if not self.is_kept(os.path.join(folder, name))]

    def is_kept(self, path: str) -> bool:
        found, short = os.lstat(path), os.path.relpath(path, self.root)
        if os.path.samestat(found, self.room):
            return False
        kind = stat.S_IFMT(found.st_mode)
        if kind not in KEPT:
            self.losses.left_out.append(short)
            return False
        if found.st_dev != self.device and kind == stat.S_IFDIR:
            self.losses.mounted.append(short)
            return False
        attributed = kind == stat.S_IFREG and has_attributes(path)
        self.losses.note(short, found.st_mode, owned=bool(found.st_uid or found.st_gid), attributed=attributed)
        return True


def copied(root: Path, copy: Path) -> Losses:
    """Copies a root folder, which stays as it is. The folder around the copy is left out, where the root has it."""
    try:
        return RootCopy(root, copy).make()
    except shutil.Error as fault:
        raise Failure(f"{root} can't be copied: {fault.args[0][0][2]}.") from fault
    except OSError as fault:
        raise Failure(f"{root} can't be copied: {fault}.") from fault
