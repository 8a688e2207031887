"""Builders: an order, its buildpacks, the run images that they go with, and perhaps the root of a build image."""

import os
import re
import shutil
import stat
import tarfile
import tempfile
from collections.abc import Iterator, Mapping
from dataclasses import dataclass
from pathlib import Path
from typing import Any

from cnb.documents import Buildpack, order_document, read_order, read_table, toml_text
from cnb.failure import Failure
from cnb.home import Home, checked_name, remove_tree
from cnb.locks import held
from cnb.program import Program

SERVED_BUILDPACKS = "a folder, or a .tar or .tgz of one"
# An id and a version as the program has them; with `_` for `/` both are names of folders.
ID = re.compile(r"(?!\.{1,2}\Z)[A-Za-z0-9./-]{1,128}")
VERSION = re.compile(r"[0-9]+\.[0-9]+\.[0-9]+")
ADDRESSES = ("docker:", "urn:", "http:", "https:", "cnb:")


@dataclass(frozen=True)
class Builder:
    """A builder of the home. Its builder.toml is the text that it was made of."""

    name: str
    folder: Path
    run_images: tuple[str, ...]

    @property
    def order(self) -> Path:
        return self.folder / "order.toml"

    @property
    def buildpacks(self) -> Path:
        return self.folder / "buildpacks"

    @property
    def root(self) -> Path | None:
        """The root of its build image, if it has one."""
        root = self.folder / "root"
        return root if root.is_dir() else None

    def listed(self) -> list[Buildpack]:
        """Its buildpacks, by folder."""
        return [buildpack for _, buildpack, _ in found_buildpacks(self.buildpacks)]


def find_builder(home: Home, name: str) -> Builder:
    folder = home.builder(name)
    if not folder.is_dir():
        raise Failure(f"There is no builder {name}.", hint=_how_to_make(home))
    table = read_table(folder / "builder.toml")
    return Builder(name, folder, tuple(_run_images(table)))


def default_builder(home: Home) -> Builder:
    """The only builder of the home."""
    names = home.builder_names()
    if len(names) == 1:
        return find_builder(home, names[0])
    if names:
        raise Failure("There are several builders.", hint=f"Name one by --builder: {', '.join(names)}")
    raise Failure("There is no builder.", hint=_how_to_make(home))


def _how_to_make(home: Home) -> str:
    names = home.builder_names()
    known = f"There are: {', '.join(names)}\n" if names else ""
    how = "samples/make-builder makes the builder sample; cnb builder create NAME --config builder.toml makes one of your own."
    return known + how


def _run_images(table: Mapping[str, Any]) -> Iterator[str]:
    """The names of [[run.images]]; what isn't a name isn't here: it is kept in the file alone."""
    run = table.get("run", {})
    for row in run.get("images", ()) if isinstance(run, dict) else ():
        if isinstance(row, dict) and isinstance(row.get("image"), str):
            yield row["image"]


def found_buildpacks(folder: Path) -> Iterator[tuple[Path, Buildpack, dict[str, Any]]]:
    """The buildpacks of a folder with <id>/<version>/buildpack.toml: folder, id and version, descriptor."""
    for path in sorted(folder.glob("*/*/buildpack.toml")):
        table = read_table(path)
        yield path.parent, described(path, table), table


def described(path: Path, table: Mapping[str, Any]) -> Buildpack:
    try:
        return Buildpack(str(table["buildpack"]["id"]), str(table["buildpack"]["version"]))
    except (KeyError, TypeError) as fault:
        raise Failure(f"{path} names no buildpack by an id and a version.") from fault


def take_buildpack(source: Path, buildpacks: Path, *, replace: bool = False) -> Buildpack:
    """Copies the folder of a buildpack to its place among others, or there in place of one of its id and version."""
    descriptor = source / "buildpack.toml"
    if not descriptor.is_file():
        raise Failure(f"{source} is no buildpack: it has no buildpack.toml.", hint=f"A buildpack is {SERVED_BUILDPACKS}.")
    buildpack = described(descriptor, read_table(descriptor))
    place = buildpacks / buildpack.folder
    if not (ID.fullmatch(buildpack.id) and VERSION.fullmatch(buildpack.version)):
        raise Failure(f"{descriptor} has an id or a version of another form than buildpacks have: {buildpack}.")
    if replace:
        remove_tree(place)
    elif place.exists():
        raise Failure(f"There are two buildpacks {buildpack}.")
    copy_tree(source, place)
    return buildpack


def copy_tree(source: Path, target: Path) -> None:
    """Copies a folder without devices, pipes and sockets, which nobody builds with."""

    def odd(folder: str, names: list[str]) -> list[str]:
        kinds = ((name, os.lstat(os.path.join(folder, name)).st_mode) for name in names)
        return [name for name, mode in kinds if not (stat.S_ISDIR(mode) or stat.S_ISREG(mode) or stat.S_ISLNK(mode))]

    target.parent.mkdir(parents=True, exist_ok=True)
    try:
        shutil.copytree(source, target, symlinks=True, ignore=odd)
    except (OSError, shutil.Error) as fault:
        reason = fault.args[0][0][2] if isinstance(fault, shutil.Error) else fault
        raise Failure(f"{source} can't be copied: {reason}.") from fault


def _extract(archive: Path, target: Path) -> None:
    """Unpacks files and folders into a new folder, and then links, so that no file is written through a link."""
    with tarfile.open(archive) as opened:
        members = opened.getmembers()
        for member in members:
            name = Path(member.name)
            if name.is_absolute() or ".." in name.parts:
                raise Failure(f"{archive} has {member.name!r}, which leads out of the folder that it is unpacked in.")
            if not (member.isreg() or member.isdir() or member.issym()):
                raise Failure(f"{archive} has {member.name!r}, which is neither a file, a folder nor a symbolic link.")
            member.uid, member.gid = os.getuid(), os.getgid()
            member.mode = 0o755 if member.isdir() or member.mode & 0o111 else 0o644
        opened.extractall(target, [member for member in members if not member.issym()], numeric_owner=True)
        opened.extractall(target, [member for member in members if member.issym()], numeric_owner=True)


def _unpacked(archive: Path, room: Path) -> Path:
    """The folder of a buildpack that is in an archive."""
    target = Path(tempfile.mkdtemp(dir=room))
    try:
        _extract(archive, target)
    except (OSError, tarfile.TarError) as fault:
        raise Failure(f"{archive} can't be unpacked: {fault}.") from fault
    if (target / "oci-layout").exists():
        raise Failure(f"{archive} is an image; a builder is made of {SERVED_BUILDPACKS}.")
    if (target / "buildpack.toml").is_file():
        return target
    inner = [found.parent for found in target.glob("*/buildpack.toml")]
    return inner[0] if len(inner) == 1 else target


def source_of(uri: str, base: Path, room: Path) -> Path:
    """The folder that a `uri` of a buildpack names, from the folder of the file that has it."""
    if uri.startswith(ADDRESSES) or "://" in uri.removeprefix("file://"):
        raise Failure(f"{uri} is an address; a buildpack here is {SERVED_BUILDPACKS}.")
    path = base / uri.removeprefix("file://")
    if path.is_dir():
        return path.resolve()
    if path.is_file() and path.name.endswith((".tgz", ".tar.gz", ".tar")):
        return _unpacked(path, room)
    if path.name.endswith(".cnb"):
        raise Failure(f"{uri} is an image in a file; a buildpack here is {SERVED_BUILDPACKS}.")
    raise Failure(f"{path} isn't there." if not path.exists() else f"{path} is neither {SERVED_BUILDPACKS}.")


class _Making:
    """A builder that is being made in a folder beside its place."""

    def __init__(self, home: Home, program: Program, name: str) -> None:
        self.home, self.program, self.name = home, program, checked_name(name, "builder")
        self.room = Path(tempfile.mkdtemp(prefix=".new-", dir=home.builders))
        self.folder = self.room / "builder"
        self.buildpacks = self.folder / "buildpacks"
        self.buildpacks.mkdir(parents=True)
        self.notes: list[str] = []

    def of_config(self, config: Path) -> None:
        table = read_table(config)
        self._note_ignored(table)
        for number, row in enumerate(table.get("buildpacks", ())):
            self._take(row, number, config)
        order = order_document(read_order(table, config))
        (self.folder / "order.toml").write_text(order, encoding="utf-8")
        build = table.get("build")
        if isinstance(build, dict) and "image" in build:
            self._take_root(str(build["image"]), config.parent)
        shutil.copyfile(config, self.folder / "builder.toml")

    def of_root(self, root: Path, run_images: tuple[str, ...]) -> None:
        """Of the root of a builder image, as it is."""
        order, buildpacks = root / "cnb" / "order.toml", root / "cnb" / "buildpacks"
        if not order.is_file() or not buildpacks.is_dir():
            raise Failure(f"{root} is no root of a builder image: it has no cnb/order.toml or no cnb/buildpacks.")
        for folder, _, _ in found_buildpacks(buildpacks):
            take_buildpack(folder, self.buildpacks)
        shutil.copyfile(order, self.folder / "order.toml")
        copy_tree(root, self.folder / "root")
        rows = [f"[[run.images]]\nimage = {toml_text(checked_name(name, 'run image'))}\n" for name in run_images]
        (self.folder / "builder.toml").write_text("\n".join(rows), encoding="utf-8")

    def _take(self, row: Any, number: int, config: Path) -> None:
        if not isinstance(row, dict) or not isinstance(row.get("uri"), str):
            raise Failure(f"{config}: buildpacks.{number} has no uri.", hint=f"A buildpack is {SERVED_BUILDPACKS}.")
        found = take_buildpack(source_of(row["uri"], config.parent, self.room), self.buildpacks)
        named = Buildpack(row.get("id", found.id), row.get("version", found.version))
        if named != found:
            raise Failure(f"{config}: buildpacks.{number} names {named}, and its uri has {found}.")

    def _take_root(self, image: str, base: Path) -> None:
        root = base / image
        if not root.is_dir():
            hint = "[build] image has to be the folder of a root, as debootstrap makes one."
            raise Failure(f"The build image {image} is no folder.", hint=hint)
        copy_tree(root.resolve(), self.folder / "root")

    def _note_ignored(self, table: Mapping[str, Any]) -> None:
        served = {"buildpacks": None, "order": None, "run": {"images"}, "build": {"image"}, "description": None}
        for key, value in table.items():
            inner = served.get(key, set())
            if inner is None:
                continue
            keys = value.keys() - inner if key in served and isinstance(value, dict) else {""}
            self.notes += [f"{key}.{name}".rstrip(".") for name in sorted(keys)]

    def check(self) -> None:
        """Lets the program read the order and the buildpacks: an empty record is refused only behind them."""
        record = self.room / "record"
        record.write_text("")
        words = ["check", "--order", str(self.folder / "order.toml"), "--buildpacks", str(self.buildpacks)]
        ended = self.program.run([*words, "--work", str(self.room), "--record", str(record)])
        if ended.status != 22:
            said = (ended.refusal or ended.said).replace(f"{self.folder}/", "")
            raise Failure(f"The order and the buildpacks of {self.name} are refused: {said}", status=ended.status)

    def place(self) -> None:
        """Puts it into its place, when no build uses the one that is there."""
        target = self.home.builder(self.name)
        with held(builder_lock(self.home, self.name)):
            if target.exists():
                target.rename(self.room / "before")
            self.folder.rename(target)


def builder_lock(home: Home, name: str) -> Path:
    """The lock of a builder: builds share it, and who replaces the builder has it alone."""
    return home.locks / f"builder-{checked_name(name, 'builder')}"


def create_builder(
    home: Home, program: Program, name: str, *, config: Path | None, root: Path | None, run_images: tuple[str, ...]
) -> tuple[Builder, list[str]]:
    """Makes a builder, in place of one of this name. Returns also the keys of its file that have no effect."""
    making = _Making(home, program, name)
    try:
        if config is not None:
            making.of_config(config)
        if root is not None:
            making.of_root(root.resolve(), run_images)
        making.check()
        making.place()
    finally:
        remove_tree(making.room)
    return find_builder(home, name), making.notes
