"""What a build begins with: the words of the caller and of project.toml, made into folders that the program takes."""

import hashlib
import os
import re
import shutil
import tempfile
from collections.abc import Callable, Iterable, Iterator, Mapping
from dataclasses import dataclass
from pathlib import Path

from cnb.builders import ID, VERSION, Builder, default_builder, find_builder, found_buildpacks, source_of, take_buildpack
from cnb.documents import Buildpack, OrderEntry, order_document
from cnb.failure import Failure
from cnb.home import NAME, AppFolder, Home, emptied, remove_tree
from cnb.program import Program
from cnb.project import Project, copy_application, read_project

NAMED = re.compile(f"(?P<id>{ID.pattern})(@(?P<version>{VERSION.pattern}))?")


@dataclass(frozen=True)
class Options:
    """The words of `cnb build`."""

    name: str
    path: Path
    builder: str | None = None
    variables: Mapping[str, str] | None = None
    buildpacks: tuple[str, ...] = ()
    run_image: str | None = None
    workers: int | None = None
    network: bool = False
    clear_cache: bool = False


@dataclass(frozen=True)
class Inputs:
    builder: Builder
    run_image: str
    order: Path
    buildpacks: Path

    def listed(self) -> list[Buildpack]:
        """The buildpacks that may be asked: those that have a program for it."""
        rows = found_buildpacks(self.buildpacks)
        return [buildpack for _, buildpack, table in rows if "order" not in table]


def find_inputs(home: Home, options: Options, note: Callable[[str], None]) -> Inputs:
    """Finds the builder and the run image, and fills the application's folders. `note` says what a person should know."""
    if not options.path.is_dir():
        raise Failure(f"{options.path} is no folder.", hint="--path names the application's folder.")
    project = read_project(options.path)
    for key in project.ignored:
        note(f"project.toml: {key} has no effect")
    wanted = options.builder or project.builder
    builder = find_builder(home, wanted) if wanted else default_builder(home)
    run_image = _run_image(home, builder, options.run_image)
    app = home.app(options.name)
    order, buildpacks = _order(app, builder, options, project)
    variables = {variable.name: variable.value for variable in project.env} | dict(options.variables or {})
    _write_variables(emptied(app.platform) / "env", variables)
    remove_tree(app.workspace)
    for path in copy_application(options.path, app.workspace, project.wants()):
        note(f"left out of the application, since it is no file, folder or link: {path}")
    return Inputs(builder, run_image, order, buildpacks)


def _run_image(home: Home, builder: Builder, named: str | None) -> str:
    """The run image that is named, or the first of the builder's that is here."""
    names = (named,) if named else builder.run_images
    for name in names:
        if NAME.fullmatch(name) and home.run_image(name).is_file():
            return name
    if not names:
        known = ", ".join(home.run_image_names()) or "none so far"
        raise Failure(f"The builder {builder.name} names no run image.", hint=f"Name one by --run-image ({known}).")
    hint = f"Make it of a root folder: cnb run-image add {names[0]} --root DIR"
    if NAME.fullmatch(names[0]) is None:
        hint = "Load it, make it a run image by cnb run-image add NAME --oci LAYOUT, and name it by --run-image NAME."
    raise Failure(f"There is no run image {names[0]}.", hint=hint)


def _order(app: AppFolder, builder: Builder, options: Options, project: Project) -> tuple[Path, Path]:
    """The order and the folder of buildpacks: the builder's, or those of the group that the caller or project.toml names."""
    words: Iterable[tuple[str, Path]] = ((word, Path.cwd()) for word in options.buildpacks)
    if not options.buildpacks:
        words = ((_word(entry.id, entry.version, entry.uri), options.path) for entry in project.group)
    named = list(words)
    if not named:
        return builder.order, builder.buildpacks
    buildpacks = app.build / "buildpacks"
    shutil.copytree(builder.buildpacks, buildpacks, symlinks=True, copy_function=_linked)
    with tempfile.TemporaryDirectory(dir=app.root) as room:
        group = [_entry(word, base, buildpacks, Path(room)) for word, base in named]
    order = app.build / "order.toml"
    order.write_text(order_document([group]), encoding="utf-8")
    return order, buildpacks


def _word(id: str | None, version: str | None, uri: str | None) -> str:
    """A buildpack of project.toml in the words of --buildpack."""
    if uri:
        return uri
    return f"{id}@{version}" if version else str(id)


def _entry(word: str, base: Path, buildpacks: Path, room: Path) -> OrderEntry:
    """The entry of an order for a buildpack: a folder, which is taken among the others, or an id with a version."""
    found = NAMED.fullmatch(word)
    is_path = (base / word).exists() or word.startswith((".", "/")) or found is None
    if not is_path and found is not None:
        return OrderEntry(found["id"], found["version"])
    source = source_of(word, base, room)
    buildpack = take_buildpack(source, buildpacks, replace=True)
    return OrderEntry(buildpack.id, buildpack.version)


def _linked(source: str, target: str) -> None:
    """A copy that takes no room, where the file system allows it."""
    try:
        os.link(source, target, follow_symlinks=False)
    except OSError:
        shutil.copy2(source, target, follow_symlinks=False)


def _write_variables(folder: Path, variables: Mapping[str, str]) -> None:
    folder.mkdir()
    for name, value in variables.items():
        if not name or name in (".", "..") or any(letter in name for letter in "/=\0") or "\0" in value:
            raise Failure(f"{name!r} can't be the name of a variable for buildpacks.")
        (folder / name).write_bytes(os.fsencode(value))


def launcher_folder(home: Home, program: Program) -> Path:
    """A folder with the launcher, which is put into images: the program itself, or what CNB_LAUNCHER names, as one that was
    built for an older C library. It stays as long as the store's lock is held."""
    source = Path(os.environ.get("CNB_LAUNCHER") or program.path)
    try:
        contents = source.read_bytes()
    except OSError as fault:
        raise Failure(f"The launcher {source} can't be read: {fault.strerror}.") from fault
    folder = home.root / "launchers" / hashlib.sha256(contents).hexdigest()
    if folder.is_dir():
        return folder
    folder.parent.mkdir(exist_ok=True)
    room = Path(tempfile.mkdtemp(prefix=".new-", dir=folder.parent))
    (room / "launcher").write_bytes(contents)
    (room / "launcher").chmod(0o755)
    try:
        room.rename(folder)
    except OSError:  # another build was faster
        remove_tree(room)
    return folder


def variables_of(words: Iterable[str], files: Iterable[Path], environment: Mapping[str, str]) -> dict[str, str]:
    """The variables of --env-file and --env: `NAME=VALUE`, or `NAME` for the value that the caller has."""
    lines = [line for file in files for line in _lines_of(file)]
    found = {}
    for word in [*lines, *words]:
        name, has_value, value = word.partition("=")
        found[name] = value if has_value else environment.get(name, "")
    return found


def _lines_of(file: Path) -> Iterator[str]:
    try:
        text = file.read_text(encoding="utf-8")
    except OSError as fault:
        raise Failure(f"{file} can't be read: {fault.strerror}.") from fault
    except UnicodeDecodeError as fault:
        raise Failure(f"{file} is no text in UTF-8.") from fault
    return (line.strip() for line in text.splitlines() if line.strip() and not line.startswith("#"))
