"""The application's folder: its project.toml, and the copy of it that buildpacks are given."""

import os
import shutil
import stat
from collections.abc import Callable, Iterator, Mapping
from dataclasses import dataclass
from pathlib import Path
from typing import Any

import pathspec

from cnb.documents import Variable, read_table
from cnb.failure import Failure

SCHEMA = "0.2"
KINDS: Mapping[type, str] = {str: "text", list: "list", dict: "table"}


@dataclass(frozen=True)
class GroupEntry:
    """A buildpack that project.toml names: one of the builder, or a folder (`uri`)."""

    id: str | None
    version: str | None
    uri: str | None


@dataclass(frozen=True)
class Project:
    """What project.toml asks for; `ignored` are its keys that have no effect here."""

    builder: str | None = None
    include: tuple[str, ...] = ()
    exclude: tuple[str, ...] = ()
    group: tuple[GroupEntry, ...] = ()
    env: tuple[Variable, ...] = ()
    ignored: tuple[str, ...] = ()

    def wants(self) -> Callable[[str], bool]:
        """Whether a file, by its path from the folder, belongs to the application."""
        patterns = self.include or self.exclude
        if not patterns:
            return lambda path: True
        spec = pathspec.PathSpec.from_lines("gitwildmatch", patterns)
        is_included = bool(self.include)
        return lambda path: spec.match_file(path) == is_included


# The tables of io.buildpacks, and of one of its entries, with the keys that are served. Of the table `_` all but the version
# of the schema says something to people alone.
SERVED = {"builder": str, "include": list, "exclude": list, "group": list, "build": dict}
SERVED_OF_ENTRY = {"id": str, "version": str, "uri": str}
SERVED_OF_VARIABLE = {"name": str, "value": str}


class _Reader:
    """Reads the tables of a project.toml, and collects the keys that aren't served."""

    def __init__(self, path: Path) -> None:
        self.path = path
        self.ignored: list[str] = []

    def table(self, table: Any, place: str, served: Mapping[str, type]) -> dict[str, Any]:
        """The served keys of a table, each of its kind."""
        if not isinstance(table, dict):
            raise Failure(f"{self.path}: {place} is no table.")
        found: dict[str, Any] = {}
        for key, value in table.items():
            if key not in served:
                self.ignored.append(f"{place}.{key}")
            elif not isinstance(value, served[key]):
                raise Failure(f"{self.path}: {place}.{key} has to be a {KINDS[served[key]]}.")
            else:
                found[key] = value
        return found

    def texts(self, values: list[Any], place: str) -> tuple[str, ...]:
        if not all(isinstance(value, str) for value in values):
            raise Failure(f"{self.path}: {place} has to be a list of texts.")
        return tuple(values)

    def group(self, rows: list[Any]) -> Iterator[GroupEntry]:
        for number, row in enumerate(rows):
            place = f"io.buildpacks.group.{number}"
            if isinstance(row, dict) and "script" in row:
                raise Failure(f"{self.path}: {place} is a script, which isn't served: make it a buildpack (cnb buildpack new).")
            found = self.table(row, place, SERVED_OF_ENTRY)
            if not found.get("id") and not found.get("uri"):
                raise Failure(f"{self.path}: {place} has neither an id nor a uri.")
            yield GroupEntry(found.get("id"), found.get("version"), found.get("uri"))

    def variables(self, rows: list[Any]) -> Iterator[Variable]:
        for number, row in enumerate(rows):
            found = self.table(row, f"io.buildpacks.build.env.{number}", SERVED_OF_VARIABLE)
            if len(found) < 2:
                raise Failure(f"{self.path}: io.buildpacks.build.env.{number} needs a name and a value.")
            yield Variable(found["name"], found["value"])


def read_project(folder: Path) -> Project:
    """The project.toml of a folder, or what holds without one."""
    path = folder / "project.toml"
    if not path.is_file():
        return Project()
    table, reader = read_table(path), _Reader(path)
    schema = table.get("_", {}).get("schema-version") if isinstance(table.get("_", {}), dict) else None
    if schema != SCHEMA:
        found = f"schema-version {schema!r} in its table _" if schema is not None else "no schema-version in a table _"
        raise Failure(f"{path} has {found}; {SCHEMA!r} is read.", hint=f'Begin it with:\n[_]\nschema-version = "{SCHEMA}"')
    outer = reader.table(table, "", {"_": dict, "io": dict})
    reader.ignored = [key.removeprefix(".") for key in reader.ignored]
    inner = reader.table(outer.get("io", {}), "io", {"buildpacks": dict})
    asked = reader.table(inner.get("buildpacks", {}), "io.buildpacks", SERVED)
    built = reader.table(asked.get("build", {}), "io.buildpacks.build", {"env": list})
    if asked.get("include") and asked.get("exclude"):
        raise Failure(f"{path} has both io.buildpacks.include and io.buildpacks.exclude: one of them has to go.")
    return Project(
        asked.get("builder") or None,
        reader.texts(asked.get("include", []), "io.buildpacks.include"),
        reader.texts(asked.get("exclude", []), "io.buildpacks.exclude"),
        tuple(reader.group(asked.get("group", []))),
        tuple(reader.variables(built.get("env", []))),
        tuple(reader.ignored),
    )


def copy_application(source: Path, target: Path, wants: Callable[[str], bool]) -> list[str]:
    """Copies what is wanted of the application: files, folders and links, with their modes and times. Returns what can't be
    in an image, as pipes and sockets, which is left out."""
    if target.is_relative_to(source.resolve()):
        raise Failure(
            f"{source} has the home of cnb in it.", hint="Name a folder inside by --path, or another home by CNB_HOME."
        )
    left_out: list[str] = []

    def stopped(fault: OSError) -> None:
        raise fault

    target.mkdir()
    try:
        for folder, folders, files in os.walk(source, onerror=stopped):
            inner = os.path.relpath(folder, source)
            for name in [*folders, *files]:
                path = os.path.normpath(os.path.join(inner, name))
                if not _copy(Path(folder, name), path, target, wants):
                    left_out.append(path)
    except PermissionError as fault:
        reason = f"{fault.filename or source} can't be copied: {fault.strerror}."
        raise Failure(reason, hint="Who builds has to be able to read the application.") from fault
    return left_out


def _copy(found: Path, path: str, target: Path, wants: Callable[[str], bool]) -> bool:
    """Copies one file, link or folder, if it is wanted; false if it is something else."""
    mode = os.lstat(found).st_mode
    copy = target / path
    if stat.S_ISDIR(mode):
        if wants(f"{path}/"):
            copy.mkdir(parents=True)
            copy.chmod(stat.S_IMODE(mode) | stat.S_IRWXU)
        return True
    if not (stat.S_ISREG(mode) or stat.S_ISLNK(mode)):
        return False
    if wants(path):
        copy.parent.mkdir(parents=True, exist_ok=True)
        shutil.copy2(found, copy, follow_symlinks=False)
    return True
