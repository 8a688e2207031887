"""The documents that `lifecycle` writes (docs/FORMATS.md), read; and those that it is given, written."""

import json
import tomllib
from collections.abc import Iterable, Mapping, Sequence
from dataclasses import dataclass
from pathlib import Path
from typing import Any

from cnb.failure import Failure


def read_table(path: Path) -> dict[str, Any]:
    """A TOML document."""
    try:
        with path.open("rb") as document:
            return tomllib.load(document)
    except OSError as fault:
        raise Failure(f"{path} can't be read: {fault.strerror}.") from fault
    except (tomllib.TOMLDecodeError, UnicodeDecodeError) as fault:
        raise Failure(f"{path} is no TOML document: {fault}.") from fault


@dataclass(frozen=True)
class Variable:
    name: str
    value: str


@dataclass(frozen=True)
class Buildpack:
    id: str
    version: str

    def __str__(self) -> str:
        return f"{self.id}@{self.version}"

    @property
    def folder(self) -> str:
        """Its folder in a folder of buildpacks."""
        return f"{self.id.replace('/', '_')}/{self.version}"


@dataclass(frozen=True)
class Row:
    """A row of an image: `role` is run, layer, app, launcher or process."""

    role: str
    place: str
    digest: str
    by: str


@dataclass(frozen=True)
class Process:
    type: str
    command: tuple[str, ...]
    args: tuple[str, ...]
    default: bool
    working_dir: str | None


@dataclass(frozen=True)
class KeptLayer:
    """What an image keeps of a layer for the next build."""

    id: str
    layer: str
    digest: str
    launch: bool
    build: bool
    cache: bool
    metadata: Mapping[str, Any]


@dataclass(frozen=True)
class Image:
    entrypoint: str
    run_image: str
    os: str
    arch: str
    top: str
    rows: tuple[Row, ...]
    buildpacks: tuple[Buildpack, ...]
    processes: tuple[Process, ...]
    default: str | None
    env: tuple[Variable, ...]
    labels: tuple[tuple[str, str], ...]
    layers: tuple[KeptLayer, ...]


@dataclass(frozen=True)
class RunImage:
    os: str
    arch: str
    rows: tuple[str, ...]
    env: tuple[Variable, ...]


@dataclass(frozen=True)
class Analyzed:
    run: str
    os: str
    arch: str
    previous: str | None


@dataclass(frozen=True)
class PlanEntry:
    """An entry of plan.toml: who provides a name, and what is required under it."""

    name: str
    providers: tuple[Buildpack, ...]
    requires: tuple[Mapping[str, Any], ...]


@dataclass(frozen=True)
class Answer:
    """What a buildpack replied in a detection: its exit code, if it had one, and the text of its Build Plan, in which bytes
    that are no UTF-8 are escapes of Python (surrogates)."""

    buildpack: Buildpack
    code: int | None
    plan: str


@dataclass(frozen=True)
class Record:
    """A record of a detection: its target (os and arch), the replies, and the lines of its groups."""

    target: tuple[str, str] | None
    answers: tuple[Answer, ...]
    lines: tuple[str, ...]


def _buildpacks(rows: Iterable[Mapping[str, Any]]) -> tuple[Buildpack, ...]:
    return tuple(Buildpack(row["id"], row["version"]) for row in rows)


def _variables(rows: Iterable[Mapping[str, Any]]) -> tuple[Variable, ...]:
    return tuple(Variable(row["name"], row["value"]) for row in rows)


def _process(row: Mapping[str, Any]) -> Process:
    return Process(
        row["type"], tuple(row["command"]), tuple(row.get("args", ())), row.get("default", False), row.get("working-dir")
    )


def _kept_layer(row: Mapping[str, Any]) -> KeptLayer:
    types = (row.get("launch", False), row.get("build", False), row.get("cache", False))
    return KeptLayer(row["id"], row["layer"], row["digest"], *types, row.get("metadata", {}))


def read_image(path: Path) -> Image:
    """An image's document, of version 2."""
    table = read_table(path)
    try:
        base, launch = table["base"], table["launch"]
        rows = tuple(Row(row["role"], row["place"], row["digest"], row.get("by", "")) for row in table["rows"])
        return Image(
            table["entrypoint"],
            base["name"],
            base["os"],
            base["arch"],
            base["top"],
            rows,
            _buildpacks(launch.get("buildpacks", ())),
            tuple(map(_process, launch.get("processes", ()))),
            launch.get("default"),
            _variables(table.get("env", ())),
            tuple((label["key"], label["value"]) for label in table.get("labels", ())),
            tuple(map(_kept_layer, table.get("layers", ()))),
        )
    except (KeyError, TypeError) as fault:
        raise Failure(f"{path} is no image's document: {fault}.") from fault


def read_run_image(path: Path) -> RunImage:
    table = read_table(path)
    try:
        return RunImage(table["os"], table["arch"], tuple(table["rows"]), _variables(table.get("env", ())))
    except (KeyError, TypeError) as fault:
        raise Failure(f"{path} is no run image's document: {fault}.") from fault


def read_analyzed(path: Path) -> Analyzed:
    table = read_table(path)
    try:
        return Analyzed(table["run"], table["os"], table["arch"], table.get("previous"))
    except KeyError as fault:
        raise Failure(f"{path} lacks {fault}.") from fault


def read_group(path: Path) -> tuple[Buildpack, ...]:
    """The buildpacks of group.toml, in order."""
    try:
        return _buildpacks(read_table(path).get("group", ()))
    except (KeyError, TypeError) as fault:
        raise Failure(f"{path} is no group: {fault}.") from fault


def read_plan(path: Path) -> tuple[PlanEntry, ...]:
    """The entries of plan.toml, in order."""
    try:
        return tuple(
            PlanEntry(
                entry["requires"][0]["name"],
                _buildpacks(entry.get("providers", ())),
                tuple(required.get("metadata", {}) for required in entry["requires"]),
            )
            for entry in read_table(path).get("entries", ())
        )
    except (KeyError, IndexError, TypeError) as fault:
        raise Failure(f"{path} is no plan: {fault}.") from fault


def _answer(line: str) -> Answer:
    _, id, version, code, plan = line.split(" ")
    text = "" if plan == "-" else bytes.fromhex(plan).decode(errors="surrogateescape")
    return Answer(Buildpack(id, version), None if code == "none" else int(code), text)


def read_record(path: Path) -> Record:
    """A record as `lifecycle detect --record` leaves it. Whether it is right, `lifecycle check` says."""
    try:
        lines = path.read_text(encoding="utf-8").splitlines()
        target = tuple(lines[1].split(" ")[1:])
        answers = tuple(_answer(line) for line in lines[2:] if line.startswith("answer "))
    except OSError as fault:
        raise Failure(f"{path} can't be read: {fault.strerror}.") from fault
    except (ValueError, IndexError) as fault:
        raise Failure(f"{path} is no record of a detection.") from fault
    rest = tuple(line for line in lines[2:] if not line.startswith("answer "))
    return Record((target[0], target[1]) if len(target) == 2 else None, answers, rest)


@dataclass(frozen=True)
class OrderEntry:
    """An entry of a group in an order; without a version it means the one buildpack of its id."""

    id: str
    version: str | None = None
    optional: bool = False


def toml_text(value: str) -> str:
    """A text as a TOML document has it."""
    return json.dumps(value, ensure_ascii=False).replace("\x7f", "\\u007f")


def order_document(groups: Sequence[Sequence[OrderEntry]]) -> str:
    """The text of an order file."""
    lines: list[str] = []
    for group in groups:
        lines.append("[[order]]")
        for entry in group:
            lines += ["", "[[order.group]]", f"id = {toml_text(entry.id)}"]
            if entry.version is not None:
                lines.append(f"version = {toml_text(entry.version)}")
            if entry.optional:
                lines.append("optional = true")
        lines.append("")
    return "\n".join(lines)


def read_order(table: Mapping[str, Any], path: Path) -> list[list[OrderEntry]]:
    """The groups of an order, as an order file and a builder's file have them."""
    try:
        return [
            [OrderEntry(row["id"], row.get("version") or None, row.get("optional", False)) for row in group["group"]]
            for group in table.get("order", ())
        ]
    except (KeyError, TypeError, AttributeError) as fault:
        raise Failure(f"{path}: the order isn't a list of groups with an id for each entry ({fault}).") from fault
