"""What buildpacks replied when they were asked: exit codes and Build Plans."""

import json
import tomllib
from collections.abc import Iterable, Mapping, Sequence
from dataclasses import dataclass
from pathlib import Path
from typing import Any

from cnb.documents import Buildpack
from cnb.failure import Failure

LONGEST_PLAN = 1_048_576
DEEPEST_METADATA = 32


@dataclass(frozen=True)
class Option:
    """What a Build Plan, or one of its alternatives, provides and requires."""

    provides: tuple[str, ...]
    requires: tuple[str, ...]


@dataclass(frozen=True)
class Answer:
    """The exit code of a buildpack's bin/detect, none if it had none, and the bytes of its Build Plan."""

    buildpack: Buildpack
    code: int | None
    plan: bytes
    options: tuple[Option, ...]

    @property
    def passes(self) -> bool:
        return bool(self.options)

    @property
    def fault(self) -> str:
        """Why it doesn't pass, in words."""
        if self.code is None:
            return "erred: no exit code of it is known"
        if self.code == 0:
            return "erred: its Build Plan can't be read"
        return f"failed ({self.code})" if self.code == 100 else f"erred ({self.code})"


def answer_of(buildpack: Buildpack, code: int | None, plan: str) -> Answer:
    """Bytes of a plan that are no UTF-8 are escapes in its text, by which they are found again."""
    written = plan.encode("utf-8", "surrogateescape")
    return Answer(buildpack, code, written, options_of(written) if code == 0 else ())


def options_of(plan: bytes) -> tuple[Option, ...]:
    """The options of a Build Plan: its top level and each alternative. There are none if it can't be read."""
    if len(plan) > LONGEST_PLAN:
        return ()
    try:
        table = tomllib.loads(plan.decode())
        alternatives = table.get("or", [])
        return tuple(_option(it) for it in (table, *_tables(alternatives)))
    except ValueError:
        return ()


def _tables(found: Any) -> Sequence[Mapping[str, Any]]:
    if not isinstance(found, list) or not all(isinstance(it, dict) for it in found):
        raise ValueError("it is no list of tables")
    return found


def _option(table: Mapping[str, Any]) -> Option:
    provides, requires = _tables(table.get("provides", [])), _tables(table.get("requires", []))
    for it in requires:
        if not _is_kept(it.get("metadata", {}), 0) or not isinstance(it.get("metadata", {}), dict):
            raise ValueError("metadata has a kind that isn't kept")
    return Option(_names(provides), _names(requires))


def _names(rows: Iterable[Mapping[str, Any]]) -> tuple[str, ...]:
    names = [it.get("name") for it in rows]
    texts = tuple(name for name in names if isinstance(name, str))
    if len(texts) != len(names):
        raise ValueError("a row has no name")
    return texts


def _is_kept(value: Any, depth: int) -> bool:
    """Whether metadata can be kept: it has no float and no date, and is not too deep."""
    if isinstance(value, dict):
        value = list(value.values())
    if isinstance(value, list):
        return depth <= DEEPEST_METADATA and all(_is_kept(it, depth + 1) for it in value)
    return depth <= DEEPEST_METADATA and isinstance(value, (str, int))


def read_replies(path: Path) -> dict[Buildpack, Answer]:
    """The replies that a build keeps (replies.json), by buildpack."""
    try:
        rows = json.loads(path.read_text("utf-8"))
        found = [answer_of(Buildpack(it["id"], it["version"]), it["code"], it["plan"]) for it in rows]
    except OSError as error:
        raise Failure(f"{path} can't be read: {error.strerror}.") from error
    except (ValueError, KeyError, TypeError) as error:
        raise Failure(f"{path} has no replies of a detection: {error!r}.") from error
    return {answer.buildpack: answer for answer in found}
