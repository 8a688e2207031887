"""Records of detections and of refusals (docs/FORMATS.md): how each group that was tried ended.

What is read here isn't checked line by line: `lifecycle check` and samples/check-record do that.
"""

import re
from collections.abc import Iterator, Mapping, Sequence
from dataclasses import dataclass
from pathlib import Path
from typing import Literal

from cnb import documents
from cnb.documents import Buildpack
from cnb.failure import Failure
from cnb.report.answers import Answer, answer_of
from cnb.report.orders import Target

LONGEST_RECORD = 16_777_216
REFUSAL = "cnb-refusal 1"

Kind = Literal["fails", "idle", "trials", "chosen"]


@dataclass(frozen=True)
class Step:
    """A member of a trial that is dropped: its place among those that pass, and which of its names is unmet."""

    place: int
    is_required: bool
    name: int


@dataclass(frozen=True)
class Outcome:
    """How a group ended. `drops` has the steps of each trial that failed, as a record spells them."""

    kind: Kind
    member: int = 0
    trials: int = 0
    drops: tuple[str, ...] = ()
    kept: str = ""

    @property
    def longest(self) -> int:
        """The number of the trial that took most steps to fail; of several the one that got furthest in the group."""
        return max(range(len(self.drops)), key=lambda number: (self.drops[number].count(" "), _last_place(self.drops[number]), -number))


def _last_place(steps: str) -> int:
    return int(steps.rpartition(" ")[2].partition(":")[0])


@dataclass(frozen=True)
class Record:
    """What decided a detection: the target, the replies of all that were asked, and how each group ended."""

    target: Target | None
    answers: Mapping[Buildpack, Answer]
    outcomes: Sequence[Outcome]


def steps_in(text: str) -> list[Step]:
    parts = [it.split(":") for it in text.split()]
    return [Step(int(place), side == "r", int(name)) for place, side, name in parts]


def read_record(path: Path) -> Record:
    """The record of a detection, or of a refusal."""
    found = documents.read_record(path)
    try:
        answers = [answer_of(it.buildpack, it.code, it.plan) for it in found.answers]
        outcomes = list(_outcomes_in(found.lines))
    except (ValueError, IndexError) as fault:
        raise Failure(f"{path} is no record: {fault}.", hint="`lifecycle check` names the line that is wrong.") from fault
    return Record(Target(*found.target) if found.target else None, {it.buildpack: it for it in answers}, outcomes)


def _outcomes_in(lines: Sequence[str]) -> Iterator[Outcome]:
    at = 0
    while at < len(lines) and lines[at] != "none":
        kind, _, number = lines[at].partition(" ")
        at += 1
        end = at
        while end < len(lines) and lines[end].startswith("drop "):
            end += 1
        drops, at = tuple(line.removeprefix("drop ") for line in lines[at:end]), end
        if kind == "chosen":
            yield Outcome("chosen", trials=int(number), drops=drops, kept=re.sub("^keep ?", "", lines[at]))
            return
        yield _failed(kind, number, drops)


def _failed(kind: str, number: str, drops: tuple[str, ...]) -> Outcome:
    if kind == "fails":
        return Outcome("fails", member=int(number))
    if kind == "idle":
        return Outcome("idle")
    if kind == "trials" and len(drops) == int(number):
        return Outcome("trials", trials=int(number), drops=drops)
    raise ValueError(f"{kind} {number}".strip() + " is no line of a group")


def refusal_lines(record: Record) -> Iterator[str]:
    """The lines of the record of a refusal."""
    yield REFUSAL
    yield f"target {record.target.os} {record.target.arch}" if record.target else "target none"
    for answer in record.answers.values():
        code = "none" if answer.code is None else str(answer.code)
        yield f"answer {answer.buildpack.id} {answer.buildpack.version} {code} {answer.plan.hex() or '-'}"
    for outcome in record.outcomes:
        yield from _group_lines(outcome)
    yield "none"


def _group_lines(outcome: Outcome) -> Iterator[str]:
    if outcome.kind == "fails":
        yield f"fails {outcome.member}"
        return
    yield "idle" if outcome.kind == "idle" else f"trials {outcome.trials}"
    for steps in outcome.drops:
        yield f"drop {steps}"
