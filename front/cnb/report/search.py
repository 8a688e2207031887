"""How each group of an order ends with the replies of a detection, where no record says it."""

import itertools
import math
from collections.abc import Iterable, Iterator, Mapping, Sequence
from dataclasses import dataclass

from cnb.documents import Buildpack
from cnb.failure import Failure
from cnb.report.answers import Answer, Option
from cnb.report.orders import Catalog, Group, Target
from cnb.report.records import Outcome

# All groups together may have as many trials as the largest group times this; the others aren't tried.
MOST_TRIALS = 4 * 65_536


@dataclass(frozen=True)
class Coded:
    """An option whose names are bits."""

    provides: Sequence[int]
    requires: Sequence[int]
    all_provided: int
    all_required: int


class Codes:
    """A bit for each name that options have."""

    def __init__(self) -> None:
        self.bits: dict[str, int] = {}

    def coded(self, option: Option) -> Coded:
        provides, requires = self._bits_of(option.provides), self._bits_of(option.requires)
        return Coded(provides, requires, _joined(provides), _joined(requires))

    def _bits_of(self, names: Iterable[str]) -> list[int]:
        return [self.bits.setdefault(name, 1 << len(self.bits)) for name in names]


def _joined(bits: Iterable[int]) -> int:
    joined = 0
    for bit in bits:
        joined |= bit
    return joined


def outcomes(catalog: Catalog, groups: Iterable[Group], target: Target | None, answers: Mapping[Buildpack, Answer]) -> Iterator[Outcome]:
    """How each group ends. Of one with more trials than are left to try, `drops` has the first of them alone."""
    room = MOST_TRIALS
    for members in groups:
        passing = [is_passing(catalog, member.buildpack, target, answers) for member in members]
        failed = [at for at, member in enumerate(members) if not member.is_optional and not passing[at]]
        if failed:
            yield Outcome("fails", member=failed[0])
            continue
        rows = [member for member, passes in zip(members, passing) if passes]
        if not rows:
            yield Outcome("idle")
            continue
        options = [answers[member.buildpack].options for member in rows]
        outcome = _tried(options, [not member.is_optional for member in rows], room)
        yield outcome
        if outcome.kind == "chosen":
            return
        room -= len(outcome.drops)


def is_passing(catalog: Catalog, buildpack: Buildpack, target: Target | None, answers: Mapping[Buildpack, Answer]) -> bool:
    if not catalog.fits(buildpack, target):
        return False
    if buildpack not in answers:
        raise Failure(f"The build kept no reply of {buildpack}.")
    return answers[buildpack].passes


def _tried(options: Sequence[Sequence[Option]], required: Sequence[bool], room: int) -> Outcome:
    codes = Codes()
    coded = [[codes.coded(option) for option in row] for row in options]
    drops: list[str] = []
    count = math.prod(map(len, coded))
    for trial in itertools.islice(itertools.product(*coded), room):
        steps, is_kept = _steps(trial, required)
        if is_kept:
            return Outcome("chosen", trials=count, drops=tuple(drops), kept=steps)
        drops.append(steps)
    return Outcome("trials", trials=count, drops=tuple(drops))


def _steps(trial: Sequence[Coded], required: Sequence[bool]) -> tuple[str, bool]:
    """The steps of a trial, and whether it passes."""
    left = list(range(len(trial)))
    steps: list[str] = []
    while left:
        found = _first_unmet(trial, left)
        if not found:
            return " ".join(steps), True
        place, step = found
        steps.append(step)
        if required[place]:
            break
        left.remove(place)
    return " ".join(steps), False


def _first_unmet(trial: Sequence[Coded], left: Sequence[int]) -> tuple[int, str] | None:
    """The first place that is left with a name that is unmet."""
    behind, wanted = [0] * len(left), 0
    for at in range(len(left) - 1, -1, -1):
        wanted |= trial[left[at]].all_required
        behind[at] = wanted
    provided = 0
    for place, wanted in zip(left, behind):
        option = trial[place]
        provided |= option.all_provided
        if option.all_required & ~provided:
            return place, f"{place}:r:{_first_outside(option.requires, provided)}"
        if option.all_provided & ~wanted:
            return place, f"{place}:v:{_first_outside(option.provides, wanted)}"
    return None


def _first_outside(bits: Sequence[int], met: int) -> int:
    return next(at for at, bit in enumerate(bits) if not bit & met)
