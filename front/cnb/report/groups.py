"""Why each group that was tried was passed over, in words."""

import itertools
import math
from collections import Counter
from collections.abc import Iterable, Iterator, Mapping, Sequence
from dataclasses import dataclass
from typing import Literal

from cnb.documents import Buildpack
from cnb.report.answers import Answer, Option
from cnb.report.orders import Catalog, Group, Target
from cnb.report.records import Outcome, Step, steps_in

NO_GROUPS = "the order has no groups: is it a list named order?"
DEEPEST_CAUSE = 4

State = Literal["passes", "fails", "errs", "apart", "unasked"]


@dataclass(frozen=True)
class Trial:
    """One option of each member of a group that passes, and what was dropped of it, step by step."""

    rows: Group
    options: Sequence[Option]
    steps: Sequence[Step]

    def name(self, step: Step) -> str:
        option = self.options[step.place]
        return (option.requires if step.is_required else option.provides)[step.name]

    def cause(self, at: int, depth: int = 0) -> str:
        """Why the member of a step was dropped there."""
        step, name = self.steps[at], self.name(self.steps[at])
        said = f"{self.rows[step.place].buildpack} {'requires' if step.is_required else 'provides'} {name}, which {{}}"
        others = [place for place, option in enumerate(self.options) if name in (option.provides if step.is_required else option.requires)]
        verb = "provides" if step.is_required else "requires"
        left_out = next((before for before in range(at) if self._could_meet(self.steps[before].place, step, others)), None)
        if left_out is not None:
            because = f": {self.cause(left_out, depth + 1)}" if depth < DEEPEST_CAUSE else ""
            return said.format(f"only a member that was left out {verb}{because}")
        if not others:
            return said.format(f"nobody {verb}")
        side = "behind" if step.is_required else "before"
        return said.format(f"only {self.rows[others[0]].buildpack} {side} it {verb}")

    @staticmethod
    def _could_meet(place: int, step: Step, others: Sequence[int]) -> bool:
        return place in others and (place < step.place if step.is_required else place > step.place)


class Reasons:
    """Words for how the groups of an order ended."""

    def __init__(self, catalog: Catalog, target: Target | None, answers: Mapping[Buildpack, Answer]) -> None:
        self.catalog, self.target, self.answers = catalog, target, answers

    def state(self, buildpack: Buildpack) -> State:
        if not self.catalog.fits(buildpack, self.target):
            return "apart"
        answer = self.answers.get(buildpack)
        if answer is None:
            return "unasked"
        if answer.passes:
            return "passes"
        return "fails" if answer.code == 100 else "errs"

    def reply(self, buildpack: Buildpack) -> str:
        """What a buildpack replied, or why it wasn't asked."""
        state = self.state(buildpack)
        if state == "apart":
            targets = ", ".join(map(str, self.catalog.descriptors[buildpack].targets))
            return f"isn't for {self.target} (targets: {targets})"
        if state == "unasked":
            return "wasn't asked"
        return "passed (0)" if state == "passes" else self.answers[buildpack].fault

    def rows(self, members: Group) -> Group:
        """The members that pass."""
        return tuple(member for member in members if self.state(member.buildpack) == "passes")

    def trial(self, members: Group, number: int, steps: str) -> Trial:
        """The trial of this number: the last member's option changes first."""
        rows, options = self.rows(members), list[Option]()
        for member in reversed(rows):
            choices = self.answers[member.buildpack].options
            number, place = divmod(number, len(choices))
            options.append(choices[place])
        return Trial(rows, options[::-1], steps_in(steps))

    def ending(self, members: Group, number: int, steps: str) -> str:
        """Why a trial failed: its last step, and what came before it where that is the cause."""
        trial = self.trial(members, number, steps)
        said, last = trial.cause(len(trial.steps) - 1), trial.rows[trial.steps[-1].place]
        return f"no member is left: {said}" if last.is_optional else said

    def passed_over(self, members: Group, outcome: Outcome) -> str:
        """Why a group was passed over."""
        if outcome.kind == "fails":
            buildpack = members[outcome.member].buildpack
            return f"{buildpack} {self.reply(buildpack)}"
        if outcome.kind == "idle":
            return self._idle(members)
        if not outcome.drops:
            return f"none of its {outcome.trials:,} trials passes"
        number = outcome.longest
        said, tried = self.ending(members, number, outcome.drops[number]), len(outcome.drops)
        of = f"{tried:,}" if tried == outcome.trials else f"the first {tried:,} of its {outcome.trials:,}"
        return said if outcome.trials == 1 else f"{said} (the longest of {of} trials)"

    def _idle(self, members: Group) -> str:
        if not members:
            return "it has no members"
        replies = [f"{member.buildpack} {self.reply(member.buildpack)}" for member in members]
        return f"none of its members passes: {', '.join(replies)}"

    def endings(self, members: Group, outcome: Outcome) -> list[tuple[str, int]]:
        """How often the trials of a group failed for the same last step, most frequent first."""
        rows = self.rows(members)
        options = [self.answers[member.buildpack].options for member in rows]
        strides = [math.prod(map(len, options[place + 1 :])) for place in range(len(rows))]
        found: Counter[str] = Counter()
        for (place, number, text), times in Counter(_last_steps(outcome.drops, strides, [*map(len, options)])).items():
            (step,) = steps_in(text)
            names = options[place][number].requires if step.is_required else options[place][number].provides
            found[f"{rows[place].buildpack} {'requires' if step.is_required else 'provides'} {names[step.name]}"] += times
        return found.most_common()


def _last_steps(drops: Sequence[str], strides: Sequence[int], counts: Sequence[int]) -> Iterator[tuple[int, int, str]]:
    """The last step of each trial: its place, the number of the option that is taken there, and the step's text."""
    for number, steps in enumerate(drops):
        step = steps[steps.rfind(" ") + 1 :]
        place = int(step[: step.index(":")])
        yield place, number // strides[place] % counts[place], step


@dataclass(frozen=True)
class Run:
    """Groups one after another that were passed over for one reason. They are numbered from 1."""

    first: int
    last: int
    reason: str

    def __str__(self) -> str:
        return f"{numbers(self.first, self.last)}: {self.reason}"


def numbers(first: int, last: int) -> str:
    """Groups by their numbers."""
    if first == last:
        return f"group {first:,}"
    return f"groups {first:,} {'and' if last == first + 1 else 'to'} {last:,}"


def runs_of(reasons: Iterable[str]) -> Iterator[Run]:
    for reason, numbers in itertools.groupby(enumerate(reasons, 1), key=lambda it: it[1]):
        places = [place for place, _ in numbers]
        yield Run(places[0], places[-1], reason)
