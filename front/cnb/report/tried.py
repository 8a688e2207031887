"""The groups of an order as a page shows them: their members, why each was passed over, and the plan of the chosen one."""

import itertools
from collections.abc import Iterable, Iterator, Sequence
from dataclasses import dataclass
from typing import Literal

from cnb.report.groups import Reasons, Run, Trial, numbers, runs_of
from cnb.report.orders import Catalog, Group, Order
from cnb.report.records import Outcome, Record
from cnb.report.text import cut

Verdict = Literal["passed over", "chosen", "not tried"]

LONGEST_NAME = 80
LONGEST_REASON = 400


@dataclass(frozen=True)
class Limits:
    """How much of a build is shown. Half of each is shown where the page would be too large."""

    cards: int = 120
    groups: int = 12
    members: int = 24
    trials: int = 16
    lines: int = 4_096
    reason: int = 160
    log: int = 60_000
    rows: int = 300

    def halved(self) -> "Limits":
        return Limits(*(max(number // 2, 1) for number in vars(self).values()))


@dataclass(frozen=True)
class Chip:
    """A member of a group: what it replied, or what became of it."""

    name: str
    is_optional: bool
    state: str
    words: str


@dataclass(frozen=True)
class Card:
    """Groups one after another with one reason, numbered from 1. `groups` has the first of them, `hidden` counts the others."""

    first: int
    last: int
    verdict: Verdict
    reason: str
    groups: Sequence[Sequence[Chip]]
    hidden: int
    trials: Sequence[str]
    endings: Sequence[tuple[str, int]]
    trial_count: int

    @property
    def numbers(self) -> str:
        return numbers(self.first, self.last).capitalize()


@dataclass(frozen=True)
class PlanMember:
    name: str
    provides: Sequence[str]
    requires: Sequence[str]


@dataclass(frozen=True)
class Groups:
    """All groups of an order. `lines` has those that no card shows, a line each."""

    listed: int
    tried: int
    chosen: int | None
    cards: Sequence[Card]
    lines: Sequence[str]
    plan: Sequence[PlanMember]


class Viewer:
    """Makes the groups of an order, as a record says how they ended, fit for a page."""

    def __init__(self, catalog: Catalog, order: Order, record: Record, limits: Limits) -> None:
        self.listed = list(catalog.groups(order))
        self.record, self.limits = record, limits
        self.reasons = Reasons(catalog, record.target, record.answers)

    def view(self) -> Groups:
        tried = list(zip(self.listed, self.record.outcomes))
        is_chosen = bool(tried) and tried[-1][1].kind == "chosen"
        passed_over = tried[:-1] if is_chosen else tried
        runs = list(runs_of(self.reasons.passed_over(members, outcome) for members, outcome in passed_over))
        shown, hidden = self._shown(runs)
        cards = [self._passed_over(run) for run in shown]
        plan: Sequence[PlanMember] = ()
        if is_chosen:
            trial = self._chosen_trial(*tried[-1])
            cards.append(self._chosen(len(tried), trial))
            plan = _plan_of(trial)
        if len(self.listed) > len(tried):
            cards.append(self._not_tried(len(tried) + 1))
        lines = [cut(str(run), self.limits.reason) for run in hidden[: self.limits.lines]]
        return Groups(len(self.listed), len(tried), len(tried) if is_chosen else None, cards, lines, plan)

    def _shown(self, runs: Sequence[Run]) -> tuple[Sequence[Run], Sequence[Run]]:
        """Those that have a card, which are the first and the last, and the others between."""
        if len(runs) <= self.limits.cards:
            return runs, ()
        first = self.limits.cards - self.limits.cards // 4
        last = len(runs) - self.limits.cards // 4
        return [*runs[:first], *runs[last:]], runs[first:last]

    def _chips(self, members: Group) -> list[Chip]:
        found = [self._chip(member.is_optional, str(member.buildpack), *self._reply(members, at)) for at, member in enumerate(members)]
        return self._shortened(found)

    def _reply(self, members: Group, at: int) -> tuple[str, str]:
        return self.reasons.state(members[at].buildpack), self.reasons.reply(members[at].buildpack)

    def _chip(self, is_optional: bool, name: str, state: str, words: str) -> Chip:
        return Chip(cut(name, LONGEST_NAME), is_optional, state, cut(words, LONGEST_REASON))

    def _shortened(self, chips: list[Chip]) -> list[Chip]:
        most = self.limits.members
        if len(chips) <= most:
            return chips
        return [*chips[:most], Chip(f"and {len(chips) - most:,} more", False, "more", "")]

    def _passed_over(self, run: Run) -> Card:
        groups = self.listed[run.first - 1 : run.last]
        outcome = self.record.outcomes[run.first - 1]
        trials, endings = self._trials(groups[0], outcome)
        shown = [self._chips(members) for members in groups[: self.limits.groups]]
        reason = cut(run.reason, LONGEST_REASON)
        return Card(run.first, run.last, "passed over", reason, shown, len(groups) - len(shown), trials, endings, len(outcome.drops))

    def _trials(self, members: Group, outcome: Outcome) -> tuple[list[str], list[tuple[str, int]]]:
        """The first trials of a group that has several, each with why it failed; and how often they failed for what."""
        if len(outcome.drops) < 2:
            return [], []
        first = itertools.islice(enumerate(outcome.drops), self.limits.trials)
        trials = [f"trial {number + 1:,}: {cut(self.reasons.ending(members, number, steps), LONGEST_REASON)}" for number, steps in first]
        if len(trials) == len(outcome.drops):
            return trials, []
        endings = self.reasons.endings(members, outcome)[: self.limits.trials]
        return trials, [(cut(words, LONGEST_REASON), times) for words, times in endings]

    def _chosen_trial(self, members: Group, outcome: Outcome) -> Trial:
        return self.reasons.trial(members, len(outcome.drops), outcome.kept)

    def _chosen(self, number: int, trial: Trial) -> Card:
        members, outcome = self.listed[number - 1], self.record.outcomes[number - 1]
        left_out = {str(trial.rows[step.place].buildpack): trial.cause(at) for at, step in enumerate(trial.steps)}
        chips = []
        for at, member in enumerate(members):
            name = str(member.buildpack)
            state, words = self._reply(members, at)
            if name in left_out:
                state, words = "left", f"was left out, since it {left_out[name].removeprefix(f'{name} ')}"
            chips.append(self._chip(member.is_optional, name, state, words))
        of = f" (trial {len(outcome.drops) + 1:,} of {outcome.trials:,})" if outcome.trials > 1 else ""
        words = "; ".join(f"{it.name} {it.words}" for it in chips if it.state != "passes")
        reason = f"The first group that passes{of}." + (f" Without: {words}." if words else "")
        trials, endings = self._trials(members, outcome)
        tried = len(outcome.drops)
        return Card(number, number, "chosen", cut(reason, 2 * LONGEST_REASON), [self._shortened(chips)], 0, trials, endings, tried)

    def _not_tried(self, first: int) -> Card:
        groups = self.listed[first - 1 :]
        shown = [self._chips(members) for members in groups[: self.limits.groups]]
        return Card(first, len(self.listed), "not tried", "A group before passed.", shown, len(groups) - len(shown), [], [], 0)


def _plan_of(trial: Trial) -> list[PlanMember]:
    """The members that are kept, with what the options that were taken provide and require."""
    dropped = {step.place for step in trial.steps}
    kept = [place for place in range(len(trial.rows)) if place not in dropped]
    return [
        PlanMember(str(trial.rows[it].buildpack), _once(trial.options[it].provides), _once(trial.options[it].requires)) for it in kept
    ]


def _once(names: Iterable[str]) -> list[str]:
    return list(dict.fromkeys(names))


def edges(plan: Sequence[PlanMember]) -> Iterator[tuple[int, int, str]]:
    """Who provides a name to whom: both places in the plan. A provider serves itself and those behind it."""
    for place, member in enumerate(plan):
        for name in member.provides:
            for other in range(place, len(plan)):
                if name in plan[other].requires:
                    yield place, other, name
