"""Why no group passed, after a detection that ended with 20 or 21."""

from collections.abc import Iterator
from pathlib import Path

from cnb.documents import Buildpack, read_analyzed, read_order, read_table
from cnb.failure import Failure
from cnb.report.answers import read_replies
from cnb.report.groups import NO_GROUPS, Reasons, numbers, runs_of
from cnb.report.orders import Catalog, Group, Order, Target
from cnb.report.records import LONGEST_RECORD, Record, refusal_lines
from cnb.report.search import outcomes

MOST_LINES = 40


def read_target(path: Path) -> Target | None:
    """The target of analyzed.toml. Without the document no target is known."""
    if not path.exists():
        return None
    found = read_analyzed(path)
    return Target(found.os, found.arch)


def read_order_file(path: Path) -> Order:
    return read_order(read_table(path), path)


def search(build: Path, catalog: Catalog) -> Record:
    """How the groups of the order in a build's folder end with its replies and its target."""
    replies, target = read_replies(build / "replies.json"), read_target(build / "analyzed.toml")
    groups = list(catalog.groups(read_order_file(build / "order.toml")))
    answers = {it: replies[it] for it in _asked(catalog, groups, target) if it in replies}
    return Record(target, answers, list(outcomes(catalog, groups, target, answers)))


def _asked(catalog: Catalog, groups: list[Group], target: Target | None) -> Iterator[Buildpack]:
    """Those that have to be asked, each where it is met first."""
    met = dict.fromkeys(member.buildpack for group in groups for member in group)
    return (it for it in met if catalog.fits(it, target))


def keep(build: Path, record: Record) -> bool:
    """Writes the record of a refusal to `refusal` in the build's folder, if it is whole and not too long."""
    if any(len(outcome.drops) < outcome.trials for outcome in record.outcomes):
        return False
    text = "".join(f"{line}\n" for line in refusal_lines(record))
    if len(text) > LONGEST_RECORD:
        return False
    (build / "refusal").write_text(text)
    return True


def why_no_group(catalog: Catalog, build: Path, record: Record) -> list[str]:
    """A line for each group, in order; groups one after another with the same reason have one line."""
    reasons = Reasons(catalog, record.target, record.answers)
    groups = catalog.groups(read_order_file(build / "order.toml"))
    runs = list(runs_of(reasons.passed_over(members, outcome) for members, outcome in zip(groups, record.outcomes)))
    if not runs:
        return [NO_GROUPS]
    lines = [str(run) for run in runs[:MOST_LINES]]
    return lines if len(runs) <= MOST_LINES else [*lines, f"and {numbers(runs[MOST_LINES].first, runs[-1].last)}"]


def explain(build: Path, buildpacks: Path) -> list[str]:
    """Keeps the record of the refusal in a build's folder, and gives the lines that say why no group passed."""
    try:
        catalog = Catalog(buildpacks)
        record = search(build, catalog)
        if any(outcome.kind == "chosen" for outcome in record.outcomes):
            raise Failure(f"{build}/replies.json: a group passes with these replies.")
        keep(build, record)
        return why_no_group(catalog, build, record)
    except Failure as fault:
        return [f"why no group passes can't be said: {fault.message}"]
