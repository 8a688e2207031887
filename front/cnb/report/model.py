"""All that the page of a build shows, read from the folder that `cnb build` kept of it."""

import json
from collections.abc import Iterable, Sequence
from dataclasses import dataclass, replace
from functools import cached_property
from pathlib import Path

from cnb.documents import Image, PlanEntry, read_group, read_image, read_plan
from cnb.failure import Failure
from cnb.home import Home
from cnb.report.advice import Advice, advice_for
from cnb.report.answers import Answer
from cnb.report.build import Build, Part, read_build
from cnb.report.groups import NO_GROUPS
from cnb.report.layers import Stack, stack_of
from cnb.report.orders import Catalog
from cnb.report.picture import Picture, plan_picture, stack_picture
from cnb.report.records import Record, read_record
from cnb.report.refusal import read_order_file, read_target, search
from cnb.report.text import count, cut, duration, last_part, size
from cnb.report.tried import Groups, Limits, PlanMember, Viewer

NO_GROUP = (20, 21)
MOST_PICTURED = 40
NARROWEST_BAR = 0.4


@dataclass(frozen=True)
class Bar:
    """How long something took: where its bar begins, and how wide it is, in hundredths of the whole."""

    name: str
    is_part: bool
    begin: float
    width: float
    seconds: float


@dataclass(frozen=True)
class Entry:
    """A name of the plan: who provides it, who requires it, and with which metadata."""

    name: str
    providers: Sequence[str]
    requirers: Sequence[str]
    metadata: Sequence[str]


@dataclass(frozen=True)
class Reply:
    name: str
    words: str
    passes: bool
    options: Sequence[str]


@dataclass(frozen=True)
class Ending:
    """Why a build failed: the words of the refusal, what they mean, and what was printed last."""

    words: str
    phase: str
    advice: Advice | None
    last: str


@dataclass(frozen=True)
class Report:
    build: Build
    headline: str
    started: str
    target: str
    ending: Ending | None
    groups: Groups | None
    no_groups: str
    replies: Sequence[Reply]
    entries: Sequence[Entry]
    plan: Picture | None
    bars: Sequence[Bar]
    asked: str
    parts: Sequence[Part]
    exported: str
    image: Image | None
    stack: Stack
    rows: Picture | None


class Reader:
    """Reads the folder of a build. What isn't there, because the build ended before it or it was removed since, is left out."""

    def __init__(self, folder: Path, home: Home, limits: Limits) -> None:
        self.folder, self.home, self.limits = folder, home, limits
        self.build = read_build(folder)

    def report(self) -> Report:
        group = read_group(self.folder / "group.toml") if self._has("group.toml") else ()
        target = read_target(self.folder / "analyzed.toml")
        record, groups, no_groups = self._groups()
        image = self._image("image.toml")
        stack = stack_of(image, self._image("image-before.toml"), self.home, self.build.printed("EXPORTING"))
        parts = [replace(it, text=last_part(it.text, self.limits.log)) for it in self.build.parts(group)]
        members = groups.plan if groups else ()
        has_rows = 0 < max(len(stack.now), len(stack.before))
        return Report(
            self.build,
            self._headline(image, stack),
            self.build.started.replace("T", " ").replace("+00:00", " UTC"),
            str(target) if target else "not known",
            self._ending(parts),
            groups,
            no_groups,
            self._replies(record),
            self._entries(members),
            plan_picture(members) if members else None,
            bars_of(self.build),
            self._log("detect"),
            parts,
            self._log("export"),
            image,
            replace(stack, now=stack.now[-self.limits.rows :], before=stack.before[-self.limits.rows :]),
            stack_picture(stack, MOST_PICTURED) if has_rows else None,
        )

    def _has(self, name: str) -> bool:
        return (self.folder / name).is_file()

    def _log(self, name: str) -> str:
        return last_part(self.build.log(name), self.limits.log)

    def _image(self, name: str) -> Image | None:
        return read_image(self.folder / name) if self._has(name) else None

    @cached_property
    def _catalog(self) -> Catalog:
        """The buildpacks as the build kept them, or else as the builder has them now."""
        kept = self.folder / "buildpacks"
        return Catalog(kept if kept.is_dir() else self.home.builder(self.build.builder) / "buildpacks")

    def _groups(self) -> tuple[Record | None, Groups | None, str]:
        """The record, the groups that it tells of, or else why there are none."""
        if not self._has("order.toml") or not self._record_name():
            return None, None, "The build ended before any group was tried."
        try:
            record, order = self._record(), read_order_file(self.folder / "order.toml")
            groups = Viewer(self._catalog, order, record, self.limits).view()
        except Failure as fault:
            return None, None, f"The groups can't be shown: {fault.message}"
        except (IndexError, KeyError):
            return None, None, "The groups can't be shown: the builder was changed after the build."
        return record, groups, "" if groups.listed else f"{NO_GROUPS[0].upper()}{NO_GROUPS[1:]}"

    def _record_name(self) -> str:
        """What the build kept that says how its groups ended: nothing if it ended before."""
        phases = [phase for phase in self.build.phases if phase.name == "DETECTING"]
        is_decided = bool(phases) and phases[0].status in (0, *NO_GROUP)
        return next((name for name in ("record", "refusal", "replies.json") if is_decided and self._has(name)), "")

    def _record(self) -> Record:
        name = self._record_name()
        if name == "replies.json":
            return search(self.folder, self._catalog)
        return read_record(self.folder / name)

    def _headline(self, image: Image | None, stack: Stack) -> str:
        took = duration(self.build.seconds)
        if image is None or self.build.status != 0:
            phase = self.build.ended_in
            return f"Ended {f'while {phase.name.lower()} ' if phase else ''}after {took}. No image was made."
        before = f"{stack.new:,} of them not in the image before" if stack.before else "no image before"
        return f"Built in {took}: {count(len(stack.now), 'layer')}, {before}, {size(stack.size)}."

    def _ending(self, parts: Sequence[Part]) -> Ending | None:
        if self.build.status == 0:
            return None
        phase = self.build.ended_in
        words = self.build.refusal or f"ended with status {self.build.status}"
        log = {"DETECTING": "detect", "BUILDING": "build", "EXPORTING": "export"}.get(phase.name if phase else "", "")
        text = parts[-1].text if log == "build" and parts else self.build.log(log) if log else ""
        last = "" if self.build.status in NO_GROUP else last_part(text, 2_000)
        return Ending(cut(words, 2_000), phase.name if phase else "", advice_for(words), last)

    def _replies(self, record: Record | None) -> list[Reply]:
        answers = list(record.answers.values()) if record else []
        return [_reply(answer) for answer in answers[: self.limits.rows]]

    def _entries(self, members: Sequence[PlanMember]) -> list[Entry]:
        found = read_plan(self.folder / "plan.toml") if self._has("plan.toml") else ()
        return [_entry(entry, members) for entry in found[: self.limits.rows]]


def _reply(answer: Answer) -> Reply:
    options = []
    for option in answer.options[:8]:
        provides, requires = (", ".join(dict.fromkeys(names)) for names in (option.provides, option.requires))
        options.append(cut(f"provides {provides or 'nothing'}, requires {requires or 'nothing'}", 300))
    hidden = len(answer.options) - len(options)
    words = "passed (0)" if answer.passes else answer.fault
    return Reply(str(answer.buildpack), words, answer.passes, [*options, *([f"and {hidden:,} more"] if hidden else [])])


def _entry(entry: PlanEntry, members: Sequence[PlanMember]) -> Entry:
    metadata = [cut(json.dumps(it, ensure_ascii=False), 300) for it in entry.requires if it]
    requirers = [member.name for member in members if entry.name in member.requires]
    return Entry(cut(entry.name, 100), _first(map(str, entry.providers)), _first(requirers), _first(metadata))


def _first(items: Iterable[str]) -> list[str]:
    found = list(items)
    return found if len(found) <= 8 else [*found[:8], f"and {len(found) - 8:,} more"]


def bars_of(build: Build) -> list[Bar]:
    """A bar for each phase, one after another, and below `BUILDING` one for each buildpack."""
    whole = max(build.seconds, sum(phase.seconds for phase in build.phases), 0.001)
    bars, begin = list[Bar](), 0.0

    def bar(name: str, is_part: bool, begin: float, seconds: float) -> Bar:
        width = max(100 * seconds / whole, NARROWEST_BAR)
        return Bar(name, is_part, round(min(100 * begin / whole, 100 - width), 2), round(width, 2), seconds)

    for phase in build.phases:
        bars.append(bar(phase.name.lower(), False, begin, phase.seconds))
        if phase.name == "BUILDING":
            inside = begin
            for name, seconds in build.built.items():
                bars.append(bar(name, True, inside, seconds))
                inside += seconds
        begin += phase.seconds
    return bars
