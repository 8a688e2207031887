"""What `cnb build` keeps of a build: its times, its end, and what was printed."""

import json
from collections.abc import Mapping, Sequence
from dataclasses import dataclass
from pathlib import Path
from typing import Any

from cnb.documents import Buildpack
from cnb.failure import Failure

BEGINS = "===> "
BUILDING = "building "
# More lines than explain a refusal.
MOST_EXPLANATIONS = 50


@dataclass(frozen=True)
class Phase:
    name: str
    seconds: float
    status: int
    printed: Sequence[str]


@dataclass(frozen=True)
class Part:
    """What was printed while one buildpack was built, and how long that took if it is known."""

    name: str
    text: str
    seconds: float | None


@dataclass(frozen=True)
class Build:
    """A build: its folder, its names, how long it took, and how it ended."""

    folder: Path
    image: str
    path: str
    builder: str
    run_image: str
    started: str
    seconds: float
    phases: Sequence[Phase]
    built: Mapping[str, float]
    status: int
    refusal: str | None

    @property
    def ended_in(self) -> Phase | None:
        """The phase that ended it early."""
        return next((phase for phase in self.phases if phase.status != 0), None)

    def log(self, name: str) -> str:
        """What buildpacks and the program said in a phase; nothing if it was never reached. Results aren't in it.

        A build without a sandbox has one log, of all phases."""
        whole = self._read("build")
        if not whole.startswith(BEGINS):
            return self._without_results(self._read(name))
        whole = self._without_results(whole)
        detecting, _, rest = whole.partition(f"{BEGINS}DETECTING\n")[2].partition(f"{BEGINS}RESTORING\n")
        building, mark, exporting = rest.partition(f"{BEGINS}BUILDING\n")[2].rpartition(f"{BEGINS}EXPORTING\n")
        return {"detect": detecting, "build": building if mark else exporting, "export": exporting if mark else ""}[name]

    def _without_results(self, text: str) -> str:
        """A log without the results of its phase. What explains a refusal may stand behind them, and what a buildpack printed
        without an end of line in front of the first."""
        for phase in self.phases:
            text = without_results(text, phase.printed)
        return text

    def _read(self, name: str) -> str:
        path = self.folder / f"{name}.log"
        return path.read_text("utf-8", errors="replace") if path.is_file() else ""

    def printed(self, phase: str) -> list[str]:
        return [line for it in self.phases if it.name == phase for line in it.printed]

    def parts(self, group: Sequence[Buildpack]) -> list[Part]:
        """What each buildpack of the group printed while it was built. They are built one after another."""
        found: list[tuple[str, list[str]]] = []
        for line in self.log("build").splitlines(keepends=True):
            begins = f"{BUILDING}{group[len(found)]}\n" if len(found) < len(group) else ""
            is_begun = bool(begins) and line.endswith(begins)
            before = line.removesuffix(begins)
            if found and before:
                found[-1][1].append(before)
            if is_begun:
                found.append((str(group[len(found)]), []))
        return [Part(name, "".join(lines), self.built.get(name)) for name, lines in found]


def without_results(text: str, results: Sequence[str]) -> str:
    lines, left = text.splitlines(keepends=True), list(results)
    for at in reversed(range(len(lines))[-len(results) - MOST_EXPLANATIONS :]):
        if left and lines[at].endswith(f"{left[-1]}\n"):
            before = lines[at].removesuffix(f"{left.pop()}\n")
            lines[at] = f"{before}\n" if before else ""
    return text if left else "".join(lines)


def read_build(folder: Path) -> Build:
    """The build that a folder was kept of."""
    path = folder / "build.json"
    try:
        return _build_in(folder, json.loads(path.read_text("utf-8")))
    except OSError as fault:
        raise Failure(f"{path} can't be read: {fault.strerror}.") from fault
    except (ValueError, KeyError, TypeError) as fault:
        raise Failure(f"{path} doesn't say how a build ended: {fault!r}.") from fault


def _build_in(folder: Path, found: Mapping[str, Any]) -> Build:
    phases = [Phase(it["name"], float(it["seconds"]), int(it["status"]), tuple(it["printed"])) for it in found["phases"]]
    built = {str(Buildpack(it["id"], it["version"])): float(it["seconds"]) for it in found["buildpacks"]}
    image, path, builder, run_image, started = (str(found[it] or "") for it in ("image", "path", "builder", "run_image", "started"))
    seconds, status = float(found["seconds"]), int(found["status"])
    return Build(folder, image, path, builder, run_image, started, seconds, phases, built, status, found["refusal"])
