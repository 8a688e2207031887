"""What is kept of a build in the application's folder, for `cnb why`."""

import json
import shutil
import time
from collections.abc import Iterator
from contextlib import contextmanager
from dataclasses import asdict, dataclass, field
from datetime import UTC, datetime
from pathlib import Path

from cnb.documents import read_record
from cnb.home import AppFolder, emptied

DOCUMENTS = ("analyzed.toml", "group.toml", "plan.toml")

# The exit codes of detect children that the program says in other words.
CODES = {"pass": 0, "fail": 100, "error, its plan can't be read": 0}


@dataclass
class Phase:
    name: str
    seconds: float = 0.0
    status: int = 0
    printed: list[str] = field(default_factory=list)


@dataclass
class BuiltBuildpack:
    id: str
    version: str
    seconds: float


@dataclass
class Reply:
    """What a buildpack replied in a detection: pass, fail or error, its exit code if that is known, and its Build Plan."""

    id: str
    version: str
    reply: str
    code: int | None
    plan: str


def _rounded(seconds: float) -> float:
    return round(seconds, 3)


class BuildFolder:
    """Emptied as a build begins. `leave` writes build.json, whether the build is done or was refused."""

    def __init__(self, app: AppFolder, *, image: str, path: Path) -> None:
        self.path = emptied(app.build)
        self._work = app.work
        self._began = time.monotonic()
        self._started = datetime.now(UTC).isoformat(timespec="seconds")
        self._image, self._source = image, str(path)
        self.builder = self.run_image = ""
        self.phases: list[Phase] = []
        self.buildpacks: list[BuiltBuildpack] = []
        self.replies: dict[str, Reply] = {}
        self.status = 0
        self.refusal: str | None = None

    def log(self, phase: str) -> Path:
        """Where standard error of a phase goes: detect.log, build.log, export.log, ..."""
        names = {"ANALYZING": "analyze", "DETECTING": "detect", "RESTORING": "restore", "BUILDING": "build"}
        return self.path / f"{names.get(phase, 'export')}.log"

    @contextmanager
    def phase(self, name: str) -> Iterator[Phase]:
        """A phase, with its time."""
        phase, began = Phase(name), time.monotonic()
        self.phases.append(phase)
        try:
            yield phase
        finally:
            phase.seconds = _rounded(time.monotonic() - began)

    def reply(self, name: str, end: str) -> None:
        """Notes how the detect child of `name`, as id@version, ended, in the program's words."""
        id, _, version = name.partition("@")
        code = end.rpartition("exit code ")[2]
        number = int(code) if code != end else CODES.get(end)
        self.replies[name] = Reply(id, version, end if end in ("pass", "fail") else "error", number, "")

    def built(self, id: str, version: str, seconds: float) -> None:
        self.buildpacks.append(BuiltBuildpack(id, version, _rounded(seconds)))

    def keep(self, source: Path, name: str | None = None) -> None:
        """Copies a document, where it is there."""
        target = self.path / (name or source.name)
        if source != target and source.is_file() and not source.is_symlink():
            shutil.copyfile(source, target)

    def keep_descriptors(self, buildpacks: Path) -> None:
        """Copies each buildpack.toml, so that the build can be explained when its builder is another one or gone."""
        for source in buildpacks.glob("*/*/buildpack.toml"):
            target = self.path / "buildpacks" / source.relative_to(buildpacks)
            if source != target and source.is_file() and not source.is_symlink():
                target.parent.mkdir(parents=True, exist_ok=True)
                shutil.copyfile(source, target)

    def summary(self) -> dict[str, object]:
        """The contents of build.json."""
        return {
            "version": 1,
            "image": self._image,
            "path": self._source,
            "builder": self.builder,
            "run_image": self.run_image,
            "started": self._started,
            "seconds": _rounded(time.monotonic() - self._began),
            "phases": [asdict(phase) for phase in self.phases],
            "buildpacks": [asdict(buildpack) for buildpack in self.buildpacks],
            "status": self.status,
            "refusal": self.refusal,
        }

    def leave(self) -> None:
        for name in DOCUMENTS:
            self.keep(self._work / name)
        self.keep(self._work / "record")
        self._leave_replies()
        made = self.path / "build.json.new"
        made.write_text(json.dumps(self.summary(), indent=1), encoding="utf-8")
        made.rename(self.path / "build.json")

    def _leave_replies(self) -> None:
        """The replies of the record, or without one those that the program said, with the plans that children left."""
        record = self._work / "record"
        replies = self._recorded(record) if record.is_file() else self._said()
        (self.path / "replies.json").write_text(json.dumps([asdict(reply) for reply in replies], indent=1), encoding="utf-8")

    def _recorded(self, record: Path) -> list[Reply]:
        replies: list[Reply] = []
        for answer in read_record(record).answers:
            said = self.replies.get(str(answer.buildpack))
            by_code = "error" if answer.code is None else {0: "pass", 100: "fail"}.get(answer.code, "error")
            word = by_code if said is None else said.reply
            replies.append(Reply(answer.buildpack.id, answer.buildpack.version, word, answer.code, answer.plan))
        return replies

    def _said(self) -> list[Reply]:
        for name, reply in self.replies.items():
            plan = self._work / "detect" / f"{name.replace('/', '_')}.toml"
            if plan.is_file() and not plan.is_symlink():
                reply.plan = plan.read_bytes().decode(errors="surrogateescape")
        return list(self.replies.values())
