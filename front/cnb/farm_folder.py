"""The shared folder of a farm: what is to be built, what the builds are made of, and how each ended.

    FOLDER/jobs/ID/             one submission
        job.json                its builds, in order, and how they are built
        builders/NAME/          the builders that it names, as they were
        runs/NAME.toml          their run images
        said/N, ended/N.json, pages/NAME.html    what build N printed, how it ended, and its report
    FOLDER/trees/DIGEST         the layers of the run images
    FOLDER/caches/NAME          the cache of an application, for whichever node builds it next
    FOLDER/locks/NAME           held by the node that builds the application: a file, which can be locked over NFS too
"""

import hashlib
import json
import os
import shlex
import shutil
from collections.abc import Iterable
from dataclasses import asdict, dataclass
from pathlib import Path

from cnb.documents import read_run_image
from cnb.failure import Failure
from cnb.home import NAME, Home, checked_name
from cnb.oci.store import replace


@dataclass(frozen=True)
class Wanted:
    """A line of a list: an application, its folder or an archive of it, and its builder."""

    name: str
    path: str
    builder: str


@dataclass(frozen=True)
class Submission:
    """What all builds of a submission have in common, and the builds."""

    home: str
    """The home of each node, with %n for its name."""
    registry: str | None
    caches: bool
    builders: dict[str, str]
    """The digest of each builder."""
    builds: list[Wanted]


@dataclass(frozen=True)
class Result:
    """How a build ended."""

    node: str
    status: int
    seconds: float
    reason: str


def read_list(path: Path, builder: str | None) -> list[Wanted]:
    """The builds that a list asks for. Paths are relative to its folder."""
    found: dict[str, Wanted] = {}
    for number, line in enumerate(path.read_text(encoding="utf-8").splitlines(), 1):
        words = shlex.split(line, comments=True)
        if not words:
            continue
        named = words[2] if len(words) == 3 else builder
        if len(words) not in (2, 3) or named is None:
            raise Failure(f"{path}, line {number}: it has to be NAME PATH BUILDER, or NAME PATH with --builder.")
        source = (path.parent / words[1]).resolve()
        if not source.exists():
            raise Failure(f"{path}, line {number}: there is no {source}.")
        if found.setdefault(checked_name(words[0]), wanted := Wanted(words[0], str(source), named)) is not wanted:
            raise Failure(f"{path}, line {number}: {words[0]} is there twice.")
    if not found:
        raise Failure(f"{path} names no application.", hint="A line is: NAME PATH BUILDER")
    return list(found.values())


def folder_digest(folder: Path) -> str:
    """A digest of the names, modes and contents below a folder."""
    whole = hashlib.sha256()
    for path in sorted(folder.rglob("*")):
        state = path.lstat()
        whole.update(f"{path.relative_to(folder)}\0{state.st_mode:o}\0".encode())
        if path.is_symlink():
            whole.update(os.readlink(path).encode())
        elif path.is_file():
            whole.update(hashlib.sha256(path.read_bytes()).digest())
    return whole.hexdigest()


def copy_trees(source: Path, target: Path, digests: Iterable[str]) -> None:
    """Copies trees that aren't there yet from folder to folder. Each has its own SHA-256 for a name, which is compared."""
    target.mkdir(parents=True, exist_ok=True)
    for digest in digests:
        place = target / digest
        if place.exists():
            continue
        # A name of this process's own: the same tree may be on its way from elsewhere.
        part = target / f"{digest}.{os.uname().nodename}-{os.getpid()}"
        try:
            shutil.copyfile(source / digest, part)
            with open(part, "rb") as copied:
                if hashlib.file_digest(copied, "sha256").hexdigest() != digest:
                    raise Failure(f"{source / digest} is damaged: its contents have another digest.")
            part.rename(place)
        finally:
            part.unlink(missing_ok=True)


class JobFolder:
    """The folder of a submission."""

    def __init__(self, root: Path) -> None:
        self.root = root
        self.farm = root.parent.parent
        self.runs = root / "runs"

    def builder(self, name: str) -> Path:
        return self.root / "builders" / name

    def said(self, number: int) -> Path:
        return self.root / "said" / str(number)

    def page(self, name: str) -> Path:
        return self.root / "pages" / f"{name}.html"

    def submission(self) -> Submission:
        """What was submitted."""
        try:
            table = json.loads((self.root / "job.json").read_bytes())
            builds = [Wanted(**row) for row in table.pop("builds")]
            return Submission(builds=builds, **table)
        except (OSError, ValueError, KeyError, TypeError) as fault:
            raise Failure(f"{self.root} is no folder of a submission.", hint="cnb farm submit makes one.") from fault

    def result(self, number: int) -> Result | None:
        """How a build ended, if it has ended by itself."""
        try:
            return Result(**json.loads((self.root / "ended" / f"{number}.json").read_bytes()))
        except FileNotFoundError:
            return None

    def leave(self, number: int, result: Result) -> None:
        """Keeps how a build ended."""
        replace(self.root / "ended" / f"{number}.json", json.dumps(asdict(result)) + "\n")

    def forget(self, number: int) -> None:
        """Removes what is kept of a run of this build before."""
        (self.root / "ended" / f"{number}.json").unlink(missing_ok=True)

    def fill(self, home: Home, submission: Submission, run_images: Iterable[str]) -> None:
        """Writes what the nodes need."""
        for name in ("builders", "runs", "said", "ended", "pages"):
            (self.root / name).mkdir(parents=True)
        for name in ("caches", "locks"):
            (self.farm / name).mkdir(exist_ok=True)
        for name in submission.builders:
            shutil.copytree(home.builder(name), self.builder(name), symlinks=True)
        for name in run_images:
            document = home.run_image(name)
            copy_trees(home.store / "trees", self.farm / "trees", read_run_image(document).rows)
            for path in (document, document.with_suffix(".json")):
                if path.exists():
                    shutil.copyfile(path, self.runs / path.name)
        replace(self.root / "job.json", json.dumps(asdict(submission), indent=1) + "\n")

    def run_image_names(self) -> list[str]:
        return sorted(path.stem for path in self.runs.glob("*.toml") if NAME.fullmatch(path.stem))
