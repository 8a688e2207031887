"""One build of a farm, on the node that Slurm chose: the home of the node gets what it lacks, and `cnb build` runs in it."""

import os
import subprocess
import tempfile
import time
import tomllib
from collections.abc import Sequence
from pathlib import Path

import click

from cnb.builders import copy_tree, source_of
from cnb.documents import read_run_image
from cnb.failure import Failure
from cnb.farm_folder import JobFolder, Result, Submission, Wanted, copy_trees
from cnb.home import Home
from cnb.locks import held, held_by_machines
from cnb.oci.store import locked, replace
from cnb.program import TOP
from cnb.registry import fetch_image, publish_image

CNB = str(TOP / "front" / "bin" / "cnb")
ROWS = "rows.toml"


def bring_builder(home: Home, folder: Path, name: str, digest: str) -> str:
    """The builder as this node has it: by its name and digest, so that one that is in use is never replaced."""
    here = f"{name}-{digest[:16]}"
    if not home.builder(here).exists():
        with tempfile.TemporaryDirectory(prefix=".new-", dir=home.builders) as room:
            copy_tree(folder, Path(room, "builder"))
            Path(room, "builder").rename(home.builder(here))
    return here


def bring_run_image(home: Home, job: JobFolder, name: str) -> None:
    """A run image with its layers, if this node has another one of this name, or none."""
    document, here = job.runs / f"{name}.toml", home.run_image(name)
    text = document.read_text(encoding="utf-8")
    if here.is_file() and here.read_text(encoding="utf-8") == text:
        return
    copy_trees(job.farm / "trees", home.store / "trees", read_run_image(document).rows)
    here.parent.mkdir(exist_ok=True)
    with locked(home.store):
        for path in (document, document.with_suffix(".json")):
            if path.exists():
                replace(home.store / "runs" / path.name, path.read_text(encoding="utf-8"))


def copy_cache(source: Path, target: Path) -> None:
    """Makes a cache what another one is. Its rows come last, and then what they no longer name goes."""
    if not (source / ROWS).is_file():
        return
    text = (source / ROWS).read_text(encoding="utf-8")
    digests = {str(row["digest"]) for row in tomllib.loads(text).get("layers", [])}
    copy_trees(source / "trees", target / "trees", sorted(digests))
    replace(target / ROWS, text)
    for path in (target / "trees").iterdir():
        if path.name not in digests:
            path.unlink()


class NodeBuild:
    """A build on this node."""

    def __init__(self, job: JobFolder, number: int) -> None:
        self.job, self.number = job, number
        self.submission: Submission = job.submission()
        self.wanted: Wanted = self.submission.builds[number]
        self.node = os.environ.get("SLURMD_NODENAME") or os.uname().nodename
        os.environ["CNB_HOME"] = self.submission.home.replace("%n", self.node)
        self.home = Home.open()
        self.cache = job.farm / "caches" / self.wanted.name

    def run(self) -> int:
        """Builds the application while no other node does, and keeps how that ended."""
        self.job.forget(self.number)
        begun, reason = time.monotonic(), ""
        try:
            with held_by_machines(self.job.farm / "locks" / self.wanted.name):
                status = self.build()
        except Failure as failure:
            status, reason = failure.status, failure.message.splitlines()[0]
        except OSError as fault:
            status, reason = 2, f"{fault.filename or self.home.root}: {fault.strerror}"
        if reason:
            click.echo(reason, err=True)
        self.job.leave(self.number, Result(self.node, status, round(time.monotonic() - begun, 1), reason))
        return status

    def build(self) -> int:
        """The steps of the build. What ends one of them is a Failure, or the status of `cnb build`."""
        builder = self.bring()
        self.fetch()
        app = self.home.app(self.wanted.name)
        if self.submission.caches:
            copy_cache(self.cache, app.cache)
        with tempfile.TemporaryDirectory(prefix="source-", dir=self.home.root) as room:
            source = source_of(self.wanted.path, Path("/"), Path(room))
            status = self.cnb(["build", self.wanted.name, "--path", str(source), "--builder", builder])
        self.cnb(["why", self.wanted.name, "--output", str(self.job.page(self.wanted.name))])
        if status == 0 and self.submission.caches:
            copy_cache(app.cache, self.cache)
        if status == 0 and self.submission.registry:
            publish_image(self.home, self.wanted.name, f"{self.submission.registry}/{self.wanted.name}")
        return status

    def bring(self) -> str:
        """Gives the node's home the builder and its run images."""
        name = self.wanted.builder
        with held(self.home.locks / "farm"), self.home.lock_store(shared=True):
            for run_image in self.job.run_image_names():
                bring_run_image(self.home, self.job, run_image)
            return bring_builder(self.home, self.job.builder(name), name, self.submission.builders[name])

    def fetch(self) -> None:
        """Takes the image that another node published last, whose layers are used again. Without it all layers are built."""
        if not self.submission.registry:
            return
        try:
            fetch_image(self.home, f"{self.submission.registry}/{self.wanted.name}", self.wanted.name)
        except Failure as failure:
            click.echo(f"no image of before: {failure.message}", err=True)

    def cnb(self, words: Sequence[str]) -> int:
        """Runs a command of `cnb`, which is ended with this process by Slurm."""
        return subprocess.run([CNB, *words], stdin=subprocess.DEVNULL, check=False).returncode
