"""`cnb farm`: many builds on many machines, as an array of Slurm jobs. Slurm schedules, ends and repeats them."""

import os
import secrets
import shlex
import subprocess
import time
from collections import Counter
from collections.abc import Iterator, Sequence
from dataclasses import dataclass
from pathlib import Path
from typing import NoReturn

import click

from cnb.builders import find_builder
from cnb.failure import Failure
from cnb.farm_folder import JobFolder, Result, Submission, folder_digest, read_list
from cnb.farm_node import CNB, NodeBuild
from cnb.home import Home
from cnb.oci.store import replace
from cnb.words import FILE, Command, Group

LINES_SAID = 20
farm_folder = click.option(
    "--folder", metavar="DIR", required=True, envvar="CNB_FARM", type=click.Path(path_type=Path),
    help="The folder that all nodes share, also named by CNB_FARM.",
)


@click.group(cls=Group, example="cnb farm submit list.txt --folder /shared/farm --home /var/lib/cnb --builder sample")
def farm() -> None:
    """Build many applications on the nodes of a Slurm cluster."""


def slurm(words: Sequence[str], text: str = "") -> str:
    """What a command of Slurm prints."""
    try:
        ended = subprocess.run(words, input=text, capture_output=True, text=True, check=False)
    except FileNotFoundError as fault:
        raise Failure(f"{words[0]} isn't on this machine.", hint="On Debian: apt install slurm-client") from fault
    if ended.returncode != 0:
        raise Failure(f"{words[0]} refused: {ended.stderr.strip() or ended.stdout.strip()}")
    return ended.stdout


def others(nodes: str) -> list[str]:
    """The words that keep jobs off all nodes but those that are named."""
    wanted = set(slurm(["scontrol", "show", "hostnames", nodes]).split())
    known = set(slurm(["sinfo", "-h", "-N", "-o", "%N"]).split())
    if wanted - known:
        raise Failure(f"Slurm has no node {min(wanted - known)}.", hint=f"It has: {', '.join(sorted(known))}")
    return [f"--exclude={','.join(sorted(known - wanted))}"] if known - wanted else []


def job_script(job: JobFolder) -> str:
    """The script of each job of the array. It takes no more of the submitter's environment than PATH."""
    return f'#!/bin/sh\nexec {shlex.quote(CNB)} farm build {shlex.quote(str(job.root))} "$SLURM_ARRAY_TASK_ID"\n'


@farm.command("submit", cls=Command, example="cnb farm submit list.txt --folder /shared/farm --home /var/lib/cnb --nodes 'node[1-4]'")
@click.argument("listed", metavar="LIST", type=FILE)
@farm_folder
@click.option("--home", metavar="DIR", required=True, help="The home of cnb on each node's own disk; %n is the node's name.")
@click.option("--nodes", metavar="NODES", help="The nodes to build on, as Slurm writes them: one,two or node[1-4]. All, if left out.")
@click.option("-B", "--builder", metavar="NAME", help="The builder of the lines that name none.")
@click.option("--registry", metavar="PREFIX", help="Push each image to PREFIX/NAME, and begin with the one that is there.")
@click.option("--minutes", type=click.IntRange(1), default=60, show_default=True, help="How long a build may take.")
@click.option("--no-caches", is_flag=True, help="Keep no caches of applications in the shared folder.")
def submit(
    listed: Path, folder: Path, home: str, nodes: str | None, builder: str | None, registry: str | None, minutes: int, no_caches: bool
) -> None:
    """Submit a build for each line of LIST: NAME PATH [BUILDER].

    PATH is a folder that the nodes share, or an archive of one as `git archive` makes it. The builders are those of this home;
    each node gets them, and their run images, once."""
    here = Home.open()
    builds = read_list(listed, builder)
    builders = [find_builder(here, name) for name in sorted({row.builder for row in builds})]
    run_images = sorted({name for it in builders for name in it.run_images if here.run_image(name).is_file()})
    digests = {it.name: folder_digest(it.folder) for it in builders}
    root = folder.resolve() / "jobs" / f"{time.strftime('%Y%m%d-%H%M%S')}-{secrets.token_hex(2)}"
    job = JobFolder(root)
    job.fill(here, Submission(home, registry, not no_caches, digests, builds), run_images)
    words = [
        "sbatch", "--parsable", "--job-name=cnb", "--ntasks=1", f"--array=0-{len(builds) - 1}", f"--time={minutes}", "--requeue",
        f"--output={job.root}/said/%a", "--open-mode=truncate", f"--chdir={job.root}", f"--export={handed_on()}",
        *(others(nodes) if nodes else []),
    ]
    number = slurm(words, job_script(job)).split(";")[0].strip()
    replace(job.root / "slurm", number + "\n")
    click.echo(f"{len(builds)} builds are job {number} of Slurm: cnb farm status --folder {folder}")


def handed_on() -> str:
    """The variables that jobs are given: where programs are, and which program and launcher this is, where that is set."""
    names = [name for name in ("PATH", "LIFECYCLE", "CNB_LAUNCHER") if name in os.environ]
    return ",".join(f"{name}={os.environ[name]}" for name in names)


@farm.command("build", cls=Command, hidden=True, example="cnb farm build /shared/farm/jobs/20261202-120000-1f3a 0")
@click.argument("job", type=click.Path(path_type=Path))
@click.argument("number", type=int)
def build(job: Path, number: int) -> NoReturn:
    """Do one build of a submission on this node. Slurm calls this."""
    raise SystemExit(NodeBuild(JobFolder(job), number).run())


@dataclass(frozen=True)
class State:
    """How far a build is: in Slurm's words while it is in the queue, and by its own result once it ended."""

    name: str
    word: str
    node: str
    result: Result | None


def newest(folder: Path) -> JobFolder:
    """The last submission of a farm."""
    found = sorted((folder.resolve() / "jobs").glob("*/slurm"))
    if not found:
        raise Failure(f"Nothing was submitted in {folder}.", hint="cnb farm submit LIST submits builds.")
    return JobFolder(found[-1].parent)


def queued(number: str) -> dict[int, tuple[str, str]]:
    """Slurm's state and node of each job of an array: those in the queue or just ended, and those that its accounting knows."""
    try:
        rows = slurm(["sacct", "-n", "-P", "-X", "-j", number, "-o", "JobID,State,NodeList"]).splitlines()
    except Failure:  # a cluster without accounting
        rows = []
    found = {}
    for row in rows:
        task, state, node = row.split("|")
        if task.partition("_")[2].isdigit():
            found[int(task.partition("_")[2])] = (state.split()[0], node)
    try:
        rows = slurm(["squeue", "-h", "-r", "--states=all", "-j", number, "-o", "%K|%T|%N"]).splitlines()
    except Failure:  # Slurm has forgotten the job
        rows = []
    for row in rows:
        task, state, node = row.split("|")
        found[int(task)] = (state, node)
    return found


def states(job: JobFolder) -> Iterator[State]:
    """The state of each build, in the order of the list."""
    of_slurm = queued((job.root / "slurm").read_text(encoding="utf-8").strip())
    for number, wanted in enumerate(job.submission().builds):
        word, node = of_slurm.get(number, ("UNKNOWN", ""))
        result = job.result(number)
        if result is not None and word not in ("PENDING", "RUNNING"):
            word, node = "built" if result.status == 0 else f"ended with {result.status}", result.node
        yield State(wanted.name, word.lower(), node, result)


@farm.command("status", cls=Command, example="cnb farm status --folder /shared/farm")
@farm_folder
def status(folder: Path) -> None:
    """Show how far the builds of the last submission are."""
    found = list(states(newest(folder)))
    for state in found:
        took = f"{state.result.seconds:.1f} s" if state.result else ""
        click.echo(f"{state.name:<24} {state.word:<16} {state.node:<12} {took}".rstrip())
    counts = Counter(state.word for state in found)
    click.echo(", ".join(f"{count} {word}" for word, count in sorted(counts.items())))


@farm.command("why", cls=Command, example="cnb farm why shop --folder /shared/farm")
@click.argument("name", metavar="NAME")
@farm_folder
def why(name: str, folder: Path) -> None:
    """Show how the last build of NAME ended, and what it printed last."""
    job = newest(folder)
    for number, state in enumerate(states(job)):
        if state.name == name:
            break
    else:
        raise Failure(f"The last submission has no {name}.", hint="cnb farm status lists what it has.")
    click.echo(f"{name}: {state.word}" + (f", on {state.node}" if state.node else ""))
    if state.result and state.result.reason:
        click.echo(state.result.reason)
    said = job.said(number)
    if said.is_file():
        click.echo("\n".join(said.read_text(encoding="utf-8", errors="replace").splitlines()[-LINES_SAID:]))
    if job.page(name).is_file():
        click.echo(f"The report: {job.page(name)}")
