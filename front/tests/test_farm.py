"""Builds by a farm: lists, the shared folder, a build on a node, and the commands over Slurm's own, which are played here."""

import errno
import hashlib
import json
import os
from pathlib import Path

import pytest
from click.testing import CliRunner

from tests.front_home import Front, write_buildpack, write_program

from cnb.failure import Failure
from cnb.farm import farm
from cnb.farm_folder import JobFolder, Result, Submission, Wanted, copy_trees, folder_digest, read_list
from cnb.farm_node import NodeBuild, copy_cache
from cnb.home import Home

LAYER = 'mkdir "$1/tools"; echo made > "$1/tools/made"; printf "[types]\\ncache = true\\n" > "$1/tools.toml"'


@pytest.fixture
def listed(tmp_path: Path, source: Path) -> Path:
    """A list of two applications."""
    path = tmp_path / "list"
    path.write_text("# name path builder\nshop source\nblog 'source' other  # the other one\n\n")
    return path


@pytest.fixture
def here(front: Front, tmp_path: Path, monkeypatch: pytest.MonkeyPatch) -> Home:
    """The home that builds are submitted from, with the builder `layers`."""
    front.builder("layers", write_buildpack(tmp_path / "written", "test/layers", build=LAYER))
    for name, value in front.environment.items():
        monkeypatch.setenv(name, value)
    return Home.open()


def submitted(home: Home, root: Path, builds: list[Wanted]) -> JobFolder:
    job = JobFolder(root / "farm" / "jobs" / "one")
    digests = {"layers": folder_digest(home.builder("layers"))}
    job.fill(home, Submission(str(root / "%n"), None, True, digests, builds), ["tools"])
    return job


def test_a_list_names_applications(listed: Path, source: Path) -> None:
    assert read_list(listed, "sample") == [Wanted("shop", str(source), "sample"), Wanted("blog", str(source), "other")]


@pytest.mark.parametrize(
    ("text", "said"),
    [
        ("shop", "line 1: it has to be"),
        ("shop source", "line 1: it has to be"),
        ("shop source a b", "line 1: it has to be"),
        ("\nshop nowhere a", "line 2: there is no"),
        ("shop source a\nshop source b", "line 2: shop is there twice"),
        ("Shop source a", "is no name of an image"),
        ("# nothing", "names no application"),
    ],
)
def test_a_list_is_refused(listed: Path, text: str, said: str) -> None:
    listed.write_text(text)
    with pytest.raises(Failure, match=said):
        read_list(listed, None)


def put_tree(folder: Path, contents: bytes) -> str:
    digest = hashlib.sha256(contents).hexdigest()
    folder.mkdir(parents=True, exist_ok=True)
    (folder / digest).write_bytes(contents)
    return digest


def test_trees_are_copied_once_and_compared(tmp_path: Path) -> None:
    digests = [put_tree(tmp_path / "from", contents) for contents in (b"one", b"two")]
    (tmp_path / "from" / digests[1]).write_bytes(b"damaged")
    with pytest.raises(Failure, match="is damaged"):
        copy_trees(tmp_path / "from", tmp_path / "to", digests)
    assert [path.name for path in (tmp_path / "to").iterdir()] == digests[:1]


def test_a_cache_becomes_what_another_is(tmp_path: Path) -> None:
    new, old = put_tree(tmp_path / "from" / "trees", b"new"), put_tree(tmp_path / "to" / "trees", b"old")
    copy_cache(tmp_path / "from", tmp_path / "to")
    assert (tmp_path / "to" / "trees" / old).exists(), "a cache without rows changes nothing"
    (tmp_path / "from" / "rows.toml").write_text(f'[[layers]]\ndigest = "{new}"\n')
    copy_cache(tmp_path / "from", tmp_path / "to")
    assert [path.name for path in (tmp_path / "to" / "trees").iterdir()] == [new]
    assert (tmp_path / "to" / "rows.toml").read_text() == (tmp_path / "from" / "rows.toml").read_text()


def test_two_nodes_build_one_application(here: Home, tmp_path: Path, source: Path, monkeypatch: pytest.MonkeyPatch) -> None:
    job = submitted(here, tmp_path, [Wanted("shop", str(source), "layers")])
    documents = []
    for node in ("one", "two"):
        monkeypatch.setenv("SLURMD_NODENAME", node)
        assert NodeBuild(job, 0).run() == 0
        assert job.result(0) == Result(node, 0, job.result(0).seconds, "")  # type: ignore[union-attr]
        documents.append((tmp_path / node / "store" / "images" / "shop.toml").read_text())
    assert documents[0] == documents[1]
    restored = json.loads((tmp_path / "two" / "apps" / "shop" / "build" / "build.json").read_text())
    assert "restored test/layers:tools contents" in [line for phase in restored["phases"] for line in phase["printed"]]
    assert "</html>" in job.page("shop").read_text()


def test_a_build_that_fails_is_kept_with_its_status(here: Home, tmp_path: Path, source: Path) -> None:
    job = submitted(here, tmp_path, [Wanted("shop", str(source / "main.sh"), "layers")])
    assert NodeBuild(job, 0).run() == 1
    result = job.result(0)
    assert result is not None and result.status == 1 and "main.sh is neither" in result.reason


def test_a_shared_folder_without_locks_refuses_builds(
    here: Home, tmp_path: Path, source: Path, monkeypatch: pytest.MonkeyPatch
) -> None:
    def refuse(descriptor: int, kind: int) -> None:
        raise OSError(errno.ENOLCK, "No locks available")

    job = submitted(here, tmp_path, [Wanted("shop", str(source), "layers")])
    monkeypatch.setattr("fcntl.lockf", refuse)
    assert NodeBuild(job, 0).run() == 1
    result = job.result(0)
    assert result is not None and result.reason == f"{job.farm}/locks/shop can't be locked: No locks available."


class PlayedSlurm:
    """Slurm's commands, which print what a test wrote, and keep what they were given."""

    def __init__(self, room: Path, monkeypatch: pytest.MonkeyPatch) -> None:
        self.room = room
        monkeypatch.setenv("PATH", f"{room}:{os.environ['PATH']}")
        for name in ("sbatch", "squeue", "sacct", "sinfo", "scontrol"):
            self.prints(name, "")

    def prints(self, name: str, text: str, *, status: int = 0) -> None:
        kept = f'printf "%s\\n" "$@" > {self.room}/{name}.words; [ -t 0 ] || cat > {self.room}/{name}.input'
        (self.room / f"{name}.text").write_text(text)
        write_program(self.room / name, f"{kept}\ncat {self.room}/{name}.text\nexit {status}")

    def words(self, name: str) -> list[str]:
        return (self.room / f"{name}.words").read_text().splitlines()


@pytest.fixture
def slurm(tmp_path: Path, monkeypatch: pytest.MonkeyPatch) -> PlayedSlurm:
    return PlayedSlurm(tmp_path, monkeypatch)


def called(*words: str, folder: Path) -> str:
    ended = CliRunner().invoke(farm, [words[0], *words[1:], "--folder", str(folder)])
    if isinstance(ended.exception, Failure):
        raise ended.exception
    assert ended.exit_code == 0, ended.output
    return ended.output


def test_submit_makes_an_array_of_jobs(here: Home, listed: Path, slurm: PlayedSlurm, tmp_path: Path) -> None:
    listed.write_text("shop source\nblog source layers\n")
    slurm.prints("sbatch", "12;samples\n")
    slurm.prints("sinfo", "one\ntwo\nthree\n")
    slurm.prints("scontrol", "one\ntwo\n")
    words = ("submit", str(listed), "--home", "/local/%n", "--builder", "layers", "--nodes", "one,two", "--minutes", "5")
    assert called(*words, folder=tmp_path / "farm").startswith("2 builds are job 12 of Slurm")
    given = slurm.words("sbatch")
    assert {"--array=0-1", "--time=5", "--requeue", "--exclude=three"} <= set(given)
    root = next((tmp_path / "farm" / "jobs").iterdir())
    assert f'farm build {root} "$SLURM_ARRAY_TASK_ID"' in (tmp_path / "sbatch.input").read_text()
    assert JobFolder(root).submission().builds[1] == Wanted("blog", str(tmp_path / "source"), "layers")
    assert JobFolder(root).run_image_names() == ["tools"]


def test_a_node_that_is_none_is_refused(here: Home, listed: Path, slurm: PlayedSlurm, tmp_path: Path) -> None:
    listed.write_text("shop source layers\n")
    slurm.prints("sinfo", "one\n")
    slurm.prints("scontrol", "four\n")
    with pytest.raises(Failure, match="Slurm has no node four"):
        called("submit", str(listed), "--home", "/local", "--nodes", "four", folder=tmp_path / "farm")


def test_what_slurm_refuses_is_said(here: Home, listed: Path, slurm: PlayedSlurm, tmp_path: Path) -> None:
    listed.write_text("shop source layers\n")
    slurm.prints("sbatch", "no partition", status=1)
    with pytest.raises(Failure, match="sbatch refused: no partition"):
        called("submit", str(listed), "--home", "/local", folder=tmp_path / "farm")


def test_status_and_why(here: Home, source: Path, slurm: PlayedSlurm, tmp_path: Path) -> None:
    names = ("built", "failed", "waits", "runs", "hung", "forgotten")
    job = submitted(here, tmp_path, [Wanted(name, str(source), "layers") for name in names])
    (job.root / "slurm").write_text("12\n")
    job.leave(0, Result("one", 0, 2.0, ""))
    job.leave(1, Result("two", 51, 1.5, "error 51 BuildFailed test/layers 3"))
    job.said(1).write_text("".join(f"line {number}\n" for number in range(30)))
    slurm.prints("sacct", "12_4|CANCELLED by 0|two\n12_[5]|PENDING|\n")
    slurm.prints("squeue", "0|COMPLETED|one\n1|FAILED|two\n2|PENDING|\n3|RUNNING|one\n4|TIMEOUT|two\n")
    printed = called("status", folder=tmp_path / "farm").splitlines()
    assert [" ".join(line.split()) for line in printed] == [
        "built built one 2.0 s",
        "failed ended with 51 two 1.5 s",
        "waits pending",
        "runs running one",
        "hung timeout two",
        "forgotten unknown",
        "1 built, 1 ended with 51, 1 pending, 1 running, 1 timeout, 1 unknown",
    ]
    lines = called("why", "failed", folder=tmp_path / "farm").splitlines()
    assert lines[:3] == ["failed: ended with 51, on two", "error 51 BuildFailed test/layers 3", "line 10"]
    with pytest.raises(Failure, match="has no other"):
        called("why", "other", folder=tmp_path / "farm")


def test_nothing_was_submitted(tmp_path: Path) -> None:
    with pytest.raises(Failure, match="Nothing was submitted"):
        called("status", folder=tmp_path)
