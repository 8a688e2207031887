"""`cnb run` and the commands on images."""

import json
import signal
import subprocess
import time
from pathlib import Path

import click
import pytest

from tests.front_home import COMMAND, Front, contents_of, write_buildpack

from cnb import running
from cnb.documents import read_run_image
from cnb.home import Home
from cnb.image_commands import run
from cnb.oci.store import Kept, keep

PROCESS = '[[processes]]\\ntype = "web"\\ncommand = ["sh", "main.sh"]\\ndefault = true\\n'
# A process that has the name of its program.
NAMESAKE = '[[processes]]\\ntype = "sh"\\ncommand = ["sh", "main.sh"]\\n'
LABEL = '[[labels]]\\nkey = "kind"\\nvalue = "test"\\n'
MAIN = """\
case ${1-} in
    status) exit 7 ;;
    input) cat ;;
    user) cat /proc/self/status ;;
    signal)
        trap 'echo ended; exit 9' TERM
        echo ready
        while :; do sleep 0.1; done
        ;;
    write)
        echo changed > main.sh
        echo new > new.txt
        echo temporary > /tmp/file
        for place in / /layers /bin; do echo > $place/file && echo REACHED; done
        ;;
    *) echo "in $PWD, $#: $*, ${ADDED-}" ; ls / ;;
esac
"""


@pytest.fixture(scope="session")
def image(front: Front, tmp_path_factory: pytest.TempPathFactory) -> str:
    """An image whose process is main.sh."""
    source = tmp_path_factory.mktemp("application")
    (source / "main.sh").write_text(MAIN)
    buildpack = write_buildpack(source.parent / "runs", "test/runs", build=f"printf '{PROCESS}{NAMESAKE}{LABEL}' > $1/launch.toml")
    front.builder("runs", buildpack)
    front.done("build", "runs", "--path", str(source), "--builder", "runs")
    return "runs"


def test_the_process_has_a_root_of_its_own(front: Front, image: str) -> None:
    lines = front.done("run", image, "--env", "ADDED=it", "a", "b c", "-e", "--unknown").splitlines()
    assert lines[0] == "in /workspace, 4: a b c -e --unknown, it"
    assert {"bin", "cnb", "dev", "proc", "tmp", "workspace"} <= set(lines[1:])
    assert not {"home", "root", "usr-merge", "work"} & set(lines[1:])


@pytest.mark.parametrize(
    ("args", "words"),
    [
        (["shop"], ()),
        (["shop", "sh", "-e", "--user", "x"], ("sh", "-e", "--user", "x")),
        (["-u", "7", "shop", "--env=A=b", "-eB=c", "--no-sandbox", "--help-me"], ("--help-me",)),
        (["shop", "--process", "web", "--", "--env", "x"], ("--env", "x")),
        (["shop", "sh", "--", "x"], ("sh", "--", "x")),
    ],
)
def test_words_of_a_process(args: list[str], words: tuple[str, ...]) -> None:
    found = run.make_context("run", list(args)).params
    assert (found["name"], found["words"]) == ("shop", words)
    assert found["env"] == (("A=b", "B=c") if "-u" in args else ())


def test_an_option_that_is_not_known() -> None:
    with pytest.raises(click.NoSuchOption):
        run.make_context("run", ["--prcess", "web", "shop"])


def test_its_status_and_its_input(front: Front, image: str) -> None:
    assert front.run("run", image, "status").returncode == 7
    assert front.run("run", image, "input", input="given").stdout == "given"
    assert front.run("run", image, "--process", "web", "status").returncode == 7
    ended = front.run("run", image, "--process", "worker")
    assert ended.returncode == 81
    assert set(ended.stderr.partition("It has: ")[2].strip().split(", ")) == {"web", "sh"}


def test_a_process_of_the_name_of_its_program(front: Front, image: str) -> None:
    assert front.run("run", image, "--process", "sh", "status").returncode == 7


def test_its_user(front: Front, image: str) -> None:
    document = front.home / "store" / "runs" / "tools.toml"

    def numbers(*words: str) -> list[str]:
        lines = front.done("run", *words, image, "user").splitlines()
        return [line.split()[1] for line in lines if line.startswith(("Uid:", "Gid:"))]

    assert numbers() == ["1000", "1000"]
    keep(document, read_run_image(document).rows[-1], Kept(user="61:62", labels={"of": "run image"}, ports=("80/tcp",)))
    try:
        assert numbers() == ["61", "62"]
        assert numbers("--user", "7") == ["7", "0"]
        text, data = front.done("inspect", image), json.loads(front.done("inspect", image, "--json"))
    finally:
        keep(document, "", Kept())
    assert "user: 61:62, for `cnb run` and `cnb save`\nports: 80/tcp, for `cnb save`;" in text
    assert "labels:\n  of=run image\n  kind=test\n" in text
    assert (data["user"], data["ports"], data["labels"]) == ("61:62", ["80/tcp"], {"of": "run image", "kind": "test"})
    ended = front.run("run", "--user", "guest", image)
    assert (ended.returncode, "its etc/passwd has no 'guest'" in ended.stderr) == (1, True)


def test_what_it_writes_is_gone_afterwards(front: Front, image: str) -> None:
    before = contents_of(front.home, "locks/")
    ended = front.run("run", image, "write")
    assert "REACHED" not in ended.stdout
    assert contents_of(front.home, "locks/") == before


@pytest.mark.parametrize("number", [signal.SIGTERM, signal.SIGINT])
def test_a_signal_is_handed_on(front: Front, image: str, number: signal.Signals) -> None:
    words = [str(COMMAND), "run", image, "signal"]
    with subprocess.Popen(words, env=front.environment, stdout=subprocess.PIPE, text=True) as child:
        assert child.stdout is not None
        assert child.stdout.readline() == "ready\n"
        child.send_signal(number)
        rest = child.stdout.read()
    assert (rest, child.returncode) == (("ended\n", 9) if number == signal.SIGTERM else ("", 84))


def test_without_a_sandbox(front: Front, image: str) -> None:
    assert front.run("run", image, "--no-sandbox", "status").returncode == 7


def test_what_is_no_image(front: Front, image: str) -> None:
    for words in (("run", "absent"), ("inspect", "absent"), ("verify", "absent"), ("rebase", "absent"), ("rm", "absent")):
        ended = front.run(*words)
        assert (ended.returncode, "There is no image absent." in ended.stderr) == (31, True)


def test_what_is_known_of_images(front: Front, image: str) -> None:
    data = json.loads(front.done("inspect", image, "--json"))
    assert data["labels"] == {"kind": "test"}
    assert data["env"]["PATH"].endswith(":/bin")
    assert [row["role"] for row in data["rows"]] == ["run", "app", "launcher", "process"]
    assert data["bytes"] == sum(row["bytes"] for row in data["rows"])
    assert data in json.loads(front.done("images", "--json"))
    text = front.done("inspect", image)
    for part in ("run image: tools\n", "  web  (default)  sh main.sh\n", "  kind=test\n", "buildpacks: test/runs 1.0.0\n"):
        assert part in text
    assert image in front.done("images")
    assert front.done("verify", image) == f"verified {image} 4 trees\n"


def test_rebase(front: Front, image: str) -> None:
    assert front.done("rebase", image) == f"rebased {image} 1 run rows\n"
    ended = front.run("rebase", image, "--run-image", "absent")
    assert (ended.returncode, "cnb run-image add absent" in ended.stderr) == (31, True)


def test_removing_and_pruning(front: Front, tmp_path: Path) -> None:
    source = tmp_path / "unique"
    source.mkdir()
    (source / "main.sh").write_text("echo unique to this image\n")
    front.builder("removed", write_buildpack(tmp_path, "test/removed", build=f"printf '{PROCESS}{NAMESAKE}' > $1/launch.toml"))
    front.done("build", "removed", "--path", str(source), "--builder", "removed")
    assert front.done("rm", "removed") == "removed removed\n"
    assert not front.app("removed").exists()
    assert "removed" not in front.done("images")
    pruned = json.loads(front.done("prune", "--json"))
    assert len(pruned["trees"]) == 1
    assert list((front.home / "roots").iterdir()) == []


def test_unpacked_images_that_are_kept(tmp_path: Path, monkeypatch: pytest.MonkeyPatch) -> None:
    monkeypatch.setenv("CNB_HOME", str(tmp_path / "home"))
    home = Home.open()
    for number in range(running.ROOTS_KEPT + 3):
        (home.roots / f"{number:03}").mkdir()
        time.sleep(0.01)
    running._forget_oldest(home)
    assert sorted(root.name for root in home.roots.iterdir()) == [f"{number:03}" for number in range(3, running.ROOTS_KEPT + 3)]
