"""Buildpacks that do what they should not, each in a real build of an image that was built before.

Whatever they do, the store, the user's files and the application are byte for byte as they were."""

import os
import signal
import socket
import subprocess
import threading
import time
from collections.abc import Iterator
from contextlib import contextmanager
from pathlib import Path

import pytest

from tests.front_home import COMMAND, Front, contents_of, write_buildpack

pytestmark = pytest.mark.skipif(
    subprocess.run(["bwrap", "--unshare-user", "--ro-bind", "/", "/", "/bin/true"], capture_output=True, check=False).returncode
    != 0
    if os.path.exists("/usr/bin/bwrap")
    else True,
    reason="bwrap may make no sandbox here",
)
WEB = 'printf \'[[processes]]\\ntype = "web"\\ncommand = ["cat", "notes.txt"]\\ndefault = true\\n\' > $1/launch.toml'

FORGED = '[[group]]\\napi = "0.10"\\nid = "test/other"\\nversion = "1.0.0"\\n'


def behind_the_choice(deed: str) -> str:
    """A detect script that leaves processes behind: one does something again and again once the documents of the choice are
    there, and the others fill standard output, so that the program has to wait before it can print the choice and end."""
    waits = f"until [ -e /cnb/work/plan.toml ]; do :; done; while :; do {deed}; done"
    return f"({waits}) > /dev/null 2>&1 &\nfor number in 1 2 3 4 5 6 7 8; do yes & done"


class Attack:
    """An image that was built, and a second build of it by a buildpack that attacks."""

    def __init__(self, front: Front, tmp_path: Path, source: Path) -> None:
        self.front, self.room, self.source = front, tmp_path, source
        self.name = tmp_path.name.replace("_", "-").lower()
        front.builder(f"{self.name}-good", write_buildpack(tmp_path, "test/good", build=WEB))
        front.done("build", self.name, "--path", str(source), "--builder", f"{self.name}-good")
        self.before = self.seen()

    def seen(self) -> list[dict[str, str]]:
        """All that a build must not change when it is refused: the home, but for what this build keeps of itself, the files of
        the user, and the application."""
        of_build = (f"apps/{self.name}/{name}" for name in ("build", "layers", "platform", "sandbox", "work", "workspace"))
        own = (*of_build, "locks/", f"builders/{self.name}-bad")
        return [contents_of(self.front.home, *own), contents_of(self.front.room / "user"), contents_of(self.source)]

    def words(self, build: str = "exit 0", detect: str = "exit 0") -> list[str]:
        """The words of the second build."""
        self.front.builder(f"{self.name}-bad", write_buildpack(self.room, "test/bad", detect=detect, build=build))
        return ["build", self.name, "--path", str(self.source), "--builder", f"{self.name}-bad"]

    def refused(self, status: int, build: str = "exit 0", detect: str = "exit 0", more: tuple[str, ...] = ()) -> str:
        """What is said of a build that ends with this status, and has changed nothing."""
        ended = self.front.run(*self.words(build, detect), *more)
        assert ended.returncode == status, ended.stdout + ended.stderr
        assert self.seen() == self.before
        return ended.stdout + ended.stderr


@pytest.fixture
def attack(front: Front, tmp_path: Path, source: Path) -> Attack:
    return Attack(front, tmp_path, source)


@contextmanager
def listening() -> Iterator[tuple[int, list[bool]]]:
    """A server of this machine: its port, and an entry for each connection that it had."""
    met: list[bool] = []
    with socket.create_server(("127.0.0.1", 0)) as server:

        def serve() -> None:
            while True:
                try:
                    server.accept()[0].close()
                except OSError:
                    return
                met.append(True)

        thread = threading.Thread(target=serve, daemon=True)
        thread.start()
        yield server.getsockname()[1], met
        server.shutdown(socket.SHUT_RDWR)
        thread.join()


def running(words: str) -> list[int]:
    """The processes of this machine whose words have this text."""
    found = []
    for entry in os.listdir("/proc"):
        try:
            text = Path("/proc", entry, "cmdline").read_bytes() if entry.isdigit() else b""
        except OSError:
            continue
        if words.encode() in text:
            found.append(int(entry))
    return found


def test_what_a_buildpack_is_given(front: Front, tmp_path: Path, source: Path) -> None:
    script = "pwd; echo $CNB_LAYERS_DIR $1 $2 $3 ${HOME}; ls -A $HOME; id -un; env; ls /"
    front.builder("given", write_buildpack(tmp_path, "test/given", build=script))
    ended = front.run("build", "given", "--path", str(source), "--builder", "given", "--env", "WANTED=it", env={"OWN": "own"})
    assert ended.returncode == 0, ended.stderr
    lines = [line.strip() for line in ended.stderr.splitlines()]
    assert lines[:3] == [
        "/workspace",
        "/layers/test_given /layers/test_given /platform /cnb/work/plans/test_given@1.0.0.toml /home/cnb",
        "cnb",
    ]
    assert "WANTED=it" in lines
    assert not [line for line in lines if line.startswith(("OWN=", "LIFECYCLE=", "CNB_HOME="))]
    assert not {"root", "work", "store"} & set(lines)


def test_writing_the_store(attack: Attack) -> None:
    store = attack.front.home / "store"
    tries = "\n".join(
        f'echo hostile > "{place}/images/{attack.name}.toml" && echo REACHED' for place in (store, f"/proc/1/root{store}")
    )
    assert "REACHED" not in attack.refused(51, f"{tries}\nls '{attack.front.home}' && echo REACHED\nexit 9")


def test_reading_what_is_the_users(attack: Attack) -> None:
    secret = attack.front.room / "user" / "secret"
    said = attack.refused(
        51, f"cat '{secret}' /proc/1/root'{secret}' /root/.bashrc /root/.profile\ncat /etc/shadow\nls -A /root /home\nexit 9"
    )
    assert "the user's own" not in said
    assert "root:" not in said


def test_writing_outside_of_what_is_its_own(attack: Attack) -> None:
    places = "/ /usr /usr/bin /etc /cnb /cnb/buildpacks/test_bad/1.0.0/bin /platform /platform/env /dev"
    tries = f"for place in {places}; do touch $place/written && echo REACHED $place; done"
    said = attack.refused(
        51, f"{tries}\necho '[[order]]' >> /cnb/order.toml && echo REACHED\nexit 9", detect=f"{tries}\nexit 0"
    )
    assert "REACHED" not in said


def test_changing_the_application_while_it_is_asked(attack: Attack) -> None:
    assert "REACHED" not in attack.refused(51, "exit 9", detect="echo changed > notes.txt && echo REACHED\nexit 0")


def test_changing_the_application_changes_the_image_alone(attack: Attack) -> None:
    attack.front.done(*attack.words(f"echo changed > notes.txt; rm main.sh; {WEB}"))
    assert attack.seen()[1:] == attack.before[1:]
    assert attack.seen()[0] != attack.before[0]


def test_reaching_the_network(attack: Attack) -> None:
    with listening() as (port, met):
        reach = f"exec 3<> /dev/tcp/127.0.0.1/{port} && echo REACHED\nexit 9"
        assert "REACHED" not in attack.refused(51, reach)
        assert met == []
        assert "REACHED" in attack.refused(51, reach, more=("--network", "host"))
        assert met == [True]


def test_killing_its_parent(attack: Attack) -> None:
    attack.refused(51, "kill -9 $PPID; kill -9 1; kill -TERM -1; exit 9")
    attack.refused(20, detect="kill -9 $PPID; kill -TERM -1; exit 100")


def test_leaving_a_process_behind(attack: Attack) -> None:
    began = time.monotonic()
    left = "(trap '' TERM HUP; exec setsid sleep 654.125) &"
    attack.refused(51, f"{left}\nexit 9", detect=left)
    assert running("654.125") == []
    assert time.monotonic() - began < 300


def test_filling_the_folder_for_temporary_files(attack: Attack) -> None:
    said = attack.refused(
        51, "for f in /tmp/f /dev/shm/f ~/f; do head -c 2000000000 /dev/zero > $f && echo REACHED; rm $f; done; exit 9"
    )
    assert "REACHED" not in said
    assert said.count("No space left on device") == 3


def test_changing_the_group_while_it_is_asked(attack: Attack) -> None:
    forge = f"printf '{FORGED}' > /cnb/work/forged; mv /cnb/work/forged /cnb/work/group.toml"
    said = attack.refused(23, detect=behind_the_choice(forge))
    assert "error 23 RecordDiffers" in said
    assert "A buildpack changed what isn't its own" in said


def test_changing_the_choice_while_it_builds(attack: Attack) -> None:
    tries = "for path in /cnb/work/{group,plan,analyzed}.toml; do echo > $path && echo REACHED; rm -f $path && echo REACHED; done"
    assert "REACHED" not in attack.refused(51, f"{tries}\nexit 9")


def test_taking_the_choice_away_while_it_is_asked(attack: Attack) -> None:
    said = attack.refused(23, detect=behind_the_choice("rm -f /cnb/work/group.toml"))
    assert "The detection left no group.toml" in said


def test_a_link_in_place_of_layers(attack: Attack, tmp_path: Path) -> None:
    users = attack.front.room / "user"
    assert "error 2 File /layers/test_bad" in attack.refused(2, f"rm -rf $1; ln -s '{users}' $1")
    assert "error 8 OddFile" in attack.refused(8, f"ln -s '{users}' $1/own; printf '[types]\\nlaunch = true\\n' > $1/own.toml")
    first = write_buildpack(tmp_path, "test/first")
    second = write_buildpack(tmp_path, "test/second", build=f"rm -r /layers/test_first; ln -s '{users}' /layers/test_first")
    attack.front.builder(f"{attack.name}-bad", first, second)
    ended = attack.front.run("build", attack.name, "--path", str(attack.source), "--builder", f"{attack.name}-bad")
    assert ended.returncode == 23
    assert "/layers/test_first is a link" in ended.stderr
    assert attack.seen() == attack.before


def test_changing_the_layer_of_another_buildpack_is_allowed(front: Front, tmp_path: Path, source: Path) -> None:
    first = write_buildpack(
        tmp_path,
        "test/first",
        build="mkdir $1/own; echo first > $1/own/file; printf '[types]\\nlaunch = true\\n' > $1/own.toml",
    )
    second = write_buildpack(tmp_path, "test/second", build="echo second > /layers/test_first/own/file")
    front.builder("two", first, second)
    front.done("build", "two", "--path", str(source), "--builder", "two")
    assert (front.app("two") / "layers" / "test_first" / "own" / "file").read_text() == "second\n"


def test_signs_for_the_terminal_are_left_out(front: Front, tmp_path: Path, source: Path) -> None:
    front.builder("signs", write_buildpack(tmp_path, "test/signs", build="printf 'a\\033]0;title\\007b\\033[2Jc\\rd\\n'"))
    ended = front.run("build", "signs", "--path", str(source), "--builder", "signs")
    assert "a]0;titleb[2Jcd" in ended.stderr
    assert "\033" not in ended.stdout + ended.stderr


@pytest.mark.parametrize("number", [signal.SIGINT, signal.SIGTERM])
@pytest.mark.parametrize("more", [(), ("--no-sandbox",)])
def test_a_signal_ends_the_children_too(attack: Attack, number: signal.Signals, more: tuple[str, ...]) -> None:
    words = attack.words("sleep 655.125")
    child = subprocess.Popen(
        [str(COMMAND), *words, *more], env=attack.front.environment, stdout=subprocess.DEVNULL, stderr=subprocess.DEVNULL
    )
    while not running("655.125"):
        assert child.poll() is None
        time.sleep(0.05)
    child.send_signal(number)
    assert child.wait(60) == 128 + number
    assert running("655.125") == []
    assert attack.seen() == attack.before
    attack.front.done("build", attack.name, "--path", str(attack.source), "--builder", f"{attack.name}-good")


def test_the_end_of_the_front_by_force_ends_the_children_too(attack: Attack) -> None:
    words = attack.words("sleep 656.125")
    child = subprocess.Popen(
        [str(COMMAND), *words], env=attack.front.environment, stdout=subprocess.DEVNULL, stderr=subprocess.DEVNULL
    )
    while not running("656.125"):
        assert child.poll() is None
        time.sleep(0.05)
    child.kill()
    child.wait()
    for _ in range(100):
        if not running("656.125"):
            break
        time.sleep(0.1)
    assert running("656.125") == []
    assert attack.seen() == attack.before
