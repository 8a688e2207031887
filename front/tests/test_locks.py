"""The lock of a file that machines share, between two processes."""

import errno
import fcntl
import subprocess
import sys
from pathlib import Path

import pytest

from tests.front_home import FRONT

from cnb.failure import Failure
from cnb.locks import held_by_machines

HOLDS = """
import sys
from pathlib import Path
from cnb.locks import held_by_machines
with held_by_machines(Path(sys.argv[1])):
    print("held", flush=True)
    sys.stdin.read()
print("free", flush=True)
"""


def holder(path: Path) -> "subprocess.Popen[str]":
    """A process that takes the lock, and holds it until its standard input ends."""
    words = [sys.executable, "-c", HOLDS, str(path)]
    return subprocess.Popen(words, cwd=FRONT, stdin=subprocess.PIPE, stdout=subprocess.PIPE, text=True)


def said(process: "subprocess.Popen[str]") -> str:
    assert process.stdout is not None
    return process.stdout.readline().strip()


def is_taken(path: Path) -> bool:
    """Whether another process holds the lock."""
    with open(path, "r+b") as file:
        try:
            fcntl.lockf(file, fcntl.LOCK_EX | fcntl.LOCK_NB)
        except OSError as fault:
            assert fault.errno in (errno.EAGAIN, errno.EACCES)
            return True
    return False


def test_a_second_process_waits(tmp_path: Path) -> None:
    path = tmp_path / "lock"
    with holder(path) as first:
        assert said(first) == "held"
        assert is_taken(path)
        with holder(path) as second:
            with pytest.raises(subprocess.TimeoutExpired):
                second.wait(timeout=3)
            first.communicate()
            assert said(second) == "held"
            second.communicate()
    assert not is_taken(path)


def test_it_ends_with_its_process(tmp_path: Path) -> None:
    path = tmp_path / "lock"
    with holder(path) as first:
        assert said(first) == "held"
        first.kill()
        first.communicate()
        assert not is_taken(path)


def test_it_is_on_the_bytes_of_a_file_for_writing(tmp_path: Path, monkeypatch: pytest.MonkeyPatch) -> None:
    """Where a file system has no locks the build is refused, and not done beside another."""
    taken: list[int] = []

    def refuse(descriptor: int, kind: int) -> None:
        taken.append(fcntl.fcntl(descriptor, fcntl.F_GETFL) & 3)
        raise OSError(errno.ENOLCK, "No locks available")

    monkeypatch.setattr("fcntl.lockf", refuse)
    with pytest.raises(Failure, match="lock can't be locked: No locks available"), held_by_machines(tmp_path / "lock"):
        raise AssertionError("the lock isn't held")
    assert taken == [2], "opened for reading and writing"


def test_a_folder_that_is_away(tmp_path: Path) -> None:
    path = tmp_path / "away" / "lock"
    with pytest.raises(Failure, match="can't be opened for writing: No such file"), held_by_machines(path):
        raise AssertionError("the lock isn't held")
