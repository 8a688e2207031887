"""The lines of the program among what buildpacks print, also where a buildpack ends without an end of line."""

from pathlib import Path

import pytest

from cnb.build_folder import BuildFolder
from cnb.documents import Buildpack
from cnb.home import AppFolder
from cnb.listener import Listener
from cnb.report.build import without_results
from cnb.said import asked_in, phase_in, refusal_in, result_in, results_in
from cnb.screen import Screen

A, B = Buildpack("test/a", "1.0.0"), Buildpack("test/b", "1.0.0")


@pytest.fixture
def listener(tmp_path: Path) -> Listener:
    folder = BuildFolder(AppFolder(tmp_path), image="x", path=tmp_path)
    return Listener(Screen(), folder, [A, B])


@pytest.mark.parametrize(
    ("line", "found"),
    [
        ("asked test/a@1.0.0: pass", ("", "test/a@1.0.0", "pass")),
        ("no rubyasked test/a@1.0.0: fail", ("no ruby", "test/a@1.0.0", "fail")),
        ("asked b: asked test/a@1.0.0: error, exit code -7", ("asked b: ", "test/a@1.0.0", "error, exit code -7")),
        ("asked test/a@1.0.0: perhaps", None),
        ("asked test/a: pass", None),
    ],
)
def test_who_was_asked(line: str, found: tuple[str, str, str] | None) -> None:
    assert asked_in(line) == found


def test_a_phase_that_begins() -> None:
    assert phase_in("===> BUILDING") == ("", "BUILDING")
    assert phase_in("done.===> EXPORTING") == ("done.", "EXPORTING")
    assert phase_in("===> DANCING") is None


@pytest.mark.parametrize(
    ("line", "phase", "found"),
    [
        ("built test/a@1.0.0", "BUILDING", ("", "built test/a@1.0.0")),
        ("done.built test/a@1.0.0", "BUILDING", ("done.", "built test/a@1.0.0")),
        ("added 120 packages in 3s", "BUILDING", ("added 120 packages in 3s", "")),
        ("error 404 Not Found", "BUILDING", ("error 404 Not Found", "")),
        ("plan 4", "DETECTING", ("", "plan 4")),
        ("image shop 6 rows", "DETECTING", ("image shop 6 rows", "")),
        ("added test/a:tools", "EXPORTING", ("", "added test/a:tools")),
    ],
)
def test_results_are_those_of_their_phase(line: str, phase: str, found: tuple[str, str]) -> None:
    assert result_in(line, phase) == found


def test_the_results_are_the_last_lines() -> None:
    printed = "built test/b@1.0.0\nadded 1 package\nlast wordsbuilt test/a@1.0.0\nbuilt test/b@1.0.0\n"
    assert results_in(printed, "BUILDING") == ["built test/a@1.0.0", "built test/b@1.0.0"]
    assert results_in("only words\n", "BUILDING") == []
    assert results_in("", "BUILDING") == []


def test_a_refusal_is_the_end_of_the_last_line() -> None:
    assert refusal_in("words\nno rubyerror 20 NoGroup\n", 20) == "error 20 NoGroup"
    assert refusal_in("error 31 NoImage shop\n", 31) == "error 31 NoImage shop"
    assert refusal_in("error 20 NoGroup\nwords\n", 20) is None
    assert refusal_in("error 20 NoGroup\n", 0) is None


def test_results_are_left_out_of_a_log() -> None:
    log = "no roomerror 51 BuildFailed test/a 9\nbin/build ended with 9\n"
    assert without_results(log, ["error 51 BuildFailed test/a 9"]) == "no room\nbin/build ended with 9\n"
    assert without_results("built test/a@1.0.0\nnext\n", ["built test/b@1.0.0"]) == "built test/a@1.0.0\nnext\n"


def test_what_is_heard_while_buildpacks_are_asked(listener: Listener) -> None:
    listener.begin("DETECTING")
    unknown, last = "asked test/c@1.0.0: pass", "asked test/b@1.0.0: fail"
    for line in ("said", "no end of lineasked test/a@1.0.0: fail", unknown, last, "no group"):
        listener.hear(line, False)
    listener.hear("printederror 20 NoGroup", True)
    assert listener.asked == "2 of 2 buildpacks asked"
    assert list(listener.printed_while_asked) == ["said", "no end of line", unknown, "printed"]
    assert list(listener.said_behind_asked) == ["no group"]


def test_what_is_heard_while_buildpacks_are_built(listener: Listener, capsys: pytest.CaptureFixture[str]) -> None:
    listener.begin("BUILDING", [A, B])
    for line in ("building test/a@1.0.0", "one", "no end of linebuilding test/b@1.0.0", "two"):
        listener.hear(line, False)
    for line in ("", "added 1 package", "built test/a@1.0.0", "built test/b@1.0.0"):
        listener.hear(line, True)
    listener.end()
    said = capsys.readouterr()
    assert [line.strip() for line in said.err.splitlines()] == ["one", "no end of line", "two", "", "added 1 package"]
    lines = [line.split(" (")[0] for line in said.out.splitlines()]
    assert lines == ["===> BUILDING    test/a 1.0.0", " " * 17 + "test/b 1.0.0"]
