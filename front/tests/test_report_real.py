"""The page of real builds, with and without a sandbox, and the command that writes it."""

import json
import shutil
from collections.abc import Sequence
from pathlib import Path

import pytest
from click.testing import CliRunner

from cnb.failure import Failure
from cnb.home import Home
from cnb.report.command import why
from cnb.report.page import page_of
from cnb.report.refusal import explain
from tests.front_home import Front, write_buildpack
from tests.report_builds import HOSTILE, plan_of
from tests.test_report_page import texts_of
from tests.test_sandbox import pytestmark as sandboxed

LAYER = """cd "$1"
mkdir -p kept
echo kept > kept/file
printf '[types]\\nlaunch = true\\n' > kept.toml
echo "the layer $(basename "$1")" >&2"""
WAYS = [pytest.param([], marks=sandboxed), ["--no-sandbox"]]


def planned(**names: Sequence[str]) -> str:
    """A detect script with this Build Plan."""
    return f"cat > \"$2\" <<'PLAN'\n{plan_of(**names)}PLAN"


def built(front: Front, tmp_path: Path, words: Sequence[str], *buildpacks: Path, status: int = 0) -> tuple[str, Home]:
    """Builds an image with a builder of these buildpacks, and gives its name and the home."""
    name = tmp_path.name.replace("_", "-").lower()
    launcher, source = tmp_path / "launcher", tmp_path / "source"
    launcher.write_text("no launcher\n")
    source.mkdir(exist_ok=True)
    front.builder(name, *buildpacks)
    ended = front.run("build", name, "--path", str(source), "--builder", name, *words, env={"CNB_LAUNCHER": str(launcher)})
    assert ended.returncode == status, ended.stdout + ended.stderr
    return name, Home(front.home)


@pytest.mark.parametrize("words", WAYS)
def test_a_build_and_one_more(front: Front, tmp_path: Path, words: Sequence[str]) -> None:
    first = write_buildpack(tmp_path, "test/first", detect=planned(provides=["tool"]), build=LAYER)
    second = write_buildpack(tmp_path, "test/second", detect=planned(requires=["tool"]), build=f"echo '{HOSTILE}' >&2")
    name, home = built(front, tmp_path, words, first, second)
    texts = texts_of(home.app(name).build, home)
    for said in (
        "Group 1 chosen The first group that passes.",
        "test/second@1.0.0 is provided tool by test/first@1.0.0",
        "the layer test_first",
        HOSTILE,
        "kept test/first@1.0.0:kept, at /layers/test_first/kept",
        "no image before",
    ):
        assert said in texts, said
    assert "unchanged" not in texts.partition("Image")[2]
    built(front, tmp_path, words, first, second)
    assert "0 of them not in the image before" in texts_of(home.app(name).build, home)


@pytest.mark.parametrize("words", WAYS)
def test_a_layer_that_is_reused(front: Front, tmp_path: Path, words: Sequence[str]) -> None:
    script = "cd \"$1\"\n[ -e kept.toml ] || mkdir kept\nprintf '[types]\\nlaunch = true\\n' > kept.toml"
    buildpack = write_buildpack(tmp_path, "test/keeps", build=script)
    for _ in range(2):
        name, home = built(front, tmp_path, words, buildpack)
    page = page_of(home.app(name).build, home)
    assert '<span class="key reused">reused</span>' in page


@pytest.mark.parametrize("words", WAYS)
def test_a_refused_detection(front: Front, tmp_path: Path, words: Sequence[str]) -> None:
    buildpack = write_buildpack(tmp_path, "test/ruby", detect=planned(requires=["ruby"]))
    name, home = built(front, tmp_path, words, buildpack, status=20)
    texts = texts_of(home.app(name).build, home)
    assert "error 20 NoGroup while detecting" in texts
    assert "Group 1 passed over test/ruby@1.0.0 requires ruby, which nobody provides" in texts
    lines = explain(home.app(name).build, home.builder(name) / "buildpacks")
    assert lines == ["group 1: test/ruby@1.0.0 requires ruby, which nobody provides"]
    shutil.rmtree(home.builder(name))
    assert texts_of(home.app(name).build, home) == texts


@pytest.mark.parametrize("words", WAYS)
def test_a_plan_that_is_no_text(front: Front, tmp_path: Path, words: Sequence[str]) -> None:
    buildpack = write_buildpack(tmp_path, "test/bytes", detect="printf 'a = \"\\377\"' > \"$2\"")
    name, home = built(front, tmp_path, words, buildpack, status=21)
    (reply,) = json.loads((home.app(name).build / "replies.json").read_text())
    assert (reply["reply"], reply["code"], reply["plan"].encode(errors="surrogateescape")) == ("error", 0, b'a = "\377"')
    assert "test/bytes@1.0.0 erred: its Build Plan can't be read" in texts_of(home.app(name).build, home)


@pytest.mark.parametrize("words", WAYS)
def test_a_failed_build(front: Front, tmp_path: Path, words: Sequence[str]) -> None:
    buildpack = write_buildpack(tmp_path, "test/fails", build="echo 'no room' >&2\nexit 9")
    name, home = built(front, tmp_path, words, buildpack, status=51)
    texts = texts_of(home.app(name).build, home)
    assert "error 51 BuildFailed test/fails 9 while building" in texts
    assert "What was printed last no room" in texts
    assert "error 51" not in texts.partition("What was printed last")[2]


def test_the_command_writes_a_page(front: Front, tmp_path: Path, monkeypatch: pytest.MonkeyPatch) -> None:
    name, home = built(front, tmp_path, ["--no-sandbox"], write_buildpack(tmp_path, "test/plain"))
    monkeypatch.setenv("CNB_HOME", str(home.root))
    for words, path in (("", home.app(name).root / "why.html"), (f"--output={tmp_path}/page.html", tmp_path / "page.html")):
        ended = CliRunner().invoke(why, [name, *words.split()], catch_exceptions=False)
        assert (ended.exit_code, ended.output) == (0, f"{path}\n")
        assert path.read_text().startswith("<!doctype html>")
    with pytest.raises(Failure, match="can't be written"):
        CliRunner().invoke(why, [name, "--output", f"{tmp_path}/none/page.html"], catch_exceptions=False)
    with pytest.raises(Failure, match="No build of nobody has ended"):
        CliRunner().invoke(why, ["nobody"], catch_exceptions=False)
