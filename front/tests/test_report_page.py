"""The page of a build: what it says, that nothing of a buildpack acts in it, and that it stays small."""

import json
import re
import time
from html.parser import HTMLParser
from pathlib import Path

import pytest
from tests.report_builds import HOSTILE, a_build, a_failed_build, a_refused_detection, buildpack, home_in, kept, order_of, phase, plan_of

from cnb.home import Home
from cnb.report.page import LARGEST_PAGE, page_of


class Texts(HTMLParser):
    """The texts of a page, and the names of its elements."""

    def __init__(self) -> None:
        super().__init__()
        self.texts: list[str] = []
        self.elements: set[str] = set()

    def handle_starttag(self, tag: str, attrs: list[tuple[str, str | None]]) -> None:
        self.elements.add(tag)

    def handle_data(self, data: str) -> None:
        self.texts.append(data)


def texts_of(folder: Path, home: Home) -> str:
    """The texts of a build's page, with one space between words."""
    page = page_of(folder, home)
    reader = Texts()
    reader.feed(page)
    assert "script" not in reader.elements
    assert not re.search(r"(src|href)=\"(?!#)", page), "the page names another file"
    return " ".join(" ".join(reader.texts).split())


def test_a_build(tmp_path: Path) -> None:
    home = home_in(tmp_path)
    texts = texts_of(a_build(home), home)
    for words in (
        "shop built",
        "Built in 2.5 s: 5 layers, 2 of them not in the image before, 50 MB.",
        "Source /src/shop Builder sample Run image base Target linux/amd64 Started 2026-12-02 03:00:00 UTC",
        "The order lists 4 groups, which are tried one after another. Group 3 is the first that passes.",
        "Group 1 passed over sample/arm@1.0.0 isn't for linux/amd64 (targets: linux/arm64)",
        "Group 2 passed over sample/ruby@1.0.0 requires ruby, which nobody provides",
        "Group 3 chosen The first group that passes. Without: sample/extra@1.0.0 was left out, "
        "since it requires node, which nobody provides.",
        "Group 4 not tried A group before passed.",
        "sample/web@2.1.0 is provided jdk by sample/jdk@1.0.0",
        'web {"port": 8080} sample/web@2.1.0 sample/web@2.1.0',
        "sample/jdk@1.0.0 1.1 s",
        f"looking for pom.xml {HOSTILE}",
        "While sample/jdk@1.0.0 was built (1.1 s) unpacking the JRE",
        f"While sample/web@2.1.0 was built (0.5 s) {HOSTILE} building sample/none@1.0.0",
        "jre sample/jdk@1.0.0:jre, at /layers/sample_jdk/jre 111111111111 41 MB reused",
        "static sample/web@2.1.0:static, at /layers/sample_web/static 222222222222 512 bytes new",
        "launcher at /cnb/lifecycle 444444444444 unknown unchanged",
        "web default serve --port 8080",
        "PATH /cnb/process:/bin",
        "org.example.kind shop & more",
    ):
        assert words in texts, words
    assert "Why it failed" not in texts


def test_a_refused_detection(tmp_path: Path) -> None:
    home = home_in(tmp_path)
    replies = {"a@1.0.0": (100, ""), "b@1.0.0": (0, plan_of(requires=["node"])), "c@1.0.0": (9, "")}
    texts = texts_of(a_refused_detection(home, [["a"], ["b", "c?"], ["c", "b"]], replies), home)
    for words in (
        "none failed Ended while detecting after 2.5 s. No image was made.",
        "Why it failed error 20 NoGroup while detecting No group of buildpacks passes.",
        "Group 1 passed over a@1.0.0 failed (100)",
        "Group 2 passed over b@1.0.0 requires node, which nobody provides",
        "Group 3 passed over c@1.0.0 erred (9)",
        "asked a@1.0.0: 100",
    ):
        assert words in texts, words
    assert "Plan" not in re.sub("Build Plan", "", texts)


def test_an_order_without_groups(tmp_path: Path) -> None:
    home = home_in(tmp_path)
    texts = texts_of(a_refused_detection(home, [], {}), home)
    assert "The order has no groups: is it a list named order?" in texts


def test_a_failed_build(tmp_path: Path) -> None:
    home = home_in(tmp_path)
    texts = texts_of(a_failed_build(home), home)
    for words in (
        "broken failed Ended while building after 2.5 s. No image was made.",
        "error 51 BuildFailed sample/web 3 while building A buildpack's build failed.",
        "What was printed last no space for the page",
        "Group 3 chosen",
        "No image was made; the one of the build before is as it was.",
    ):
        assert words in texts, words


def test_a_build_that_ended_before_its_phases(tmp_path: Path) -> None:
    home = home_in(tmp_path)
    texts = texts_of(kept(home, "shop", {}, status=1, refusal="There is no builder x."), home)
    assert "There is no builder x." in texts
    assert "The build ended before any group was tried." in texts


def test_a_builder_that_was_changed_since(tmp_path: Path) -> None:
    home = home_in(tmp_path)
    folder = a_build(home)
    (home.builder("sample") / "buildpacks/sample_ruby/1.0.0/buildpack.toml").unlink()
    texts = texts_of(folder, home)
    assert "The groups can't be shown:" in texts
    assert "has no buildpack for the entry sample/ruby of the order." in texts


def test_the_buildpacks_that_the_build_kept_come_first(tmp_path: Path) -> None:
    home = home_in(tmp_path)
    folder = a_build(home)
    (home.builder("sample") / "buildpacks").rename(folder / "buildpacks")
    assert "Group 3 chosen" in texts_of(folder, home)


def test_a_build_without_a_sandbox_has_one_log_and_no_record(tmp_path: Path) -> None:
    home = home_in(tmp_path)
    folder = a_build(home)
    (folder / "detect.log").unlink()
    (folder / "record").unlink()
    replies = [
        ("sample/jdk", "1.0.0", plan_of(provides=["jdk", "jre"])),
        ("sample/web", "2.1.0", plan_of(provides=["web"], requires=["jdk", "jre", "web"])),
    ]
    found = [{"id": id, "version": version, "reply": "pass", "code": 0, "plan": plan} for id, version, plan in replies]
    found += [{"id": it, "version": "1.0.0", "reply": "fail", "code": 100, "plan": ""} for it in ("sample/ruby", "sample/extra")]
    (folder / "replies.json").write_text(json.dumps(found))
    marks = "===> ANALYZING\n===> DETECTING\nasked sample/jdk@1.0.0: pass\n===> RESTORING\n===> BUILDING\n"
    results = f"reused sample/jdk:jre\nadded sample/web:static\nimage {folder.parent.name} 5 rows\n"
    (folder / "build.log").write_text(f"{marks}building sample/jdk@1.0.0\nthe JRE\n===> EXPORTING\nstored\n{results}")
    texts = texts_of(folder, home)
    for words in (
        "Group 3 chosen The first group that passes. Without: sample/extra@1.0.0 failed (100).",
        "A line asked says how one ended. asked sample/jdk@1.0.0: pass While sample/jdk@1.0.0 was built (1.1 s) the JRE",
        "While the image was made stored Image",
    ):
        assert words in texts, words


def test_many_groups(tmp_path: Path) -> None:
    """4,096 groups that fail for reasons of their own."""
    home = home_in(tmp_path)
    replies = {f"sample/a-buildpack-with-a-long-name-{number}@1.0.0": (100 + number % 2, "") for number in range(4_096)}
    groups = [[key.partition("@")[0], "sample/a-buildpack-with-a-long-name-0?"] for key in replies]
    folder = a_refused_detection(home, groups, replies)
    begin = time.monotonic()
    page = page_of(folder, home)
    assert len(page.encode()) <= LARGEST_PAGE
    assert "group 2,000: sample/a-buildpack-with-a-long-name-1999@1.0.0 erred (101)" in page
    assert "Group 4,096" in page
    assert time.monotonic() - begin < 120


def test_large_groups_with_one_reason(tmp_path: Path) -> None:
    """4,096 groups of two composites' 64 groups each, which fail for one reason."""
    home = home_in(tmp_path)
    folder = home.builder("sample") / "buildpacks"
    members = [f"m{number}" for number in range(30)]
    for name in ("left", "right"):
        buildpack(folder, f"{name}@1.0.0", order_of([[f"{name}{number}?"] for number in range(64)]))
    replies: dict[str, tuple[int | None, str]] = {f"{name}@1.0.0": (0, "") for name in members[1:]}
    replies |= {f"{side}{number}@1.0.0": (0, "") for side in ("left", "right") for number in range(64)}
    replies["m0@1.0.0"] = (100, "")
    texts = texts_of(a_refused_detection(home, [["left", "right", *members]], replies), home)
    assert "Groups 1 to 4,096 passed over m0@1.0.0 failed (100)" in texts
    assert "and 8 more" in texts


def test_many_trials(tmp_path: Path) -> None:
    home = home_in(tmp_path)
    either = plan_of(requires=["p"]) + '[[or]]\n[[or.requires]]\nname = "q"\n'
    replies = {f"m{number}@1.0.0": (0, either) for number in range(16)}
    folder = a_refused_detection(home, [[f"m{number}" for number in range(16)]], replies)
    begin = time.monotonic()
    texts = texts_of(folder, home)
    assert "m0@1.0.0 requires p, which nobody provides (the longest of 65,536 trials)" in texts
    assert "65,536 trials failed trial 1: m0@1.0.0 requires p, which nobody provides" in texts
    assert "32,768 times: m0@1.0.0 requires q, unmet" in texts
    assert len(page_of(folder, home).encode()) <= LARGEST_PAGE
    assert time.monotonic() - begin < 120


def test_long_texts(tmp_path: Path) -> None:
    """Names and logs of a megabyte, all of which has to be escaped."""
    home = home_in(tmp_path)
    name = "<&\"'>" * 150_000
    replies = {"a@1.0.0": (0, plan_of(requires=[name])), "b@1.0.0": (0, plan_of(provides=[name]))}
    folder = a_refused_detection(home, [["a", "b"], ["b", "a?"]], replies)
    (folder / "detect.log").write_text(f"{name}\n" * 3)
    assert len(page_of(folder, home).encode()) <= LARGEST_PAGE


@pytest.mark.parametrize("text", ["\x00\x07\x1b]0;title\x07", "\u202egnorw", "\udcff", "\x1b[2J\x1b[31mred\x1b[0m"])
def test_what_a_terminal_would_obey_is_not_shown(tmp_path: Path, text: str) -> None:
    home = home_in(tmp_path)
    folder = a_build(home)
    (folder / "build.log").write_bytes(b"building sample/jdk@1.0.0\n" + text.encode("utf-8", "surrogateescape") + b"end\n")
    page = page_of(folder, home)
    assert not re.search("[\x00-\x08\x0b-\x1f\x7f\u202e\udc00-\udfff]", page)
    assert "end</pre>" in page
