"""Why no group passed: the words, the record of a refusal, and both beside a plain search over drawn orders."""

import random
import time
from collections.abc import Mapping, Sequence
from pathlib import Path
from typing import Any

import pytest
from tests.report_builds import buildpack, order_of, plan_of, replies_of, script

from cnb.report.orders import Catalog
from cnb.report.refusal import explain, search

drawn_records = script("samples/drawn-records")


def checked(room: Path) -> str:
    """What samples/check-record says of the refusal in a room."""
    checker = drawn_records.checker
    try:
        words = checker.checked(room / "build/order.toml", room / "buildpacks", room / "work", room / "build/refusal")
        return " ".join(["checked", *words])
    except checker.Refused as refused:
        return " ".join(["error", *map(str, refused.args)])


def build_of(room: Path, order: str, replies: Mapping[str, tuple[int | None, str]], target: str = "") -> Path:
    """The folder of a build that ended with 20 or 21; buildpacks that aren't there are made."""
    build = room / "build"
    build.mkdir()
    (build / "order.toml").write_text(order)
    if target:
        system, processor = target.split("/")
        (build / "analyzed.toml").write_text(f'run = "run"\nos = "{system}"\narch = "{processor}"\n')
    for key in replies:
        if not (room / "buildpacks" / key.partition("@")[0].replace("/", "_")).exists():
            buildpack(room / "buildpacks", key)
    (build / "replies.json").write_text(replies_of(replies))
    return build


def said(room: Path, groups: Sequence[Sequence[str]], replies: Mapping[str, tuple[int | None, str]], target: str = "") -> list[str]:
    lines = explain(build_of(room, order_of(groups), replies, target), room / "buildpacks")
    assert checked(room) == "checked none"
    return lines


def test_a_requirement_that_nobody_provides(tmp_path: Path) -> None:
    assert said(tmp_path, [["sample/ruby"]], {"sample/ruby@1.0.0": (0, plan_of(requires=["ruby"]))}) == [
        "group 1: sample/ruby@1.0.0 requires ruby, which nobody provides"
    ]


def test_something_provided_that_nobody_requires(tmp_path: Path) -> None:
    assert said(tmp_path, [["a"]], {"a@1.0.0": (0, plan_of(provides=["p"]))}) == ["group 1: a@1.0.0 provides p, which nobody requires"]


def test_a_provider_that_comes_later(tmp_path: Path) -> None:
    replies = {"a@1.0.0": (0, plan_of(requires=["p"])), "b@1.0.0": (0, plan_of(provides=["p"]))}
    assert said(tmp_path, [["a", "b"]], replies) == ["group 1: a@1.0.0 requires p, which only b@1.0.0 behind it provides"]


def test_a_provider_that_was_left_out(tmp_path: Path) -> None:
    replies = {"a@1.0.0": (0, plan_of(provides=["p"], requires=["q"])), "b@1.0.0": (0, plan_of(requires=["p"]))}
    assert said(tmp_path, [["a?", "b"]], replies) == [
        "group 1: b@1.0.0 requires p, which only a member that was left out provides: a@1.0.0 requires q, which nobody provides"
    ]


def test_a_long_chain_of_members_that_were_left_out(tmp_path: Path) -> None:
    names = [f"m{number}" for number in range(9)]
    replies = {f"{name}@1.0.0": (0, plan_of(provides=[f"p{at}"], requires=[f"p{at - 1}"])) for at, name in enumerate(names)}
    (line,) = said(tmp_path, [[*(f"{name}?" for name in names[:-1]), names[-1]]], replies)
    assert line.startswith("group 1: m8@1.0.0 requires p7, which only a member that was left out provides: m7@1.0.0 requires p6,")
    assert line.endswith("m4@1.0.0 requires p3, which only a member that was left out provides")


def test_another_target(tmp_path: Path) -> None:
    buildpack(tmp_path / "buildpacks", "sample/jvm@2.0.0", '[[targets]]\nos = "linux"\narch = "amd64"\n[[targets]]\nos = "windows"\n')
    assert said(tmp_path, [["sample/jvm"]], {}, "linux/arm64") == [
        "group 1: sample/jvm@2.0.0 isn't for linux/arm64 (targets: linux/amd64, windows/any)"
    ]


def test_each_way_of_not_passing(tmp_path: Path) -> None:
    replies = {"a@1.0.0": (100, ""), "b@1.0.0": (7, ""), "c@1.0.0": (None, ""), "d@1.0.0": (0, "no TOML")}
    assert said(tmp_path, [["a"], ["b"], ["c"], ["d"]], replies) == [
        "group 1: a@1.0.0 failed (100)",
        "group 2: b@1.0.0 erred (7)",
        "group 3: c@1.0.0 erred: no exit code of it is known",
        "group 4: d@1.0.0 erred: its Build Plan can't be read",
    ]


def test_a_plan_that_is_no_utf8(tmp_path: Path) -> None:
    build = build_of(tmp_path, order_of([["a"]]), {"a@1.0.0": (0, 'name = "\udcff"')})
    assert explain(build, tmp_path / "buildpacks") == ["group 1: a@1.0.0 erred: its Build Plan can't be read"]
    assert checked(tmp_path) == "checked none"


def test_optional_members_alone(tmp_path: Path) -> None:
    assert said(tmp_path, [["a?", "b?"]], {"a@1.0.0": (100, ""), "b@1.0.0": (1, "")}) == [
        "group 1: none of its members passes: a@1.0.0 failed (100), b@1.0.0 erred (1)"
    ]


def test_no_groups(tmp_path: Path) -> None:
    (tmp_path / "buildpacks").mkdir()
    assert explain(build_of(tmp_path, '[[orders]]\ngroup = [{ id = "a" }]\n', {}), tmp_path / "buildpacks") == [
        "the order has no groups: is it a list named order?"
    ]
    assert checked(tmp_path) == "checked none"


def test_the_trial_that_got_furthest(tmp_path: Path) -> None:
    plan = plan_of(requires=["x"]) + '[[or]]\n[[or.requires]]\nname = "y"\n'
    replies = {"a@1.0.0": (0, plan_of(requires=["z"]) + "[[or]]\n"), "b@1.0.0": (0, plan)}
    assert said(tmp_path, [["a", "b"]], replies) == [
        "group 1: b@1.0.0 requires x, which nobody provides (the longest of 4 trials)"
    ]


def test_groups_with_one_reason_have_one_line(tmp_path: Path) -> None:
    replies: Mapping[str, tuple[int | None, str]] = {"a@1.0.0": (100, ""), "b@1.0.0": (1, "")}
    assert said(tmp_path, [["a"], ["a", "b"], ["b"]], replies) == ["groups 1 and 2: a@1.0.0 failed (100)", "group 3: b@1.0.0 erred (1)"]


def test_composites(tmp_path: Path) -> None:
    buildpack(tmp_path / "buildpacks", "s@1.0.0", order_of([["a", "b"], ["b"]]))
    replies: Mapping[str, tuple[int | None, str]] = {"a@1.0.0": (100, ""), "b@1.0.0": (1, ""), "c@1.0.0": (2, "")}
    assert said(tmp_path, [["s?", "c"]], replies) == [
        "group 1: a@1.0.0 failed (100)",
        "group 2: b@1.0.0 erred (1)",
        "group 3: c@1.0.0 erred (2)",
    ]


def test_many_trials_end_soon(tmp_path: Path) -> None:
    either = '[[requires]]\nname = "p"\n[[or]]\n[[or.requires]]\nname = "q"\n'
    replies = {f"m{number}@1.0.0": (0, either) for number in range(16)}
    begin = time.monotonic()
    lines = said(tmp_path, [[f"m{number}" for number in range(16)]], replies)
    assert lines == ["group 1: m0@1.0.0 requires p, which nobody provides (the longest of 65,536 trials)"]
    assert time.monotonic() - begin < 60


def test_too_many_trials_leave_no_record(tmp_path: Path) -> None:
    either = '[[requires]]\nname = "p"\n[[or]]\n[[or.requires]]\nname = "q"\n'
    replies = {f"m{number}@1.0.0": (0, either) for number in range(16)}
    groups = [[f"m{number}" for number in range(16)]] * 5
    lines = explain(build_of(tmp_path, order_of(groups), replies), tmp_path / "buildpacks")
    assert not (tmp_path / "build/refusal").exists()
    assert lines[-1] == "group 5: none of its 65,536 trials passes"


def test_replies_that_show_no_refusal(tmp_path: Path) -> None:
    build = build_of(tmp_path, order_of([["a"]]), {"a@1.0.0": (0, "")})
    begin = "why no group passes can't be said: "
    assert explain(build, tmp_path / "buildpacks") == [f"{begin}{build}/replies.json: a group passes with these replies."]
    (build / "replies.json").write_text("[]")
    assert explain(build, tmp_path / "buildpacks") == [f"{begin}The build kept no reply of a@1.0.0."]
    assert not (build / "refusal").exists()


# Drawn orders.


def stage(drawn: Any, room: Path) -> Path:
    drawn_records.stage(drawn, room)
    replies = {f"{name}@1.0.0": answer for name, answer in drawn.answers.items()}
    return build_of(room, drawn_records.order(drawn.order), replies, "/".join(drawn.target or ()))


def replies_in(text: str) -> dict[str, tuple[str, bytes]]:
    lines = [line.split(" ") for line in text.split("\n") if line.startswith("answer ")]
    return {it[1]: (it[3], bytes.fromhex(it[4].strip("-"))) for it in lines}


@pytest.mark.parametrize("seed", range(4))
def test_drawn_orders(tmp_path: Path, seed: int) -> None:
    """What is found of a drawn order is what a plain search finds, and check-record follows it, whole and changed."""
    draw, refused = random.Random(seed), 0
    for number in range(60):
        room = tmp_path / str(number)
        drawn = drawn_records.Drawn(draw)
        build = stage(drawn, room)
        given = {name: (str(code), plan.encode()) for name, (code, plan) in drawn.answers.items()}
        found = drawn_records.search(drawn, drawn.target, given)
        if found:
            tried = search(build, Catalog(room / "buildpacks")).outcomes
            assert (len(tried) - 1, tried[-1].kind, len(tried[-1].drops)) == (found[0], "chosen", found[1])
            continue
        refused += 1
        assert len(explain(build, room / "buildpacks")) >= 1
        assert checked(room) == "checked none"
        follow_changed(draw, drawn, room)
    assert refused >= 5


def follow_changed(draw: random.Random, drawn: Any, room: Path) -> None:
    """A changed refusal that check-record accepts is one of replies with which a plain search finds nothing either."""
    path = room / "build/refusal"
    text = path.read_text()
    for _ in range(3):
        changed = drawn_records.changed(draw, text)
        path.write_text(changed)
        result = checked(room)
        assert result == "checked none" or result.startswith("error 22 BadRecord "), result
        if result == "checked none":
            target = changed.split("\n")[1].split(" ")[1:]
            assert drawn_records.search(drawn, None if target == ["none"] else tuple(target), replies_in(changed)) is None
