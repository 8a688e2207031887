"""Help, completion and the manual page: each has every command and option."""

import re
from collections.abc import Iterator

import click
import pytest

from tests.front_home import FRONT, Front

from cnb.cli import cnb
from cnb.words import Command, Group

DOCS = FRONT.parent / "docs"


def commands(group: click.Group, before: str = "") -> Iterator[tuple[str, click.Command]]:
    for name, command in group.commands.items():
        if isinstance(command, click.Group):
            yield from commands(command, f"{before}{name} ")
        elif not command.hidden:
            yield before + name, command


ALL = dict(commands(cnb))


@pytest.mark.parametrize("words", [[], *(name.split() for name in ALL), ["builder"], ["buildpack"], ["run-image"]])
def test_help_has_an_example(front: Front, words: list[str]) -> None:
    ended = front.run(*words, "--help")
    assert ended.returncode == 0
    assert re.search(r"\nExample:\n  cnb .+\n$", ended.stdout)
    assert max(map(len, ended.stdout.splitlines())) <= 120


def test_without_words_the_help_is_shown(front: Front) -> None:
    assert "cnb build shop --path samples/apps/shell && cnb run shop" in front.run().stdout


def test_each_option_has_its_help() -> None:
    for name, command in ALL.items():
        assert isinstance(command, Command), name
        for parameter in command.params:
            assert not isinstance(parameter, click.Option) or parameter.help, (name, parameter.name)


def test_the_manual_page_has_each_command_and_option() -> None:
    page = re.sub(r"\\&|\\-", "-", (DOCS / "cnb.1").read_text())
    for name, command in ALL.items():
        assert re.search(rf"^\.Cm {name}$", page, re.MULTILINE), name
        for parameter in command.params:
            for option in parameter.opts if isinstance(parameter, click.Option) else ():
                assert re.search(rf"Fl {option[1:]}\b", page), (name, option)


def test_the_manual_page_has_no_other_option() -> None:
    known = {option[1:] for command in ALL.values() for parameter in command.params for option in parameter.opts} | {"-help"}
    named = set(re.findall(r"\bFl (-?[a-z-]+)", (DOCS / "cnb.1").read_text(), re.IGNORECASE))
    assert named <= known


def test_the_completion_is_that_of_click(front: Front) -> None:
    generated = front.done(env={"_CNB_COMPLETE": "bash_source"})
    first, _, rest = (DOCS / "cnb.bash").read_text().partition("\n")
    assert first.startswith("# ")
    assert rest.strip() == generated.strip()


def test_names_are_completed(front: Front) -> None:
    words = {"_CNB_COMPLETE": "bash_complete", "COMP_CWORD": "4"}
    printed = front.done(env={**words, "COMP_WORDS": "cnb build shop --run-image t"})
    assert printed == "plain,tools\n"
    assert front.done(env={**words, "COMP_CWORD": "1", "COMP_WORDS": "cnb reb"}) == "plain,rebase\n"


@pytest.mark.parametrize(
    ("words", "near"),
    [(["isnpect"], "inspect"), (["builder", "crate"], "create"), (["build", "--evn"], "--env"), (["imagse"], "images")],
)
def test_the_nearest_right_word(front: Front, words: list[str], near: str) -> None:
    ended = front.run(*words)
    assert ended.returncode == 1
    assert near in ended.stderr.partition("Error: ")[2]


def test_a_group_keeps_the_order_of_its_commands() -> None:
    assert isinstance(cnb, Group)
    assert list(cnb.commands)[:2] == ["build", "run"]
