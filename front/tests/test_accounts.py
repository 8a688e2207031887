"""The user of an image as numbers."""

from pathlib import Path

import pytest

from cnb.accounts import numbers_of
from cnb.failure import Failure


@pytest.fixture
def root(tmp_path: Path) -> Path:
    (tmp_path / "etc").mkdir()
    (tmp_path / "etc/passwd").write_text("root:x:0:0:root:/root:/bin/sh\nweb:x:33:34::/var/www:/bin/sh\nbroken:x:\n")
    (tmp_path / "etc/group").write_text("root:x:0:\nweb:x:34:\nlogs:x:40:web\n")
    return tmp_path


@pytest.mark.parametrize(
    ("user", "numbers"),
    [("web", (33, 34)), ("33", (33, 34)), ("7", (7, 0)), ("7:8", (7, 8)), ("web:logs", (33, 40)), ("7:logs", (7, 40))],
)
def test_users(root: Path, user: str, numbers: tuple[int, int]) -> None:
    assert numbers_of(root, user) == numbers


@pytest.mark.parametrize(("user", "lacking"), [("nobody", "etc/passwd"), ("broken", "etc/passwd"), ("web:nobody", "etc/group")])
def test_users_that_are_not_known(root: Path, user: str, lacking: str) -> None:
    with pytest.raises(Failure, match=lacking):
        numbers_of(root, user)


def test_a_link_is_not_followed_out_of_the_root(root: Path, tmp_path_factory: pytest.TempPathFactory) -> None:
    outside = tmp_path_factory.mktemp("outside") / "passwd"
    outside.write_text("outer:x:5:5:::\n")
    (root / "etc/passwd").unlink()
    (root / "etc/passwd").symlink_to(outside)
    with pytest.raises(Failure, match="has no 'outer'"):
        numbers_of(root, "outer")
