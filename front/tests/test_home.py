"""The home, its names and its locks."""

from pathlib import Path

import pytest

from cnb.failure import Failure
from cnb.home import Home, checked_name, remove_tree
from cnb.locks import held, tried


@pytest.mark.parametrize("name", ["a", "shop", "0.a_b-c", "a" * 128])
def test_names_of_images(name: str) -> None:
    assert checked_name(name) == name


@pytest.mark.parametrize("name", ["", ".", "..", "../a", "a/b", "A", "-a", ".a", "a b", "a\n", "é", "a" * 129])
def test_names_that_are_refused(name: str) -> None:
    with pytest.raises(Failure):
        checked_name(name)


def test_the_home_is_for_its_user_alone(tmp_path: Path, monkeypatch: pytest.MonkeyPatch) -> None:
    monkeypatch.setenv("CNB_HOME", str(tmp_path / "a folder" / "home"))
    home = Home.open()
    assert home.root == tmp_path / "a folder" / "home"
    assert home.root.stat().st_mode & 0o777 == 0o700
    assert Home.open().image_names() == []


def test_which_folder_is_the_home(tmp_path: Path, monkeypatch: pytest.MonkeyPatch) -> None:
    monkeypatch.delenv("CNB_HOME", raising=False)
    monkeypatch.setenv("HOME", str(tmp_path / "user"))
    monkeypatch.delenv("XDG_DATA_HOME", raising=False)
    assert Home.open().root == tmp_path / "user" / ".local" / "share" / "cnb"
    monkeypatch.setenv("XDG_DATA_HOME", str(tmp_path / "data"))
    assert Home.open().root == tmp_path / "data" / "cnb"


def test_a_home_that_cannot_be_made(tmp_path: Path, monkeypatch: pytest.MonkeyPatch) -> None:
    (tmp_path / "file").write_text("")
    monkeypatch.setenv("CNB_HOME", str(tmp_path / "file" / "home"))
    with pytest.raises(Failure, match="can't be made"):
        Home.open()


def test_removing_follows_no_link_and_enters_locked_folders(tmp_path: Path) -> None:
    kept = tmp_path / "kept"
    kept.mkdir()
    (kept / "file").write_text("kept")
    tree = tmp_path / "tree"
    (tree / "locked" / "inner").mkdir(parents=True)
    (tree / "locked" / "inner" / "file").write_text("")
    (tree / "link").symlink_to(kept)
    (tree / "locked" / "inner").chmod(0)
    (tree / "locked").chmod(0)
    remove_tree(tree)
    assert not tree.exists()
    assert (kept / "file").read_text() == "kept"


def test_a_shared_lock_is_not_waited_for(tmp_path: Path) -> None:
    lock, waited = tmp_path / "lock", []
    with held(lock, shared=True):
        with tried(lock) as is_ours:
            assert not is_ours
        with held(lock, shared=True, waiting=lambda: waited.append(True)):
            pass
    with tried(lock) as is_ours:
        assert is_ours
    assert waited == []
