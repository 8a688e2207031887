"""What tests are given: a home with a run image, and an application.

Where CNB_LAUNCHER names a launcher, images get that one, else the program itself."""

from pathlib import Path

import pytest

from tests.front_home import Front, carry, carry_libraries, environment_of, found_program, write_run_image


@pytest.fixture(scope="session")
def front(tmp_path_factory: pytest.TempPathFactory) -> Front:
    """A home with the run image `tools`, on a path with a space."""
    room = tmp_path_factory.mktemp("the front")
    program, user = found_program(), room / "user"
    user.mkdir()
    (user / "secret").write_text("the user's own")
    made = Front(room / "home", room, environment_of(room / "home", user, program))
    carry(room / "root", "sh", "env", "nice", "cat", "sleep", "ls")
    carry_libraries(room / "root", str(program.path))
    made.home.mkdir(mode=0o700)
    write_run_image(program, made.home / "store", "tools", room / "root")
    return made


@pytest.fixture
def source(tmp_path: Path) -> Path:
    """An application of two files."""
    folder = tmp_path / "source"
    folder.mkdir()
    (folder / "main.sh").write_text("echo main\n")
    (folder / "notes.txt").write_text("notes\n")
    return folder
