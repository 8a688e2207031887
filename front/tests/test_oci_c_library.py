"""Whether a root has what the launcher needs of the system."""

import shutil
import subprocess
from pathlib import Path

import pytest
from tests.oci_samples import lay

pytest.importorskip("elftools")

from cnb.oci.c_library import needs_of, unfit_for  # noqa: E402


def root_with_libraries(program: Path, root: Path) -> Path:
    """A root with what `ldd` names for a program, and /lib as a link as in a merged /usr."""
    (root / "usr/lib").mkdir(parents=True)
    (root / "lib").symlink_to("/usr/lib")
    for line in subprocess.run(["ldd", str(program)], check=True, capture_output=True, text=True).stdout.splitlines():
        for word in line.split():
            if word.startswith("/"):
                place = root / "usr" / word.removeprefix("/usr").lstrip("/")
                place.parent.mkdir(parents=True, exist_ok=True)
                shutil.copy(word, place)
    (root / "lib64").symlink_to("usr/lib64")
    return root


def test_a_root_with_the_libraries_of_the_launcher_is_fit(tmp_path: Path) -> None:
    program = Path("/bin/ls")
    assert needs_of(program).loader is not None and "libc.so.6" in needs_of(program).libraries
    root = root_with_libraries(program, tmp_path / "root")
    assert unfit_for(program, root) == []


def test_a_root_without_them_is_told(tmp_path: Path) -> None:
    program = Path("/bin/ls")
    said = unfit_for(program, lay(tmp_path / "root", {"etc/release": ""}))
    assert any("the loader of programs" in line for line in said) and any(line.endswith("it has no libc.so.6") for line in said)


def test_a_c_library_that_is_too_old_is_told(tmp_path: Path) -> None:
    program = Path("/bin/ls")
    root = root_with_libraries(program, tmp_path / "root")
    other = next(path for path in root.rglob("libc.so.6"))
    shutil.copy(next(path for path in root.rglob("ld-linux*")), other)
    (said,) = unfit_for(program, root)
    assert "it has a libc.so.6 without GLIBC_2." in said


def test_what_is_no_program_is_told(tmp_path: Path) -> None:
    lay(tmp_path, {"launcher": "text"})
    (said,) = unfit_for(tmp_path / "launcher", tmp_path)
    assert said.startswith("whether the launcher can start on this root isn't known")
