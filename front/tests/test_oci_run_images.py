"""Run images of roots and layouts, what is said of them, and what is ignored by a build."""

import subprocess
from pathlib import Path

import pytest
from click.testing import CliRunner
from tests.oci_samples import MadeLayout, folder_entry, found_program, lay

from cnb.documents import Buildpack
from cnb.failure import Failure
from cnb.oci.command import run_image, run_images
from cnb.oci.ignored import ignored_by_build
from cnb.oci.losses import ALWAYS
from cnb.oci.root import copied, path_of


@pytest.fixture
def home(tmp_path: Path, monkeypatch: pytest.MonkeyPatch) -> Path:
    found_program()
    monkeypatch.setenv("CNB_HOME", str(tmp_path / "home"))
    return tmp_path


def test_a_run_image_of_a_layout_says_what_is_lost(home: Path) -> None:
    config = {"User": "guest", "Labels": {"a": "b"}, "ExposedPorts": {"80/tcp": {}}, "Volumes": {"/data": {}}, "StopSignal": "SIGINT"}
    place = MadeLayout(home / "layout", [folder_entry("etc", uid=7)], {"Env": ["PATH=/bin"], **config}).write()
    done = CliRunner(mix_stderr=False).invoke(run_image, ["add", "slim", "--oci", place])
    assert done.exit_code == 0, done.stderr
    assert done.stdout == "slim is a run image: cnb build APP --run-image slim\n"
    said = [line for line in done.stderr.splitlines() if not line.startswith("the launcher")]
    assert said == [
        "lost, owners other than root: 1 (etc)",
        ALWAYS,
        "kept for `cnb save` alone, volumes: 1 (/data)",
        "kept for `cnb save` alone, the signal that stops it: 1 (SIGINT)",
    ]
    listed = CliRunner().invoke(run_images)
    assert listed.output == "slim  linux/amd64  user guest\n"


def test_a_run_image_that_is_made_anew_forgets_its_user(home: Path) -> None:
    configs: list[dict[str, str]] = [{"User": "guest"}, {}]
    for number, config in enumerate(configs):
        place = MadeLayout(home / f"layout-{number}", [folder_entry("etc")], dict(config)).write()
        assert CliRunner().invoke(run_image, ["add", "slim", "--oci", place]).exit_code == 0
    assert CliRunner().invoke(run_images).output == "slim  linux/amd64\n"


@pytest.mark.parametrize("words", [[], ["--root", "/", "--oci", "x"]])
def test_a_run_image_is_made_of_one_thing(home: Path, words: list[str]) -> None:
    done = CliRunner(mix_stderr=False).invoke(run_image, ["add", "slim", *words])
    assert done.exit_code == 2 and "either a root folder" in done.stderr


def test_a_root_is_copied_without_what_a_container_has_of_its_own(tmp_path: Path) -> None:
    root = lay(tmp_path / "root", {"etc/environment": 'PATH="/one:/two"\n', "bin/set": ""})
    (root / "bin/set").chmod(0o4755)
    subprocess.run(["mkfifo", str(root / "pipe")], check=True)
    losses = copied(root, tmp_path / "copy")
    assert (losses.left_out, losses.set_bits) == (["pipe"], ["bin/set"])
    assert sorted(path.name for path in (tmp_path / "copy").iterdir()) == ["bin", "etc"]
    assert path_of(root) == "/one:/two"


def test_a_root_that_has_the_room_of_its_copy_is_copied_without_it(tmp_path: Path) -> None:
    root = lay(tmp_path / "root", {"etc/release": "one", "tmp/room/kept": ""})
    copied(root, root / "tmp/room/copy")
    found = {str(path.relative_to(root / "tmp/room/copy")) for path in (root / "tmp/room/copy").rglob("*")}
    assert found == {"etc", "etc/release", "tmp"}


def test_names_of_a_layout_are_said_in_one_line(home: Path) -> None:
    place = MadeLayout(home / "layout", [folder_entry("etc\n\x1b[2J", uid=7)]).write()
    done = CliRunner(mix_stderr=False).invoke(run_image, ["add", "slim", "--oci", place])
    assert done.stderr.splitlines()[0] == "lost, owners other than root: 1 (etc\\n\\x1b[2J)"


def test_a_root_without_bin_is_refused(home: Path) -> None:
    (home / "root").mkdir()
    done = CliRunner().invoke(run_image, ["add", "slim", "--root", str(home / "root")])
    assert isinstance(done.exception, Failure) and done.exception.message == f"{home}/root is no root folder: it has no bin."


def test_sbom_files_and_keys_of_targets_are_told_once_a_buildpack(tmp_path: Path) -> None:
    targets = '[[targets]]\nos = "linux"\nvariant = "v8"\n[[targets.distros]]\nname = "debian"\n[[targets]]\nvariant = "v7"\n'
    lay(tmp_path, {"buildpacks/sample_a/1.0.0/buildpack.toml": targets, "buildpacks/sample_b/1.0.0/buildpack.toml": ""})
    lay(tmp_path / "layers/sample_a", {"launch.sbom.cdx.json": "", "venv.sbom.spdx.json": "", "venv.toml": "", "sbom.json": ""})
    group = [Buildpack("sample/a", "1.0.0"), Buildpack("sample/b", "1.0.0"), Buildpack("sample/gone", "1.0.0")]
    assert ignored_by_build(tmp_path / "buildpacks", tmp_path / "layers", group) == [
        "ignored, SBOM files of sample/a@1.0.0: 2 (launch.sbom.cdx.json, venv.sbom.spdx.json)",
        "ignored in the targets of sample/a@1.0.0: distros, variant; os and arch alone are compared",
    ]
