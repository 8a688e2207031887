"""Builders: what they are made of, and what is refused."""

import io
import json
import tarfile
from pathlib import Path

import pytest

from tests.front_home import Front, carry, carry_libraries, contents_of, write_buildpack

ORDER = '[[order]]\n[[order.group]]\nid = "test/one"\n'


def config(folder: Path, text: str) -> str:
    path = folder / "builder.toml"
    path.write_text(text)
    return str(path)


def test_of_folders_and_archives(front: Front, tmp_path: Path) -> None:
    write_buildpack(tmp_path, "test/one")
    for name, form, top in (("two.tgz", "w:gz", "."), ("three.tar", "w", "inner")):
        with tarfile.open(tmp_path / name, form) as archive:
            archive.add(write_buildpack(tmp_path / "packed", f"test/{name.partition('.')[0]}"), top)
    text = '[[buildpacks]]\nuri = "test_one"\nid = "test/one"\n'
    text += '[[buildpacks]]\nuri = "two.tgz"\n[[buildpacks]]\nuri = "file://three.tar"\n'
    words = ("builder", "create", "packed", "--config", config(tmp_path, f'{text}{ORDER}[lifecycle]\nversion = "1"\n'))
    ended = front.run(*words)
    assert (ended.returncode, ended.stdout) == (0, "builder packed: 3 buildpacks\n")
    assert "lifecycle has no effect" in ended.stderr
    data = json.loads(front.done("builder", "inspect", "packed", "--json"))
    assert [buildpack["id"] for buildpack in data["buildpacks"]] == ["test/one", "test/three", "test/two"]
    assert "packed" in [row["name"] for row in json.loads(front.done("builders", "--json"))]


def test_of_a_root(front: Front, tmp_path: Path, source: Path) -> None:
    """The root of a builder image: buildpacks see its folders, and not the machine's."""
    root = tmp_path / "root"
    carry(root, "bash", "cat", "ls")
    carry_libraries(root, front.environment["LIFECYCLE"])
    place = root / "cnb" / "buildpacks" / "test_one"
    place.mkdir(parents=True)
    write_buildpack(tmp_path, "test/one", build="cat /opt/mark; ls -d /bin/* /cnb/*").rename(place / "1.0.0")
    (root / "cnb" / "order.toml").write_text('[[order]]\ngroup = [{ id = "test/one" }]\n')
    (root / "opt").mkdir()
    (root / "opt" / "mark").write_text("of the root\n")
    front.done("builder", "create", "rooted", "--root", str(root), "--run-image", "tools")
    assert json.loads(front.done("builder", "inspect", "rooted", "--json"))["run_images"] == ["tools"]
    ended = front.run("build", "rooted", "--path", str(source), "--builder", "rooted")
    assert ended.returncode == 0, ended.stderr
    said = [line.strip() for line in ended.stderr.splitlines()]
    programs, folders = ["/bin/bash", "/bin/cat", "/bin/ls"], ["buildpacks", "lifecycle", "order.toml", "work"]
    assert said == ["of the root", *programs, *(f"/cnb/{name}" for name in folders)]


def test_a_builder_is_replaced_whole_or_not(front: Front, tmp_path: Path) -> None:
    write_buildpack(tmp_path, "test/one")
    good = f'[[buildpacks]]\nuri = "test_one"\n{ORDER}'
    front.done("builder", "create", "replaced", "--config", config(tmp_path, good))
    before = contents_of(front.home / "builders")
    ended = front.run(
        "builder", "create", "replaced", "--config", config(tmp_path, good.replace('id = "test/one"', 'id = "test/two"'))
    )
    assert (ended.returncode, "error 13 Order Absent test/two" in ended.stderr) == (13, True)
    assert contents_of(front.home / "builders") == before


@pytest.mark.parametrize(
    ("uri", "said"),
    [
        ("docker://docker.io/example/buildpack", "is an address"),
        ("https://example.org/buildpack.tgz", "is an address"),
        ("urn:cnb:registry:example/java", "is an address"),
        ("buildpack.cnb", "is an image in a file"),
        ("absent", "isn't there"),
        ("empty", "has no buildpack.toml"),
        ("text", "is neither a folder"),
        ("out.tar", "leads out"),
        ("device.tar", "neither a file, a folder nor a symbolic link"),
        ("broken.tgz", "can't be unpacked"),
    ],
)
def test_what_no_builder_is_made_of(front: Front, tmp_path: Path, uri: str, said: str) -> None:
    (tmp_path / "empty").mkdir()
    for name in ("text", "buildpack.cnb", "broken.tgz"):
        (tmp_path / name).write_text("text")
    with tarfile.open(tmp_path / "out.tar", "w") as archive:
        archive.addfile(tarfile.TarInfo("../out"), io.BytesIO())
    with tarfile.open(tmp_path / "device.tar", "w") as archive:
        device = tarfile.TarInfo("device")
        device.type = tarfile.CHRTYPE
        archive.addfile(device)
    ended = front.run("builder", "create", "refused", "--config", config(tmp_path, f'[[buildpacks]]\nuri = "{uri}"\n{ORDER}'))
    assert ended.returncode == 1
    assert said in ended.stderr
    assert not (front.home / "builders" / "refused").exists()
    assert not (tmp_path.parent / "out").exists()


def test_a_link_in_an_archive_is_not_written_through(front: Front, tmp_path: Path) -> None:
    outside = tmp_path / "outside"
    outside.mkdir()
    with tarfile.open(tmp_path / "linked.tar", "w") as archive:
        link = tarfile.TarInfo("bin")
        link.type, link.linkname = tarfile.SYMTYPE, str(outside)
        archive.addfile(link)
        archive.addfile(tarfile.TarInfo("bin/detect"), io.BytesIO())
    front.run("builder", "create", "linked", "--config", config(tmp_path, f'[[buildpacks]]\nuri = "linked.tar"\n{ORDER}'))
    assert list(outside.iterdir()) == []


@pytest.mark.parametrize(
    ("text", "said"),
    [
        ("[[order]]\ngroup = 1\n", "isn't a list of groups"),
        ('[[buildpacks]]\nid = "test/one"\n', "buildpacks.0 has no uri"),
        ('[[buildpacks]]\nuri = "test_one"\nversion = "2.0.0"\n', "names test/one@2.0.0"),
        ('[[buildpacks]]\nuri = "test_one"\n[[buildpacks]]\nuri = "test_one"\n', "two buildpacks test/one@1.0.0"),
        ('[build]\nimage = "docker.io/example/build"\n', "is no folder"),
    ],
)
def test_builder_files_that_are_refused(front: Front, tmp_path: Path, text: str, said: str) -> None:
    write_buildpack(tmp_path, "test/one")
    ended = front.run("builder", "create", "refused", "--config", config(tmp_path, text))
    assert ended.returncode == 1
    assert said in ended.stderr


def test_a_new_buildpack_runs(front: Front, tmp_path: Path, source: Path) -> None:
    write_buildpack(tmp_path, "test/one")
    front.done(
        "builder",
        "create",
        "any",
        "--config",
        config(tmp_path, f'[[buildpacks]]\nuri = "test_one"\n{ORDER}[[run.images]]\nimage = "tools"\n'),
    )
    folder = str(tmp_path / "mine")
    assert "is a buildpack" in front.done("buildpack", "new", "example/mine", "--path", folder)
    printed = front.done("build", "mine", "--path", str(source), "--builder", "any", "--buildpack", folder)
    assert "chosen: example/mine 0.0.1" in printed
    assert front.run("buildpack", "new", "example/mine", "--path", folder).returncode == 1
    assert front.run("buildpack", "new", "no id").returncode == 1
