"""`cnb build`: what is built of which words, and what a person is told."""

import json
import os
import pty
import socket
import subprocess
import tarfile
from pathlib import Path

import pytest

from tests.front_home import COMMAND, Front, contents_of, write_buildpack

from cnb.documents import read_image

WEB = 'printf \'[[processes]]\\ntype = "web"\\ncommand = ["sh", "main.sh"]\\ndefault = true\\n\' > "$1/launch.toml"'
LAYER = 'mkdir -p "$1/kept"; echo kept > "$1/kept/file"; printf "[types]\\nlaunch = true\\ncache = true\\n" > "$1/kept.toml"'


@pytest.fixture(scope="session")
def builder(front: Front) -> str:
    """A builder of one buildpack with one layer."""
    front.builder("web", write_buildpack(front.room / "buildpacks", "test/web", build=f"echo printed; {LAYER}; {WEB}"))
    return "web"


def lines_of(text: str) -> list[str]:
    """Lines without the parts that differ from call to call."""
    return [line.split(" (0.")[0].split(" new, ")[0] for line in text.splitlines()]


def test_what_is_said_of_a_build(front: Front, builder: str, source: Path) -> None:
    words = ("build", "said", "--path", str(source), "--builder", builder)
    first, second = front.run(*words), front.run(*words)
    assert first.returncode == second.returncode == 0, first.stderr
    assert first.stderr == second.stderr == "    printed\n"
    assert lines_of(first.stdout)[:4] == [
        "===> ANALYZING   run image tools, no image said before",
        "===> DETECTING   1 of 1 buildpacks asked",
        "chosen: test/web 1.0.0",
        "===> RESTORING",
    ]
    assert first.stdout.splitlines()[-1] == "said is built: cnb run said, cnb inspect said, cnb why said"
    assert lines_of(second.stdout)[3:6] == [
        "===> RESTORING   1 layer of the image before",
        "===> BUILDING    test/web 1.0.0",
        "===> EXPORTING   5 layers, 0",
    ]
    kept = json.loads((front.app("said") / "build" / "build.json").read_text())
    assert [phase["name"] for phase in kept["phases"]] == ["ANALYZING", "DETECTING", "RESTORING", "BUILDING", "EXPORTING"]
    assert [phase["printed"] for phase in kept["phases"]][3:] == [
        ["built test/web@1.0.0"],
        ["reused test/web:kept", "image said 5 rows"],
    ]
    assert (kept["builder"], kept["run_image"], kept["status"], kept["refusal"]) == (builder, "tools", 0, None)


def test_without_a_sandbox_the_image_is_the_same(front: Front, builder: str, source: Path) -> None:
    before = contents_of(source)
    front.done("build", "inside", "--path", str(source), "--builder", builder)
    printed = front.done("build", "outside", "--path", str(source), "--builder", builder, "--no-sandbox", "--workers", "2")
    inside, outside = (read_image(front.home / "store" / "images" / f"{name}.toml") for name in ("inside", "outside"))
    assert inside == outside
    assert printed.splitlines()[1:4] == ["===> DETECTING   1 of 1 buildpacks asked", "chosen: test/web 1.0.0", "===> RESTORING"]
    kept = json.loads((front.app("outside") / "build" / "build.json").read_text())
    assert [phase["name"] for phase in kept["phases"]] == ["ANALYZING", "DETECTING", "RESTORING", "BUILDING", "EXPORTING"]
    assert contents_of(source) == before


def test_data_of_a_build(front: Front, builder: str, source: Path) -> None:
    words = ("--path", str(source), "--json", "--builder")
    assert json.loads(front.done("build", "data", *words, builder))["status"] == 0
    front.builder("failing", write_buildpack(front.room / "buildpacks", "test/failing", build="echo why >&2; exit 3"))
    ended = front.run("build", "data", *words, "failing")
    assert ended.returncode == 51
    assert json.loads(ended.stdout)["refusal"] == "error 51 BuildFailed test/failing 3"
    assert "    why\n" in ended.stderr


def test_no_group(front: Front, source: Path) -> None:
    front.builder("none", write_buildpack(front.room / "buildpacks", "test/none", detect="echo no main.rb; exit 100"))
    ended = front.run("build", "none", "--path", str(source), "--builder", "none")
    assert ended.returncode == 20
    assert ended.stderr.splitlines()[:3] == [
        "    no main.rb",
        "group 1: test/none@1.0.0 failed (100)",
        "No group of buildpacks passes (error 20 NoGroup).",
    ]


@pytest.mark.parametrize("more", [(), ("--no-sandbox",)])
def test_buildpacks_that_end_without_an_end_of_line(front: Front, source: Path, tmp_path: Path, more: tuple[str, ...]) -> None:
    say = "printf 'printed'; printf 'said' >&2"
    ids = ("test/a", "test/b")
    front.builder("open", *(write_buildpack(tmp_path, id, detect=f"{say}; exit 100", build=say) for id in ids))
    words = ("build", "open", "--path", str(source), "--builder", "open", "--workers", "1", *more)
    ended = front.run(*words)
    assert ended.returncode == 20
    assert "===> DETECTING   2 of 2 buildpacks asked" in ended.stdout
    lines = [line for line in ended.stderr.splitlines() if not line.startswith("without a sandbox")]
    assert sorted(lines[:3]) == ["    printedprinted", "    said", "    said"]
    assert lines[3:5] == ["group 1: test/a@1.0.0 failed (100)", "No group of buildpacks passes (error 20 NoGroup)."]
    front.builder("open", *(write_buildpack(tmp_path, id, detect=say, build=say) for id in ids))
    ended = front.run(*words)
    assert ended.returncode == 0, ended.stderr
    assert "chosen: test/a 1.0.0, test/b 1.0.0" in ended.stdout
    kept = json.loads((front.app("open") / "build" / "build.json").read_text())
    assert [row["id"] for row in kept["buildpacks"]] == ["test/a", "test/b"]
    printed = [line for phase in kept["phases"] for line in phase["printed"]]
    assert {"pass test/a@1.0.0", "built test/a@1.0.0", "built test/b@1.0.0"} <= set(printed)


def test_names_that_are_no_text(front: Front, builder: str, tmp_path: Path) -> None:
    folder = os.fsencode(tmp_path) + b"/caf\xe9"
    ended = front.run("build", "bytes", "--path", os.fsdecode(folder), "--builder", builder)
    assert (ended.returncode, "caf\\udce9 is no folder" in ended.stderr) == (1, True)
    os.mkdir(folder)
    os.mkfifo(folder + b"/pip\xe9")
    ended = front.run("build", "bytes", "--path", os.fsdecode(folder), "--builder", builder, "--env", "A=\udcff")
    assert "left out of the application, since it is no file, folder or link: pip\\udce9" in ended.stderr
    assert (ended.returncode, "NotUtf8" in ended.stderr) == (4, True)
    assert "Traceback" not in ended.stderr
    front.done("why", "bytes")


def test_variables(front: Front, source: Path, tmp_path: Path) -> None:
    show = "for name in A B C D; do printf '%s=%s;' $name \"${!name}\"; done; echo"
    front.builder("variables", write_buildpack(tmp_path, "test/variables", build=show))
    (source / "project.toml").write_text(
        '[_]\nschema-version = "0.2"\n[io.buildpacks]\nbuilder = "variables"\n'
        '[[io.buildpacks.build.env]]\nname = "A"\nvalue = "project"\n[[io.buildpacks.build.env]]\nname = "B"\nvalue = "project"\n'
    )
    (tmp_path / "file").write_text("# a comment\nB=file\nC=file\n\nD\n")
    words = ("build", "variables", "--path", str(source), "--env-file", str(tmp_path / "file"), "--env", "C=of a word")
    ended = front.run(*words, env={"D": "own"})
    assert ended.stderr == "    A=project;B=file;C=of a word;D=own;\n"
    ended = front.run("build", "variables", "--path", str(source), "--env", "../x=1")
    assert (ended.returncode, "can't be the name of a variable" in ended.stderr) == (1, True)


def test_project_toml(front: Front, builder: str, source: Path) -> None:
    (source / "tests").mkdir()
    (source / "tests" / "one").write_text("")
    (source / "project.toml").write_text(
        '[_]\nschema-version = "0.2"\n[io.buildpacks]\nexclude = ["tests/", "*.txt"]\nproxy = 1\n[com.example]\nown = 1\n'
    )
    look = write_buildpack(front.room / "buildpacks", "test/look", build="find . -type f")
    ended = front.run("build", "excluded", "--path", str(source), "--builder", builder, "--buildpack", str(look))
    assert ended.stderr.splitlines() == [
        "project.toml: com has no effect",
        "project.toml: io.buildpacks.proxy has no effect",
        "    ./main.sh",
        "    ./project.toml",
    ]
    (source / "project.toml").write_text('[_]\nschema-version = "0.2"\n[io.buildpacks]\ninclude = ["tests"]\n')
    ended = front.run("build", "included", "--path", str(source), "--builder", builder, "--buildpack", str(look))
    assert ended.stderr == "    ./tests/one\n"


@pytest.mark.parametrize(
    ("text", "said"),
    [
        ("name = 1", "no schema-version"),
        ('[_]\nschema-version = "0.1"', "schema-version '0.1'"),
        ("[_", "is no TOML document"),
        ('[_]\nschema-version = "0.2"\n[io.buildpacks]\nbuilder = 1', "io.buildpacks.builder has to be a text"),
        ('[_]\nschema-version = "0.2"\n[io.buildpacks]\ninclude = ["a"]\nexclude = ["b"]', "both"),
        ('[_]\nschema-version = "0.2"\n[[io.buildpacks.group]]\nversion = "1"', "neither an id nor a uri"),
        (
            '[_]\nschema-version = "0.2"\n[[io.buildpacks.group]]\nid = "a"\n[io.buildpacks.group.script]\ninline = "x"',
            "is a script",
        ),
    ],
)
def test_project_toml_that_is_refused(front: Front, builder: str, source: Path, text: str, said: str) -> None:
    (source / "project.toml").write_text(text)
    ended = front.run("build", "refused", "--path", str(source), "--builder", builder)
    assert ended.returncode == 1
    assert said in ended.stderr
    assert str(source / "project.toml") in ended.stderr


def test_buildpacks_in_place_of_the_order(front: Front, builder: str, source: Path, tmp_path: Path) -> None:
    own = write_buildpack(tmp_path, "test/own", build="echo own")
    with tarfile.open(tmp_path / "other.tgz", "w:gz") as archive:
        archive.add(write_buildpack(tmp_path, "test/other", build="echo other"), ".")
    words = ("--buildpack", str(own), "--buildpack", "test/web@1.0.0", "--buildpack", str(tmp_path / "other.tgz"))
    ended = front.run("build", "group", "--path", str(source), "--builder", builder, *words)
    assert ended.stderr == "    own\n    printed\n    other\n"
    assert "chosen: test/own 1.0.0, test/web 1.0.0, test/other 1.0.0" in ended.stdout
    (source / "project.toml").write_text(
        f'[_]\nschema-version = "0.2"\n[io.buildpacks]\nbuilder = "{builder}"\n[[io.buildpacks.group]]\nuri = "own"\n'
    )
    write_buildpack(source, "own", build="echo of the project")
    assert front.run("build", "group", "--path", str(source)).stderr == "    of the project\n"
    ended = front.run("build", "group", "--path", str(source), "--buildpack", "test/absent@1.0.0")
    assert (ended.returncode, "error 13 Order Absent test/absent" in ended.stderr) == (13, True)


def test_what_is_no_part_of_an_image_is_left_out(front: Front, builder: str, source: Path) -> None:
    os.mkfifo(source / "pipe")
    with socket.socket(socket.AF_UNIX) as server:
        server.bind(str(source / "socket"))
    (source / "link").symlink_to("main.sh")
    ended = front.run("build", "odd", "--path", str(source), "--builder", builder)
    assert ended.returncode == 0
    said = [line.rpartition(": ")[2] for line in ended.stderr.splitlines() if line.startswith("left out")]
    assert sorted(said) == ["pipe", "socket"]


@pytest.mark.parametrize(
    ("words", "said"),
    [
        (("build", "../out"), "is no name of an image"),
        (("build", "x", "--path", "/absent"), "/absent is no folder"),
        (("build", "x", "--builder", "absent"), "There is no builder absent"),
        (("build", "x", "--builder", "../.."), "is no name of a builder"),
        (("build", "x", "--builder", "web", "--run-image", "absent"), "cnb run-image add absent --root DIR"),
        (("build", "x", "--workers", "65"), "65"),
        (("build", "x", "--netwrk", "none"), "--network"),
        (("buidl", "x"), "Did you mean build?"),
        (("build",), "NAME"),
    ],
)
def test_words_that_are_refused(front: Front, builder: str, words: tuple[str, ...], said: str) -> None:
    ended = front.run(*words)
    assert ended.returncode == 1
    assert said in ended.stderr
    assert ended.stdout == ""


def test_a_second_build_waits(front: Front, source: Path, tmp_path: Path) -> None:
    front.builder("slow", write_buildpack(tmp_path, "test/slow", build="sleep 3"))
    words = [str(COMMAND), "build", "waits", "--path", str(source), "--builder", "slow"]
    calls = [
        subprocess.Popen(words, env=front.environment, stdout=subprocess.PIPE, stderr=subprocess.PIPE, text=True)
        for _ in range(2)
    ]
    said = [call.communicate()[1] for call in calls]
    assert [call.returncode for call in calls] == [0, 0]
    assert sum("waiting for another cnb that works on waits" in text for text in said) == 1


def test_clearing_the_cache(front: Front, source: Path, tmp_path: Path) -> None:
    cached = "[ -e $1/kept/file ] && echo restored; " + LAYER.replace("launch = true\\n", "")
    front.builder("cached", write_buildpack(tmp_path, "test/cached", build=cached))
    words = ("build", "cached", "--path", str(source), "--builder", "cached")
    assert [front.run(*words, *more).stderr for more in ((), (), ("--clear-cache",))] == ["", "    restored\n", ""]


def test_on_a_terminal_a_line_is_replaced(front: Front, builder: str, source: Path) -> None:
    ours, theirs = pty.openpty()
    words = [str(COMMAND), "build", "terminal", "--path", str(source), "--builder", builder]
    environment = {**front.environment, "TERM": "xterm"}
    with subprocess.Popen(words, env=environment, stdin=theirs, stdout=theirs, stderr=theirs) as child:
        os.close(theirs)
        text = b""
        while True:
            try:
                piece = os.read(ours, 65_536)
            except OSError:
                break
            text += piece
    os.close(ours)
    assert child.returncode == 0
    assert b"\x1b[2K" in text
    assert b"===> BUILDING    test/web 1.0.0 (0." in text
    assert b"    printed" in text


def test_without_its_libraries(tmp_path: Path) -> None:
    for name in ("sh", "readlink", "dirname"):
        (tmp_path / name).symlink_to(f"/usr/bin/{name}")
    command = tmp_path / "front" / "bin" / "cnb"
    command.parent.mkdir(parents=True)
    command.write_text(COMMAND.read_text().replace("/usr/bin/python3", "/absent/python3"))
    tools = tmp_path / ".ci" / "tools"
    for said in ("on Debian, apt-get install python3-click python3-jinja2 python3-pathspec python3-rich", f"{tools} installs"):
        ended = subprocess.run(["sh", str(command)], env={"PATH": str(tmp_path)}, capture_output=True, text=True, check=False)
        assert (ended.returncode, said in ended.stderr) == (1, True), ended.stderr
        tools.parent.mkdir(exist_ok=True)
        tools.write_text("")
        tools.chmod(0o755)


def test_without_bubblewrap(front: Front, builder: str, source: Path, tmp_path: Path) -> None:
    for name in ("sh", "readlink", "dirname", "python3"):
        (tmp_path / name).symlink_to(f"/usr/bin/{name}")
    ended = front.run("build", "x", "--path", str(source), "--builder", builder, env={"PATH": str(tmp_path)})
    assert ended.returncode == 1
    assert ended.stderr.splitlines() == [
        "The sandbox needs bubblewrap, which isn't here.",
        "  apt-get install bubblewrap",
        "  To build without a sandbox: --no-sandbox",
    ]
