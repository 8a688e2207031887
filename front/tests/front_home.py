"""What tests share: buildpacks that are written for a test, roots of run images, and calls of `cnb` in a home."""

import hashlib
import os
import shutil
import subprocess
from collections.abc import Mapping
from dataclasses import dataclass, field
from pathlib import Path

import pytest

from cnb.documents import order_document, read_order, toml_text
from cnb.failure import Failure
from cnb.program import Program

FRONT = Path(__file__).resolve().parents[1]
COMMAND = FRONT / "bin" / "cnb"
PASSES = "exit 0"
NO_BUILD = "exit 0"


def write_program(path: Path, script: str) -> None:
    path.parent.mkdir(parents=True, exist_ok=True)
    path.write_text(f"#!/bin/bash\n{script}\n")
    path.chmod(0o755)


def write_buildpack(folder: Path, id: str, *, detect: str = PASSES, build: str = NO_BUILD) -> Path:
    """A buildpack of version 1.0.0 whose programs are these scripts of bash."""
    place = folder / id.replace("/", "_")
    write_program(place / "bin" / "detect", detect)
    write_program(place / "bin" / "build", build)
    (place / "buildpack.toml").write_text(f'api = "0.10"\n\n[buildpack]\nid = "{id}"\nversion = "1.0.0"\n')
    return place


def contents_of(folder: Path, *left_out: str) -> dict[str, str]:
    """All that lies in a folder: the kinds and modes, the bytes of files and the targets of links."""
    found = {}
    for path in sorted(folder.rglob("*")):
        name = str(path.relative_to(folder))
        if name.startswith(left_out) and left_out:
            continue
        if path.is_symlink():
            found[name] = f"link to {os.readlink(path)}"
        elif path.is_file():
            found[name] = f"{path.stat().st_mode:o} {hashlib.sha256(path.read_bytes()).hexdigest()}"
        else:
            found[name] = f"{path.stat().st_mode:o}"
    return found


@dataclass
class Front:
    """A home, and calls of `cnb` in it."""

    home: Path
    room: Path
    environment: dict[str, str] = field(default_factory=dict)

    def run(
        self, *words: str, env: Mapping[str, str] | None = None, cwd: Path | None = None, input: str = ""
    ) -> "subprocess.CompletedProcess[str]":
        return subprocess.run(
            [str(COMMAND), *words],
            env={**self.environment, **(env or {})},
            cwd=cwd or self.room,
            input=input,
            capture_output=True,
            text=True,
            timeout=600,
            check=False,
        )

    def done(self, *words: str, **settings: Mapping[str, str]) -> str:
        """What a call prints that has to end well."""
        ended = self.run(*words, env=settings.get("env"))
        assert ended.returncode == 0, ended.stdout + ended.stderr
        return ended.stdout

    def builder(self, name: str, *buildpacks: Path) -> None:
        """A builder whose order is one group of these buildpacks."""
        uris = "".join(f"[[buildpacks]]\nuri = {toml_text(str(path))}\n\n" for path in buildpacks)
        entries = [path.name.replace("_", "/") for path in buildpacks]
        order = order_document([read_order({"order": [{"group": [{"id": id} for id in entries]}]}, Path())[0]])
        config = self.room / f"{name}.toml"
        config.write_text(f'{uris}{order}\n[[run.images]]\nimage = "tools"\n')
        self.done("builder", "create", name, "--config", str(config))

    def app(self, name: str) -> Path:
        return self.home / "apps" / name


def found_program() -> Program:
    try:
        return Program.find()
    except Failure as failure:
        pytest.skip(failure.message)


def carry(root: Path, *programs: str) -> None:
    """Puts programs of this machine and their libraries into a root."""
    for name in programs:
        path = shutil.which(name)
        assert path is not None
        (root / "bin").mkdir(parents=True, exist_ok=True)
        shutil.copy(path, root / "bin" / name)
        carry_libraries(root, path)


def carry_libraries(root: Path, program: str) -> None:
    """Puts the libraries that a program is linked to into a root."""
    linked = subprocess.run(["ldd", program], capture_output=True, text=True, check=False).stdout
    for word in linked.split():
        if word.startswith("/") and not (root / word[1:]).exists():
            (root / word[1:]).parent.mkdir(parents=True, exist_ok=True)
            shutil.copy(word, root / word[1:])


def environment_of(home: Path, user: Path, program: Program) -> dict[str, str]:
    kept = {name: os.environ[name] for name in ("PATH", "CNB_LAUNCHER") if name in os.environ}
    return {**kept, "HOME": str(user), "LIFECYCLE": str(program.path), "CNB_HOME": str(home)}


def write_run_image(program: Program, store: Path, name: str, root: Path) -> None:
    """A run image of a root folder, in which programs are found in /bin."""
    program.finish(["base", "--store", str(store), "--run", name, "--os", "linux", "--arch", "amd64", "--tree", str(root)])
    document = store / "runs" / f"{name}.toml"
    text = document.read_text().replace("env = []\n", "")
    document.write_text(f'{text}\n[[env]]\nname = "PATH"\nvalue = "/bin"\n')
