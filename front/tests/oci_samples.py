"""What the tests of layouts share: a store with a run image and an image on it, and layouts of other tools."""

import hashlib
import io
import json
import shutil
import tarfile
from dataclasses import dataclass, field
from pathlib import Path
from typing import Any

import pytest

from cnb.failure import Failure
from cnb.oci.run_image import RunImageMaker
from cnb.oci.store import Kept
from cnb.program import Program

SAMPLES = Path(__file__).resolve().parents[2] / "samples"
MANIFEST = "application/vnd.oci.image.manifest.v1+json"
LAYER = "application/vnd.oci.image.layer.v1.tar"


def found_program() -> Program:
    """The program, without which a test can't say anything."""
    try:
        return Program.find()
    except Failure as fault:
        pytest.skip(fault.message)


def lay(folder: Path, files: dict[str, str]) -> Path:
    """A folder with these files."""
    for name, contents in files.items():
        path = folder / name
        path.parent.mkdir(parents=True, exist_ok=True)
        path.write_text(contents)
    return folder


@dataclass(frozen=True)
class Bench:
    """A program, a store, and a folder for what else a test makes."""

    program: Program
    room: Path

    @property
    def store(self) -> Path:
        return self.room / "store"

    def run_image(self, name: str, release: str, *, user: str = "") -> None:
        folder = lay(self.room / f"base-{name}", {"etc/release": release, "tmp/empty": ""})
        variables = ["PATH=/usr/bin:/bin"]
        ended = RunImageMaker(self.program, self.store).make(name, folder, ("linux", "amd64"), variables, Kept(user=user))
        assert ended.status == 0, ended

    def create(self, image: str, run: str) -> None:
        """An image of the shell application, whose launcher is a line of text."""
        launcher = lay(self.room / "launcher", {"launcher": "no launcher\n"})
        of_samples = {"order": "orders/shell.toml", "buildpacks": "buildpacks", "app": "apps/shell", "platform": "platform"}
        words = [word for option, place in of_samples.items() for word in (f"--{option}", str(SAMPLES / place))]
        for option in ("work", "layers", "store"):
            words += [f"--{option}", str(self.room / option)]
        words += ["--run", run, "--launcher", str(launcher), "--image", image]
        self.program.finish(["create", *words])

    def document(self, image: str) -> bytes:
        return (self.store / "images" / f"{image}.toml").read_bytes()


@dataclass
class MadeLayout:
    """A layout as another tool writes it, with a layer of these entries, once or several times."""

    folder: Path
    entries: list[tarfile.TarInfo] = field(default_factory=list)
    config: dict[str, Any] = field(default_factory=dict)
    times: int = 1

    def blob(self, media: str, data: bytes) -> dict[str, Any]:
        digest = hashlib.sha256(data).hexdigest()
        path = self.folder / "blobs/sha256" / digest
        path.parent.mkdir(parents=True, exist_ok=True)
        path.write_bytes(data)
        return {"mediaType": media, "digest": f"sha256:{digest}", "size": len(data)}

    def layer(self) -> bytes:
        made = io.BytesIO()
        with tarfile.open(fileobj=made, mode="w") as archive:
            for info in self.entries:
                archive.addfile(info)
        return made.getvalue()

    def write(self) -> str:
        layer = self.blob(LAYER, self.layer())
        rootfs = {"type": "layers", "diff_ids": [layer["digest"]] * self.times}
        config = {"os": "linux", "architecture": "amd64", "config": self.config, "rootfs": rootfs}
        described = self.blob("application/vnd.oci.image.config.v1+json", json.dumps(config).encode())
        manifest = {"schemaVersion": 2, "mediaType": MANIFEST, "config": described, "layers": [layer] * self.times}
        index = {"schemaVersion": 2, "manifests": [self.blob(MANIFEST, json.dumps(manifest).encode())]}
        lay(self.folder, {"index.json": json.dumps(index), "oci-layout": '{"imageLayoutVersion": "1.0.0"}'})
        return str(self.folder)


def folder_entry(name: str, *, uid: int = 0) -> tarfile.TarInfo:
    info = tarfile.TarInfo(name)
    info.type, info.mode, info.uid = tarfile.DIRTYPE, 0o755, uid
    return info


def link_entry(name: str, target: str) -> tarfile.TarInfo:
    info = tarfile.TarInfo(name)
    info.type, info.linkname = tarfile.SYMTYPE, target
    return info


def blob_path(layout: Path, described: dict[str, Any]) -> Path:
    return layout / "blobs" / str(described["digest"]).replace(":", "/")


def config_in(layout: Path) -> dict[str, Any]:
    """The config of the only image of a layout."""
    index = json.loads((layout / "index.json").read_text())
    manifest = json.loads(blob_path(layout, index["manifests"][0]).read_text())
    return dict(json.loads(blob_path(layout, manifest["config"]).read_text()))


def reworked(
    layout: Path, place: Path, *, layer: tuple[bytes, bytes] = (b"", b""), label: tuple[str, str] = ("", "")
) -> Path:
    """A copy of the layout of an image of ours, with other bytes in its first layer or in the image's document. All digests
    of the layout are right."""
    shutil.copytree(layout, place)
    index = json.loads((place / "index.json").read_text())
    manifest = json.loads(blob_path(place, index["manifests"][0]).read_text())
    config = json.loads(blob_path(place, manifest["config"]).read_text())
    made = MadeLayout(place)
    first = blob_path(place, manifest["layers"][0]).read_bytes()
    manifest["layers"][0] = made.blob(LAYER, first.replace(*layer))
    config["rootfs"]["diff_ids"][0] = manifest["layers"][0]["digest"]
    labels = config["config"]["Labels"]
    labels["lifecycle.image"] = labels["lifecycle.image"].replace(*label)
    manifest["config"] = made.blob(manifest["config"]["mediaType"], json.dumps(config).encode())
    index["manifests"] = [made.blob(MANIFEST, json.dumps(manifest).encode())]
    lay(place, {"index.json": json.dumps(index)})
    return place
