"""Writes an image of a store as an OCI image layout, which other tools load: a folder with one uncompressed layer for each
row of the image, one for the launcher's document, and a config with the environment, the entrypoint, the user of the run
image and what made each layer. A label of the config keeps the image's own document, from which `load` makes it again."""

import hashlib
import io
import json
import os
import shutil
import tarfile
from collections.abc import Callable
from dataclasses import dataclass
from functools import partial
from pathlib import Path
from typing import IO, Any, BinaryIO

from cnb.documents import Image, Process, Row, read_image, toml_text
from cnb.failure import Failure
from cnb.oci import trees
from cnb.oci.layout import Descriptor
from cnb.oci.store import DOCUMENT_LABEL, Kept, image_path, kept_of_image

CREATED = "1980-01-01T00:00:01Z"
SECONDS = 315532801
TAR = "application/vnd.oci.image.layer.v1.tar"
CONFIG = "application/vnd.oci.image.config.v1+json"
MANIFEST = "application/vnd.oci.image.manifest.v1+json"
LAUNCHER_FOLDERS = ["/cnb/process", "/cnb/lifecycle"]
SHARED_FOLDERS = ("tmp", "var/tmp")


@dataclass(frozen=True)
class Written:
    layers: int
    digest: str


class LayoutWriter:
    """A layout that is being made: a folder of blobs by their digests."""

    def __init__(self, folder: Path) -> None:
        self.folder = folder
        self.blobs = folder / "blobs" / "sha256"
        folder.mkdir()
        self.blobs.mkdir(parents=True)

    def put(self, media: str, write: Callable[[BinaryIO], None]) -> Descriptor:
        """A blob of what is written into a file."""
        unnamed = self.blobs / "new"
        with open(unnamed, "w+b") as blob:
            write(blob)
            size = blob.seek(0, os.SEEK_END)
            blob.seek(0)
            digest = hashlib.file_digest(blob, "sha256").hexdigest()
        unnamed.rename(self.blobs / digest)
        return {"mediaType": media, "digest": f"sha256:{digest}", "size": size}

    def put_json(self, media: str, value: object) -> Descriptor:
        data = json.dumps(value, sort_keys=True).encode()
        return self.put(media, partial(write_bytes, data=data))

    def write(self, name: str, value: object) -> None:
        (self.folder / name).write_text(json.dumps(value, sort_keys=True), encoding="utf-8")


def write_bytes(blob: BinaryIO, data: bytes) -> None:
    blob.write(data)


def entry(name: str, kind: bytes, mode: int) -> tarfile.TarInfo:
    if name.rpartition("/")[2].startswith(".wh."):
        raise Failure(f"The image has /{name}, and in a layer such a name means that a file is removed: it can't be saved.")
    info = tarfile.TarInfo(name)
    info.type = kind
    info.mode = mode
    info.mtime = SECONDS
    return info


def folder_entry(path: str) -> tarfile.TarInfo:
    """A folder. A tree has no sticky bit: the folders for everybody's temporary files get it back."""
    return entry(path, tarfile.DIRTYPE, 0o1777 if path in SHARED_FOLDERS else 0o755)


def add_parents(archive: tarfile.TarFile, place: str) -> None:
    parts = place.strip("/").split("/")[:-1]
    for length in range(1, len(parts) + 1):
        archive.addfile(folder_entry("/".join(parts[:length])))


def add_file(archive: tarfile.TarFile, path: str, size: int, contents: IO[bytes], *, is_executable: bool) -> None:
    info = entry(path, tarfile.REGTYPE, 0o755 if is_executable else 0o644)
    info.size = size
    archive.addfile(info, contents)


def add_node(archive: tarfile.TarFile, tree: trees.Tree, node: trees.Node) -> None:
    if isinstance(node, trees.File):
        add_file(archive, node.path, node.size, tree.stored, is_executable=node.is_executable)
    elif isinstance(node, trees.Link):
        info = entry(node.path, tarfile.SYMTYPE, 0o777)
        info.linkname = node.target
        archive.addfile(info)
    elif node.path:
        archive.addfile(folder_entry(node.path))


def write_row(blob: BinaryIO, store: Path, row: Row) -> None:
    """A layer with the tree of a row at its place."""
    with tarfile.open(fileobj=blob, mode="w", format=tarfile.PAX_FORMAT) as archive, trees.opened(store, row.digest) as tree:
        add_parents(archive, row.place)
        for node in tree.nodes(row.place.strip("/")):
            add_node(archive, tree, node)


def write_launch_document(blob: BinaryIO, image: Image) -> None:
    """A layer with the document that the launcher reads."""
    place, contents = "/layers/config/metadata.toml", launch_document(image).encode()
    with tarfile.open(fileobj=blob, mode="w", format=tarfile.PAX_FORMAT) as archive:
        add_parents(archive, place)
        add_file(archive, place.strip("/"), len(contents), io.BytesIO(contents), is_executable=False)


def launch_document(image: Image) -> str:
    """The document that the launcher reads, as `unpack` leaves it."""
    lines = [] if image.default is None else [f"default = {toml_text(image.default)}"]
    for buildpack in image.buildpacks:
        lines += ["[[buildpacks]]", f"id = {toml_text(buildpack.id)}", f"version = {toml_text(buildpack.version)}"]
    for process in image.processes:
        lines += process_lines(process)
    return "".join(f"{line}\n" for line in lines)


def process_lines(process: Process) -> list[str]:
    lines = ["[[processes]]", f"type = {toml_text(process.type)}"]
    for key, words in (("command", process.command), ("args", process.args)):
        lines.append(f"{key} = [{', '.join(map(toml_text, words))}]")
    lines.append(f"default = {'true' if process.default else 'false'}")
    if process.working_dir is not None:
        lines.append(f"working-dir = {toml_text(process.working_dir)}")
    return lines


def made_by(image: Image, row: Row) -> str:
    """What made a row. A document of version 1 doesn't say it: then it is the text that `lifecycle` reads it with."""
    if row.by:
        return row.by
    if row.role == "run":
        return f"run {image.run_image}"
    return f"migrated {row.role} " + "".join("?" if mark < " " else mark for mark in row.place)


def started_path(value: str) -> str:
    """A PATH with the folders of the launcher behind all others: in front of them a process type that has the name of its
    program would start the launcher, and that again, without an end."""
    parts = value.split(":")
    if parts[: len(LAUNCHER_FOLDERS)] != LAUNCHER_FOLDERS:
        return value
    return ":".join(parts[len(LAUNCHER_FOLDERS) :] + LAUNCHER_FOLDERS)


def environment(image: Image) -> list[str]:
    found = {variable.name: variable.value for variable in image.env}
    return [f"{name}={started_path(value) if name == 'PATH' else value}" for name, value in found.items()]


def settings_of(image: Image, document: str, kept: Kept) -> dict[str, Any]:
    """How a container of the image is started. Labels of the image stand before those of its run image."""
    settings = {
        "Env": environment(image),
        "Entrypoint": [image.entrypoint],
        "WorkingDir": "/workspace",
        "Labels": {**kept.labels, **dict(image.labels), DOCUMENT_LABEL: document},
        "User": kept.user,
        "ExposedPorts": {port: {} for port in kept.ports},
        "Volumes": {volume: {} for volume in kept.volumes},
        "StopSignal": kept.stop_signal,
    }
    return {key: value for key, value in settings.items() if value}


def config_of(image: Image, document: str, kept: Kept, layers: list[tuple[str, Descriptor]]) -> dict[str, Any]:
    return {
        "created": CREATED,
        "os": image.os,
        "architecture": image.arch,
        "config": settings_of(image, document, kept),
        "rootfs": {"type": "layers", "diff_ids": [blob["digest"] for _, blob in layers]},
        "history": [{"created": CREATED, "created_by": what} for what, _ in layers],
    }


@dataclass(frozen=True)
class SavedImage:
    """An image of a store that is saved."""

    store: Path
    name: str
    document: bytes
    image: Image

    @staticmethod
    def open(store: Path, name: str) -> "SavedImage":
        path = image_path(store, name)
        if not path.is_file():
            raise Failure(f"The store {store} has no image {name}.", hint="`cnb images` lists those that there are.")
        document, image = path.read_bytes(), read_image(path)
        if path.read_bytes() != document:
            raise Failure(f"The image {name} was replaced while it was read: save it again.")
        return SavedImage(store, name, document, image)


    def put_rows(self, layout: LayoutWriter) -> list[tuple[str, Descriptor]]:
        """A layer for each row and one for the launcher's document, each with what made it."""
        layers = [(made_by(self.image, row), layout.put(TAR, partial(write_row, store=self.store, row=row))) for row in self.image.rows]
        return [*layers, ("launch document", layout.put(TAR, partial(write_launch_document, image=self.image)))]

    def put(self, layout: LayoutWriter) -> Written:
        layers = self.put_rows(layout)
        kept = kept_of_image(self.store, self.name, self.document, self.image)
        config = layout.put_json(CONFIG, config_of(self.image, self.document.decode(), kept, layers))
        manifest = {"schemaVersion": 2, "mediaType": MANIFEST, "config": config, "layers": [blob for _, blob in layers]}
        described = layout.put_json(MANIFEST, manifest)
        described["annotations"] = {"org.opencontainers.image.ref.name": self.name}
        layout.write("index.json", {"schemaVersion": 2, "manifests": [described]})
        layout.write("oci-layout", {"imageLayoutVersion": "1.0.0"})
        return Written(len(layers), described["digest"])


def write(store: Path, name: str, folder: Path) -> Written:
    """Writes an image into a folder that must be absent, and that is absent again where it can't be."""
    image = SavedImage.open(store, name)
    try:
        layout = LayoutWriter(folder)
    except OSError as fault:
        raise Failure(f"{folder} can't be made: {fault.strerror}.", hint="Name a folder that isn't there yet.") from fault
    try:
        return image.put(layout)
    except BaseException as fault:
        shutil.rmtree(folder, ignore_errors=True)
        if isinstance(fault, OSError):
            raise Failure(f"{folder} can't be written: {fault.strerror}.") from fault
        raise
