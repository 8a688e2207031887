"""An image of an OCI image layout, as `skopeo copy docker://.. oci:LAYOUT` leaves one: what its config says, and its files."""

import shutil
from collections.abc import Iterator
from contextlib import contextmanager
from dataclasses import dataclass
from pathlib import Path
from typing import Any

from cnb.failure import Failure
from cnb.oci.laying import LaidRoot
from cnb.oci.layout import Descriptor, Layout, chosen, expected, split, texts
from cnb.oci.losses import Losses, line
from cnb.oci.packing import unpacked
from cnb.oci.printable import printable
from cnb.oci.store import DOCUMENT_LABEL, Kept


@contextmanager
def in_one_sentence() -> Iterator[None]:
    """Ends bad input by a sentence: tarfile and json end it by exceptions of many kinds."""
    try:
        yield
    except Failure:
        raise
    except Exception as fault:
        raise Failure(printable(f"It can't be read: {type(fault).__name__} {fault}.")) from fault


@dataclass(frozen=True)
class Settings:
    """What a config says beside the layers."""

    os: str
    architecture: str
    entrypoint: list[str]
    working_folder: str
    variables: list[str]
    labels: dict[str, str]
    kept: Kept

    @staticmethod
    def of(config: Descriptor) -> "Settings":
        started = expected(config.get("config") or {}, dict, "the config's config")
        labels = labels_of(started)
        return Settings(
            os=expected(config.get("os"), str, "the config's os"),
            architecture=expected(config.get("architecture"), str, "the config's architecture"),
            entrypoint=texts(started.get("Entrypoint"), "the config's Entrypoint"),
            working_folder=text_of(started, "WorkingDir"),
            variables=texts(started.get("Env"), "the config's Env"),
            labels=labels,
            kept=Kept(
                user=text_of(started, "User"),
                labels={key: value for key, value in labels.items() if key != DOCUMENT_LABEL},
                ports=names_of(started, "ExposedPorts"),
                volumes=names_of(started, "Volumes"),
                stop_signal=text_of(started, "StopSignal"),
            ),
        )

    def losses(self) -> list[str]:
        """A line for each setting by which `cnb run` does nothing."""
        stop = (self.kept.stop_signal,) if self.kept.stop_signal else ()
        found = (("volumes", self.kept.volumes), ("the signal that stops it", stop))
        return [line(f"kept for `cnb save` alone, {what}", list(names)) for what, names in found if names]


def text_of(started: dict[str, Any], key: str) -> str:
    return expected(started.get(key) or "", str, f"the config's {key}")


def names_of(started: dict[str, Any], key: str) -> tuple[str, ...]:
    return tuple(sorted(map(str, expected(started.get(key) or {}, dict, f"the config's {key}"))))


def labels_of(started: dict[str, Any]) -> dict[str, str]:
    found = expected(started.get("Labels") or {}, dict, "the config's Labels")
    return {key: expected(value, str, "a label of the config") for key, value in found.items()}


@dataclass(frozen=True)
class LayoutImage:
    """An image of a layout: its settings, and its layers with the identities that they have unpacked."""

    layout: Layout
    settings: Settings
    layers: list[tuple[Descriptor, str]]

    @staticmethod
    def open(place: str) -> "LayoutImage":
        """The image at LAYOUT or LAYOUT:NAME."""
        folder, name = split(place)
        layout = Layout(folder)
        if layout.document("oci-layout").get("imageLayoutVersion") != "1.0.0":
            raise Failure("The layout is of another version than 1.0.0.")
        manifest = chosen(layout, layout.document("index.json"), name)
        config = layout.json_blob(manifest.get("config"))
        return LayoutImage(layout, Settings.of(config), layers_of(manifest, config))

    def lay(self, folder: Path) -> Losses:
        """Lays all layers in a folder that must be absent, and that is absent again where one is refused."""
        try:
            folder.mkdir()
        except OSError as fault:
            raise Failure(f"{printable(str(folder))} can't be made: {fault.strerror}.") from fault
        root = LaidRoot(folder)
        try:
            for number in range(1, len(self.layers) + 1):
                self.lay_layer(number, root)
        except BaseException:
            shutil.rmtree(folder, ignore_errors=True)
            raise
        return root.losses

    def lay_layer(self, number: int, root: LaidRoot) -> None:
        """Lays one layer over what is there. The first has the number 1."""
        described, identity = self.layers[number - 1]
        with unpacked(self.layout, described, identity) as plain:
            root.layer(plain, number)


def layers_of(manifest: Descriptor, config: Descriptor) -> list[tuple[Descriptor, str]]:
    identities = expected(expected(config.get("rootfs"), dict, "the config's rootfs").get("diff_ids"), list, "the config's diff_ids")
    layers = expected(manifest.get("layers"), list, "the manifest's layers")
    if len(identities) != len(layers):
        raise Failure("The config names other layers than the manifest.")
    return list(zip(layers, identities, strict=True))
