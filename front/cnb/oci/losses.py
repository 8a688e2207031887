"""What of a root folder or of an image a run image doesn't keep, so that a person can be told."""

import stat
import tarfile
from dataclasses import dataclass, field

from cnb.oci.printable import printable

SET_BITS = stat.S_ISUID | stat.S_ISGID
ALWAYS = "lost, who may read a file: all may; times; the sticky bit, which a layout has again for tmp and var/tmp"


def line(what: str, names: list[str]) -> str:
    return printable(f"{what}: {len(names)} ({', '.join(names[:3])}{' ..' if len(names) > 3 else ''})")


@dataclass
class Losses:
    """Paths, by what is lost of them."""

    left_out: list[str] = field(default_factory=list)
    mounted: list[str] = field(default_factory=list)
    set_bits: list[str] = field(default_factory=list)
    owned: list[str] = field(default_factory=list)
    attributes: list[str] = field(default_factory=list)

    def note(self, path: str, mode: int, *, owned: bool, attributed: bool) -> None:
        """Notes what is lost of a file, folder or link that is kept."""
        if stat.S_ISREG(mode) and mode & SET_BITS:
            self.set_bits.append(path)
        if owned:
            self.owned.append(path)
        if attributed:
            self.attributes.append(path)

    def note_entry(self, info: tarfile.TarInfo) -> None:
        """Notes what is lost of an entry of a layer."""
        mode = (stat.S_IFREG if info.isreg() else 0) | info.mode
        attributed = any(key.startswith("SCHILY.xattr.") for key in info.pax_headers)
        self.note(info.name, mode, owned=bool(info.uid or info.gid), attributed=attributed)

    def lines(self) -> list[str]:
        found = (
            ("left out, devices, pipes and sockets", self.left_out),
            ("left out, what is mounted on folders", self.mounted),
            ("lost, the bits that run a program as its owner or group", self.set_bits),
            ("lost, owners other than root", self.owned),
            ("lost, extended attributes, as the capabilities of programs", self.attributes),
        )
        return [line(what, names) for what, names in found if names] + [ALWAYS]
