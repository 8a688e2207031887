"""The program that is packed: where it comes from, and what it needs of the machine that runs it."""

import os
import re
import subprocess
from dataclasses import dataclass
from pathlib import Path

from checkout import Checkout, Refused, printed

PACKAGES = {
    "libc.so.6": "libc6",
    "libm.so.6": "libc6",
    "ld-linux-x86-64.so.2": "libc6",
    "libgcc_s.so.1": "libgcc-s1",
}
"""The Debian package of each library that the kit's linker links to."""


@dataclass(frozen=True)
class Program:
    """A built program."""

    contents: bytes
    kit: str
    """The kit that proved and built it, as `rt version` prints it."""
    c_library: str
    """The version of the GNU C library that it needs."""
    libraries: list[str]
    """The files of the shared libraries that it needs."""

    def depends(self) -> list[str]:
        """The Debian packages of its libraries."""
        unknown = [name for name in self.libraries if name not in PACKAGES]
        if unknown:
            raise Refused(f"the program needs {unknown[0]}, of which packaging/program.py knows no Debian package")
        packages = sorted({PACKAGES[name] for name in self.libraries})
        return [f"{it} (>= {self.c_library})" if it == "libc6" else it for it in packages]


def build(checkout: Checkout) -> tuple[Path, str]:
    """The program of the checkout, which is built and proved where it isn't yet, or the one that LIFECYCLE names."""
    given = os.environ.get("LIFECYCLE")
    if given:
        return Path(given), "not known to be proved, as LIFECYCLE named the program"
    if subprocess.run([checkout.top / "samples/build"], check=False).returncode != 0:
        raise Refused("samples/build failed, so there is no program to pack")
    return checkout.top / "bin/lifecycle", printed(["rt", "version"], checkout.top).strip()


def read_program(checkout: Checkout) -> Program:
    """The program, with what its ELF file says that it needs."""
    path, kit = build(checkout)
    if not path.is_file():
        raise Refused(f"{path} is no file: LIFECYCLE has to name the program")
    dynamic = printed(["readelf", "--wide", "--dynamic", str(path)], checkout.top)
    libraries = re.findall(r"\(NEEDED\).*\[(.+)\]", dynamic)
    needed = printed(["readelf", "--wide", "--version-info", str(path)], checkout.top)
    versions = {tuple(map(int, it.split("."))) for it in re.findall(r"Name: GLIBC_([0-9.]+)", needed)}
    if not versions:
        raise Refused(f"{path} names no version of the GNU C library: is it a program that the kit linked?")
    return Program(path.read_bytes(), kit, ".".join(map(str, max(versions))), libraries)
