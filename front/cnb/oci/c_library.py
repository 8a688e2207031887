"""Whether a root has the loader and the libraries that the launcher is linked to, in the versions that it needs."""

import os
from collections.abc import Iterator
from dataclasses import dataclass
from pathlib import Path

from elftools.common.exceptions import ELFError  # type: ignore[import]
from elftools.elf.dynamic import DynamicSection  # type: ignore[import]
from elftools.elf.elffile import ELFFile  # type: ignore[import]
from elftools.elf.gnuversions import GNUVerDefSection, GNUVerNeedSection  # type: ignore[import]
from elftools.elf.segments import InterpSegment  # type: ignore[import]

MOST_LINKS = 40
FOLDERS = ("lib64", "usr/lib64", "lib", "usr/lib", "lib/*-linux-gnu*", "usr/lib/*-linux-gnu*")


@dataclass(frozen=True)
class Needs:
    """What a program needs of the system that it is started on."""

    loader: str | None
    libraries: dict[str, set[str]]


def needs_of(program: Path) -> Needs:
    with open(program, "rb") as stored:
        elf = ELFFile(stored)
        loaders = [segment.get_interp_name() for segment in elf.iter_segments() if isinstance(segment, InterpSegment)]
        libraries: dict[str, set[str]] = {}
        for section in elf.iter_sections():
            if isinstance(section, DynamicSection):
                for tag in section.iter_tags("DT_NEEDED"):
                    libraries.setdefault(tag.needed, set())
            elif isinstance(section, GNUVerNeedSection):
                for library, versions in section.iter_versions():
                    libraries[library.name] = {version.name for version in versions}
        return Needs(loaders[0] if loaders else None, libraries)


def versions_of(library: Path) -> set[str]:
    """The versions that a library defines."""
    with open(library, "rb") as stored:
        found: set[str] = set()
        for section in ELFFile(stored).iter_sections():
            if isinstance(section, GNUVerDefSection):
                found |= {next(names).name for _, names in section.iter_versions()}
        return found


def found_in(root: Path, path: str) -> Path | None:
    """The file at a path of a root, whose links are followed as if it were `/`."""
    done: list[str] = []
    left, links = path.split("/")[::-1], 0
    while left:
        part = left.pop()
        place = root.joinpath(*done, part)
        if part == "..":
            done = done[:-1]
        elif part not in ("", ".") and place.is_symlink():
            target, links = os.readlink(place), links + 1
            done = [] if target.startswith("/") else done
            left += target.split("/")[::-1]
        elif part not in ("", "."):
            done.append(part)
        if links > MOST_LINKS:
            return None
    found = root.joinpath(*done)
    return found if found.is_file() else None


def folders_of(root: Path) -> Iterator[str]:
    """The folders of a root in which libraries are."""
    for form in FOLDERS:
        for folder in sorted(root.glob(form)):
            yield str(folder.relative_to(root))


def lacks(root: Path, library: str, versions: set[str]) -> str | None:
    """What a root lacks of a library."""
    found = [path for folder in folders_of(root) if (path := found_in(root, f"{folder}/{library}"))]
    if not found:
        return f"has no {library}"
    defined = versions_of(found[0])
    lacking = sorted(versions - defined)
    return f"has a {library} without {', '.join(lacking)}" if lacking else None


def unfit_for(program: Path, root: Path) -> list[str]:
    """A line for each thing that the launcher, a copy of the program, needs and a root lacks."""
    try:
        needs = needs_of(program)
        lacking = [lacks(root, library, versions) for library, versions in sorted(needs.libraries.items())]
    except (OSError, ELFError) as fault:
        return [f"whether the launcher can start on this root isn't known: {fault}"]
    if needs.loader and not found_in(root, needs.loader):
        lacking.insert(0, f"has no {needs.loader}, the loader of programs")
    return [f"the launcher can't start on this root: it {what}" for what in lacking if what]
