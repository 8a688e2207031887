"""What a build ignores of what buildpacks say and leave, so that a person can be told once a build."""

import re
import tomllib
from collections.abc import Iterable, Iterator
from pathlib import Path
from typing import Any

from cnb.documents import Buildpack
from cnb.oci.losses import line

SBOM = re.compile(r".+\.sbom\.(cdx|spdx|syft)\.json")


def sbom_files(layers: Path, buildpack: Buildpack) -> list[str]:
    folder = layers / buildpack.id.replace("/", "_")
    found = folder.iterdir() if folder.is_dir() else []
    return sorted(path.name for path in found if SBOM.fullmatch(path.name))


def descriptor_of(buildpacks: Path, buildpack: Buildpack) -> dict[str, Any]:
    try:
        return tomllib.loads((buildpacks / buildpack.folder / "buildpack.toml").read_text(encoding="utf-8"))
    except (OSError, ValueError):
        return {}


def target_keys(descriptor: dict[str, Any]) -> Iterator[str]:
    """The keys of targets by which nothing is chosen."""
    targets = descriptor.get("targets")
    for target in targets if isinstance(targets, list) else []:
        if isinstance(target, dict):
            yield from (key for key in ("variant", "distros") if target.get(key))


def ignored_by_build(buildpacks: Path, layers: Path, group: Iterable[Buildpack]) -> list[str]:
    """A line for each buildpack of a group of whose files or targets something is ignored; called once behind `build`."""
    lines = []
    for buildpack in group:
        if files := sbom_files(layers, buildpack):
            lines.append(line(f"ignored, SBOM files of {buildpack}", files))
        if keys := sorted(set(target_keys(descriptor_of(buildpacks, buildpack)))):
            lines.append(f"ignored in the targets of {buildpack}: {', '.join(keys)}; os and arch alone are compared")
    return lines
