"""The groups that an order lists, read from its file and the folder of buildpacks."""

import itertools
from collections.abc import Iterator, Sequence
from dataclasses import dataclass
from pathlib import Path

from cnb.documents import Buildpack, OrderEntry, read_order, read_table
from cnb.failure import Failure

MOST_NESTED = 16


@dataclass(frozen=True)
class Member:
    buildpack: Buildpack
    is_optional: bool


Group = tuple[Member, ...]
Order = Sequence[Sequence[OrderEntry]]


@dataclass(frozen=True)
class Target:
    """An operating system and a processor. A text that is empty is any."""

    os: str
    arch: str

    def __str__(self) -> str:
        return f"{self.os or 'any'}/{self.arch or 'any'}"

    def has(self, image: "Target") -> bool:
        return self.os in ("", image.os) and self.arch in ("", image.arch)


@dataclass(frozen=True)
class Descriptor:
    """What a buildpack.toml says of groups: the targets of a component, and the order of a composite."""

    targets: Sequence[Target]
    order: Order


class Catalog:
    """The buildpacks of a folder."""

    def __init__(self, folder: Path) -> None:
        self.folder = folder
        self.descriptors = dict(_read_descriptor(path) for path in sorted(folder.glob("*/*/buildpack.toml")))
        self._by_id: dict[str, list[Buildpack]] = {}
        for buildpack in self.descriptors:
            self._by_id.setdefault(buildpack.id, []).append(buildpack)

    def named(self, entry: OrderEntry) -> Buildpack:
        """The buildpack that an entry of a group means."""
        found = [it for it in self._by_id.get(entry.id, ()) if entry.version in (None, it.version)]
        if len(found) != 1:
            named = entry.id if entry.version is None else f"{entry.id}@{entry.version}"
            count = f"{len(found)} buildpacks" if found else "no buildpack"
            raise Failure(f"{self.folder} has {count} for the entry {named} of the order.")
        return found[0]

    def fits(self, buildpack: Buildpack, image: Target | None) -> bool:
        targets = self.descriptors[buildpack].targets
        return image is None or not targets or any(it.has(image) for it in targets)

    def groups(self, order: Order) -> Iterator[Group]:
        """The listed groups. Of several members with one id the first is kept."""
        for members in self._expanded(order, 0):
            by_id: dict[str, Member] = {}
            for member in members:
                by_id.setdefault(member.buildpack.id, member)
            yield tuple(by_id.values())

    def _expanded(self, order: Order, depth: int) -> Iterator[Group]:
        if depth > MOST_NESTED:
            raise Failure(f"{self.folder}: composites are nested more than {MOST_NESTED} deep.")
        for group in order:
            for parts in itertools.product(*[self._ways(entry, depth) for entry in group]):
                yield tuple(itertools.chain.from_iterable(parts))

    def _ways(self, entry: OrderEntry, depth: int) -> list[Group]:
        """What an entry gives a group: a component itself; a composite each group of its order, or nothing if it is optional."""
        buildpack = self.named(entry)
        order = self.descriptors[buildpack].order
        if not order:
            return [(Member(buildpack, entry.optional),)]
        return [*self._expanded(order, depth + 1), *([()] if entry.optional else [])]


def _read_descriptor(path: Path) -> tuple[Buildpack, Descriptor]:
    table = read_table(path)
    try:
        buildpack = Buildpack(table["buildpack"]["id"], table["buildpack"]["version"])
        targets = [Target(it.get("os", ""), it.get("arch", "")) for it in table.get("targets", ())]
    except (KeyError, TypeError, AttributeError) as fault:
        raise Failure(f"{path} is no buildpack's: {fault!r}.") from fault
    return buildpack, Descriptor(targets, read_order(table, path))
