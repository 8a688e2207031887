"""The files of an installation, below a prefix such as /usr: the same in the Debian package and in the archive."""

import gzip
from dataclasses import dataclass

from checkout import Checkout
from program import Program
from proof import proved_text

SAMPLES = ("apps", "buildpacks", "orders", "platform", "builder.toml", "run-image")
"""What of samples/ a first builder and a first image are made of."""
DOCUMENTS = (".md", ".svg", ".png")


@dataclass(frozen=True)
class File:
    """A file with its contents."""

    contents: bytes
    is_executable: bool = False


@dataclass(frozen=True)
class Link:
    """A link, relative to its own folder."""

    target: str


Tree = dict[str, File | Link]


def zipped(contents: bytes) -> bytes:
    """The contents in gzip, without a name and a time."""
    return gzip.compress(contents, compresslevel=9, mtime=0)


def copied(checkout: Checkout, path: str) -> File:
    """A committed file as it is."""
    return File(checkout.contents(path), checkout.executable[path])


def shared(checkout: Checkout) -> Tree:
    """What `cnb` is made of: its package, and samples to begin with, as they lie in the repository."""
    samples = (f"samples/{name}" for name in SAMPLES)
    paths = checkout.at("front/bin", "front/cnb", *samples)
    return {f"share/lifecycle/{path}": copied(checkout, path) for path in paths}


def documents(checkout: Checkout) -> Tree:
    """Manual pages, completions, and the repository's pages with the pictures in them."""
    tree: Tree = {}
    for name in ("lifecycle", "cnb"):
        tree[f"share/man/man1/{name}.1.gz"] = File(zipped(checkout.contents(f"docs/{name}.1")))
        tree[f"share/bash-completion/completions/{name}"] = File(checkout.contents(f"docs/{name}.bash"))
    pages = [path for path in checkout.at("docs") if path.endswith(DOCUMENTS)]
    for path in ["README.md", "CHANGELOG.md", "CONTRIBUTING.md", "samples/README.md", *pages]:
        tree[f"share/doc/lifecycle/{path}"] = File(checkout.contents(path))
    return tree


def installed(checkout: Checkout, program: Program) -> Tree:
    """All that is installed."""
    return {
        "bin/lifecycle": File(program.contents, is_executable=True),
        "bin/cnb": Link("../share/lifecycle/front/bin/cnb"),
        "lib/lifecycle/launcher": File(program.contents, is_executable=True),
        # `cnb` takes the program that lies beside its own folder.
        "share/lifecycle/bin/lifecycle": Link("../../../bin/lifecycle"),
        "share/lifecycle/PROVED.txt": File(proved_text(checkout, program).encode()),
        "share/doc/lifecycle/PROVED.txt": Link("../../lifecycle/PROVED.txt"),
        **shared(checkout),
        **documents(checkout),
    }
