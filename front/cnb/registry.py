"""`cnb publish` and `cnb fetch`: images through a registry, by skopeo.

A layer is pushed as `cnb save` writes it, so the same layer has the same digest from whichever machine it comes, and the
registry takes only those that it lacks."""

import re
import subprocess
import tempfile
from collections.abc import Sequence
from pathlib import Path

import click

from cnb.failure import Failure
from cnb.home import Home, checked_name
from cnb.oci.load import load
from cnb.oci.read import in_one_sentence
from cnb.oci.write import write
from cnb.program import Program
from cnb.words import Command, image_name

# A reference as registries have it: a host, perhaps with a port, a path, and perhaps a tag or a digest.
REFERENCE = re.compile(r"(?P<host>[^/\s]+)/(?:[^/\s]+/)*(?P<last>[^/:@\s]+)(?:[:@]\S+)?")
SAID = re.compile(r'.* level=fatal msg="(?P<text>.*)"')
LOOPBACK = re.compile(r"(localhost|127\.\d+\.\d+\.\d+|\[::1\])(:\d+)?")


def name_in(reference: str) -> str:
    """The last part of a reference, without its tag: the name that the image gets here."""
    found = REFERENCE.fullmatch(reference)
    if found is None:
        raise Failure(f"{reference!r} is no reference of a registry.", hint="It is as registry.example.org/team/shop:1")
    return found["last"]


def reason_in(said: str) -> str:
    """Why skopeo ended, from what it printed on standard error: the last line, without its time and level."""
    last = said.strip().rpartition("\n")[2]
    found = SAID.fullmatch(last)
    return found["text"].replace('\\"', '"') if found else last


def skopeo(side: str, reference: str, words: Sequence[str]) -> None:
    """Copies an image from or to a registry without changing a byte. One on this machine may speak plain HTTP."""
    options = ["copy", "--quiet", "--preserve-digests"]
    if LOOPBACK.fullmatch(reference.split("/")[0]):
        options.append(f"--{side}-tls-verify=false")
    try:
        ended = subprocess.run(["skopeo", *options, *words], capture_output=True, text=True, check=False)
    except FileNotFoundError as fault:
        raise Failure("skopeo isn't installed.", hint="On Debian: apt install skopeo") from fault
    if ended.returncode != 0:
        reason = reason_in(ended.stderr) or f"skopeo ended with {ended.returncode}"
        raise Failure(f"{reference}: {reason}", hint="skopeo login HOST gives you access to a registry that asks for it.")


def publish_image(home: Home, name: str, reference: str) -> str:
    """Pushes an image, and returns the digest of its manifest."""
    name_in(reference)
    with tempfile.TemporaryDirectory(prefix="layout-", dir=home.root) as room:
        layout = Path(room, "layout")
        with home.lock_store(shared=True):
            written = write(home.store, name, layout)
        skopeo("dest", reference, [f"oci:{layout}:{name}", f"docker://{reference}"])
    return written.digest


def fetch_image(home: Home, reference: str, name: str) -> int:
    """Pulls an image that was published, and returns the number of its rows."""
    with tempfile.TemporaryDirectory(prefix="layout-", dir=home.root) as room:
        layout = Path(room, "layout")
        skopeo("src", reference, [f"docker://{reference}", f"oci:{layout}:{name}"])
        with home.lock_store(shared=True), in_one_sentence():
            return load(Program.find(), f"{layout}:{name}", home.store, name)


@click.command(cls=Command, example="cnb publish shop registry.example.org/team/shop:1")
@image_name
@click.argument("reference", metavar="REF")
def publish(name: str, reference: str) -> None:
    """Push the image NAME to a registry.

    Layers that the registry has already aren't pushed again. Nobody but `cnb fetch` needs cnb for the image: any container
    tool pulls it."""
    digest = publish_image(Home.open(), name, reference)
    click.echo(f"{name} is published: {reference.split('@')[0]} has {digest}")


@click.command(cls=Command, example="cnb fetch registry.example.org/team/shop:1")
@click.argument("reference", metavar="REF")
@click.argument("name", metavar="[NAME]", required=False)
def fetch(reference: str, name: str | None) -> None:
    """Pull an image that `cnb publish` pushed, under the name NAME or that of the reference.

    It has the digests that it had where it was built, so `cnb rebase` makes the same image of it there and here."""
    wanted = checked_name(name or name_in(reference))
    rows = fetch_image(Home.open(), reference, wanted)
    click.echo(f"{wanted} is fetched: {rows} rows")
