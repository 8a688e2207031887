"""The commands on run images and layouts."""

import json
from dataclasses import asdict
from functools import partial
from pathlib import Path

import click

from cnb.documents import read_run_image
from cnb.failure import Failure
from cnb.home import Home, checked_name
from cnb.oci.load import load as load_image
from cnb.oci.read import in_one_sentence
from cnb.oci.run_image import RunImageMaker
from cnb.oci.store import kept_beside
from cnb.oci.write import write
from cnb.program import Ended, Program
from cnb.words import FOLDER, Command, Group, completes, image_name, json_option


@click.group("run-image", cls=Group, example="cnb run-image add debian --root /srv/debian")
def run_image() -> None:
    """Make the run images that applications are built on, and list them."""


def unfit(program: Path, root: Path) -> list[str]:
    """What the launcher lacks in a root, as far as the library is installed that reads programs."""
    try:
        from cnb.oci.c_library import unfit_for
    except ImportError:
        return ["whether the launcher can start on this root isn't known: install python3-pyelftools"]
    return unfit_for(program, root)


def say_losses(ended: Ended, lines: list[str]) -> None:
    """Says what a run image that was made doesn't keep, or ends as `base` ended."""
    if ended.status != 0:
        raise Failure(ended.refusal or ended.said.strip() or f"lifecycle base ended with {ended.status}", status=ended.status)
    for line in lines:
        click.echo(line, err=True)


@run_image.command("add", cls=Command, example="cnb run-image add slim --oci ./debian:slim")
@click.argument("name", metavar="NAME", shell_complete=completes(Home.run_image_names))
@click.option("--root", metavar="DIR", type=FOLDER, help="The root folder of a distribution.")
@click.option("--oci", metavar="LAYOUT[:TAG]", help="An image of a layout, as skopeo copy docker://.. oci:LAYOUT:TAG leaves one.")
def add(name: str, root: Path | None, oci: str | None) -> None:
    """Make the run image NAME of a root folder or of an image of an OCI layout, with its environment.

    What a run image doesn't keep is said on standard error, and whether the launcher of an image can start on it."""
    checked_name(name, "run image")
    if (root is None) == (oci is None):
        raise click.UsageError("Name either a root folder with --root or an image with --oci.")
    home, program = Home.open(), Program.find()
    maker = RunImageMaker(program, home.store, partial(unfit, program.path))
    with home.lock_store(shared=True):
        with in_one_sentence():
            ended, lines = maker.of_root(name, root) if root is not None else maker.of_layout(name, oci or "")
    say_losses(ended, lines)
    click.echo(f"{name} is a run image: cnb build APP --run-image {name}")


def listed(home: Home, name: str) -> dict[str, object]:
    document = home.run_image(name)
    image = read_run_image(document)
    variables = {variable.name: variable.value for variable in image.env}
    return {"name": name, "target": f"{image.os}/{image.arch}", "env": variables, **asdict(kept_beside(document, image.rows[-1]))}


def list_run_images(as_json: bool) -> None:
    home = Home.open()
    rows = [listed(home, name) for name in home.run_image_names()]
    if as_json:
        click.echo(json.dumps(rows, indent=1))
        return
    if not rows:
        raise Failure("There is no run image.", hint="cnb run-image add NAME --root DIR makes one.")
    for row in rows:
        user = f"  user {row['user']}" if row["user"] else ""
        click.echo(f"{row['name']}  {row['target']}{user}")


@run_image.command("list", cls=Command, example="cnb run-image list")
@json_option
def run_image_list(as_json: bool) -> None:
    """List the run images."""
    list_run_images(as_json)


@click.command("run-images", cls=Command, example="cnb run-images")
@json_option
def run_images(as_json: bool) -> None:
    """List the run images, with the system and the processor that each is for."""
    list_run_images(as_json)


@click.command("save", cls=Command, example="cnb save shop --oci ./shop && skopeo copy oci:./shop:shop docker://registry.example.org/shop")
@image_name
@click.option("--oci", "folder", metavar="DIR", required=True, type=click.Path(path_type=Path), help="The folder of the layout, which must be absent.")
def save(name: str, folder: Path) -> None:
    """Write the image NAME as an OCI image layout, which skopeo, umoci and buildah load."""
    home = Home.open()
    with home.lock_store(shared=True):
        written = write(home.store, name, folder)
    click.echo(f"{name}: {written.layers} layers, manifest {written.digest}")


@click.command("load", cls=Command, example="cnb load ./shop:shop shop")
@click.argument("layout", metavar="LAYOUT[:TAG]")
@image_name
def load(layout: str, name: str) -> None:
    """Read an image that cnb save wrote, here or elsewhere, under the name NAME.

    Its layers have the digests that they had where it was saved. An image of another tool is no image here: make a run image
    of it by cnb run-image add."""
    home = Home.open()
    with home.lock_store(shared=True), in_one_sentence():
        rows = load_image(Program.find(), layout, home.store, name)
    click.echo(f"{name} is loaded: {rows} rows")
